//! The calls of a workload, from a fixed seed: the same for every implementation.

/// splitmix64: one seed, one row of numbers, on every machine.
struct Random(u64);

impl Random {
    fn long(&mut self) -> u64 {
        self.0 = self.0.wrapping_add(0x9E37_79B9_7F4A_7C15);
        let mut z = self.0;
        z = (z ^ (z >> 30)).wrapping_mul(0xBF58_476D_1CE4_E5B9);
        z = (z ^ (z >> 27)).wrapping_mul(0x94D0_49BB_1331_11EB);
        z ^ (z >> 31)
    }

    fn below(&mut self, bound: u32) -> u32 {
        (((self.long() >> 32) * bound as u64) >> 32) as u32
    }

    /// A key anywhere in the 64 bits. A third of all keys are any number; a third share the high half with many others,
    /// so that the low one settles their order; a third share the low half.
    fn key(&mut self) -> u64 {
        let long = self.long();
        let half = long & 0xFFFF_FFFF;
        let shared = SHARED[(long >> 32) as usize % SHARED.len()];
        let key = match (long >> 34) % 3 {
            0 => long,
            1 => shared << 32 | half,
            _ => half << 32 | shared,
        };
        key.clamp(1, u64::MAX - 1)
    }
}

/// Halves that many keys have: the least and the greatest, and those where a signed order would go wrong.
const SHARED: [u64; 4] = [0, 0x7FFF_FFFF, 0x8000_0000, 0xFFFF_FFFF];

/// A scan is of the keys from the call's own to `last`.
#[derive(Clone, Copy)]
pub enum Kind {
    Put { value: u32, timestamp: u32, draw: u16 },
    Get,
    Scan { last: u64 },
}

#[derive(Clone, Copy)]
pub struct Call {
    pub key: u64,
    pub kind: Kind,
}

pub struct Plan {
    pub keys: u32,
    pub versions: u32,
    /// Puts that fill an empty store: every key made, every version used, in mixed order.
    pub fill: Vec<Call>,
    /// Gets on the full store, a quarter of them of keys that it does not have.
    pub gets: Vec<Call>,
    /// Puts on the full store, a quarter of them of new keys; a full store stays as it is.
    pub puts: Vec<Call>,
    /// Scans of the full store, each of as many keys as a span has.
    pub scans: Vec<Call>,
    /// Gets of the keys of the scans' spans, one span after another.
    pub span_gets: Vec<Call>,
    pub inspections: u64,
}

const FIRST_TIMESTAMP: u32 = 1_000;

impl Plan {
    /// The spans have `span` keys, or all of them where there are fewer.
    pub fn new(keys: u32, versions: u32, calls: usize, inspections: u64, span: usize) -> Plan {
        let mut random = Random(0x7E7_0001);
        let mut made = Vec::new();
        let fill = (0..versions).map(|at| fill_call(&mut random, &mut made, at, keys, versions)).collect();
        let (gets, puts, scans, span_gets) = Default::default();
        let mut plan = Plan { keys, versions, fill, gets, puts, scans, span_gets, inspections };
        for _ in 0..calls {
            let key = if random.below(4) == 0 { random.key() } else { made[random.below(keys) as usize] };
            plan.gets.push(Call { key, kind: Kind::Get });
            let timestamp = FIRST_TIMESTAMP + random.below(2 * versions);
            plan.puts.push(put(&mut random, key, timestamp));
        }
        plan.add_scans(&mut random, made, calls, span);
        plan
    }

    /// Behind the other calls, so that these are the same with spans of any length.
    fn add_scans(&mut self, random: &mut Random, mut made: Vec<u64>, calls: usize, span: usize) {
        made.sort_unstable();
        let span = span.clamp(1, made.len());
        for _ in 0..calls {
            let from = random.below((made.len() - span) as u32 + 1) as usize;
            let keys = &made[from..from + span];
            self.scans.push(Call { key: keys[0], kind: Kind::Scan { last: keys[span - 1] } });
            let gets = keys.iter().take(calls - self.span_gets.len());
            self.span_gets.extend(gets.map(|&key| Call { key, kind: Kind::Get }));
        }
    }
}

fn put(random: &mut Random, key: u64, timestamp: u32) -> Call {
    let value = random.below(u32::MAX);
    let draw = random.long() as u16;
    Call { key, kind: Kind::Put { value, timestamp, draw } }
}

/// Put number `at` of a fill: new keys come evenly among versions added to keys that are there.
fn fill_call(random: &mut Random, made: &mut Vec<u64>, at: u32, keys: u32, versions: u32) -> Call {
    let due = (at as u64 * keys as u64).div_ceil(versions as u64).max(1);
    let key = if (made.len() as u64) < due || versions - at <= keys - made.len() as u32 {
        let key = random.key();
        assert!(!made.contains(&key), "the seed gives a key twice");
        made.push(key);
        key
    } else {
        made[random.below(made.len() as u32) as usize]
    };
    put(random, key, FIRST_TIMESTAMP + at)
}
