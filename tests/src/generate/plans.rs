//! The plans of random sheets, each a function. A seed gives a plan (see [`SHARES`]) and all that is random in it.

use super::writer::Writer;
use super::{key_of, EDGE_KEYS};
use crate::model::*;
use crate::sheet::{Command, COMMANDS};

/// What a sheet is made to reach.
#[derive(Clone, Copy, Debug, PartialEq, Eq, PartialOrd, Ord)]
pub enum Plan {
    Tiny,
    Crowded,
    Middling,
    ManyOpens,
    OpenEdges,
    Noise,
    Spent,
    CutShort,
    UnknownByte,
    OuterKeys,
    Halves,
    Large,
    Filled,
    DeepChain,
    LongLines,
    ShortCommands,
    BufferEdges,
    Long,
}

/// Each plan's share of [`ROUND`] seeds in a row; the plans with large sheets have small shares.
pub const SHARES: [(Plan, u64); 18] = [
    (Plan::Tiny, 5),
    (Plan::Crowded, 6),
    (Plan::Middling, 5),
    (Plan::ManyOpens, 6),
    (Plan::OpenEdges, 1),
    (Plan::Noise, 4),
    (Plan::Spent, 5),
    (Plan::CutShort, 9),
    (Plan::UnknownByte, 8),
    (Plan::OuterKeys, 5),
    (Plan::Halves, 3),
    (Plan::Large, 1),
    (Plan::Filled, 1),
    (Plan::DeepChain, 1),
    (Plan::LongLines, 1),
    (Plan::ShortCommands, 1),
    (Plan::BufferEdges, 1),
    (Plan::Long, 1),
];

/// So many seeds in a row meet every plan.
pub const ROUND: u64 = 64;

/// A seed's plan, and which sheet of this plan it is, counted from 0 over the seeds below it.
pub fn plan(seed: u64) -> (Plan, u64) {
    let mut place = seed % ROUND;
    for (plan, share) in SHARES {
        if place < share {
            return (plan, seed / ROUND * share + place);
        }
        place -= share;
    }
    unreachable!("the shares add up to a round")
}

/// The random sheet of a seed.
pub fn sheet(seed: u64) -> Vec<u8> {
    let (plan, which) = plan(seed);
    let mut writer = Writer::new(seed);
    match plan {
        Plan::Tiny => tiny(&mut writer),
        Plan::Crowded => crowded(&mut writer),
        Plan::Middling => middling(&mut writer),
        Plan::ManyOpens => many_opens(&mut writer),
        Plan::OpenEdges => open_edges(&mut writer),
        Plan::Noise => noise(&mut writer),
        Plan::Spent => spent(&mut writer),
        Plan::CutShort => cut_short(&mut writer, which),
        Plan::UnknownByte => unknown_byte(&mut writer, which),
        Plan::OuterKeys => outer_keys(&mut writer),
        Plan::Halves => halves(&mut writer),
        Plan::Large => large(&mut writer),
        Plan::Filled => filled(&mut writer, which),
        Plan::DeepChain => deep_chain(&mut writer),
        Plan::LongLines => long_lines(&mut writer),
        Plan::ShortCommands => short_commands(&mut writer, which),
        Plan::BufferEdges => buffer_edges(&mut writer, which),
        Plan::Long => {
            let commands = writer.random.within(200_000, 500_000);
            long(&mut writer, commands);
        }
    }
    // These three are made for the very bytes that they end with.
    if !matches!(plan, Plan::CutShort | Plan::UnknownByte | Plan::BufferEdges) {
        writer.finale();
    }
    writer.bytes
}

/// A sheet of so many commands or a few more, most of them starts and steps.
pub fn long_sheet(seed: u64, commands: u32) -> Vec<u8> {
    let mut writer = Writer::new(seed);
    long(&mut writer, commands);
    writer.bytes
}

/// Bytes of the longest command.
fn longest_command() -> usize {
    COMMANDS.iter().map(|&(_, bytes)| bytes).max().unwrap_or(1)
}

/// Tables that are full very soon.
fn tiny(writer: &mut Writer) {
    writer.session((1, 3), (1, 5), (1, 3), 400, 8);
}

/// Eight processes on very few keys: waits.
fn crowded(writer: &mut Writer) {
    writer.session((1, 4), (1, 40), (8, 8), 1_500, 25);
}

fn middling(writer: &mut Writer) {
    writer.session((5, 60), (10, 200), (2, 8), 4_000, 25);
}

fn large(writer: &mut Writer) {
    writer.session((200, 1_023), (400, 4_095), (4, 8), 20_000, 60);
}

/// Far more bytes than any buffer takes at once.
fn long(writer: &mut Writer, commands: u32) {
    writer.session((50, 1_023), (100, 4_095), (2, 8), commands, 2_000);
}

/// Opens in the middle, good and bad, with commands behind each.
fn many_opens(writer: &mut Writer) {
    for _ in 0..40 {
        let wild = writer.random.word();
        let keys = writer.random.pick(&[0, 1, 2, 1_023, 1_024, 65_535, 5, wild >> 16]);
        let versions = writer.random.pick(&[0, 1, 3, 4_095, 4_096, 65_535, 7, wild & 0xFFFF]);
        let processes = writer.random.pick(&[0, 1, 2, 8, 9, 255, 3, wild & 0xFF]);
        let limit = writer.random.pick(&[0, 1, 40, MAX_LIMIT, MAX_LIMIT + 1, u32::MAX, wild]);
        if writer.random.once_in(2) {
            writer.open(keys, versions, processes, limit);
        } else {
            writer.open(keys % 1_023 + 1, versions % 4_095 + 1, processes % 8 + 1, limit % MAX_LIMIT + 1);
        }
        for _ in 0..writer.random.below(60) {
            writer.any(10, 4);
        }
    }
}

/// Opens with every choice of operands at the edges of their ranges, in random order, a few commands behind each.
fn open_edges(writer: &mut Writer) {
    let mut opens = Vec::new();
    for keys in [0, 1, 1_023, 1_024, 65_535] {
        for versions in [0, 1, 4_095, 4_096, 65_535] {
            for processes in (0..10).chain([255]) {
                let limits = [0, 1, MAX_LIMIT, MAX_LIMIT + 1, u32::MAX];
                opens.extend(limits.map(|limit| (keys, versions, processes, limit)));
            }
        }
    }
    while !opens.is_empty() {
        let chosen = writer.random.below(opens.len() as u32);
        let (keys, versions, processes, limit) = opens.swap_remove(chosen as usize);
        writer.open(keys, versions, processes, limit);
        for _ in 0..writer.random.below(4) {
            writer.any(5, 4);
        }
    }
}

/// Command bytes in front of random operands, most of them small; ends at the first unknown byte.
fn noise(writer: &mut Writer) {
    writer.open(2, 3, 2, 500);
    for _ in 0..300 {
        let first = writer.random.pick(b"OPpGgSSSSSSSSLlI");
        let mut bytes = vec![first];
        for _ in 1..longest_command() {
            bytes.push(if writer.random.once_in(3) { writer.random.below(3) as u8 } else { 0 });
        }
        if let Ok((command, _)) = Command::decode(&bytes) {
            writer.add(command);
        }
        if writer.random.once_in(100) {
            let byte = writer.random.word() as u8;
            writer.bytes.push(byte);
        }
    }
}

/// Runs into the event limit, and on.
fn spent(writer: &mut Writer) {
    for _ in 0..6 {
        let limit = writer.random.within(1, 120);
        let processes = writer.random.within(1, 8);
        writer.open(3, 6, processes, limit);
        for _ in 0..limit + 30 {
            writer.any(12, 4);
        }
    }
}

/// Some commands with no store, with a store, or behind a refused open (whose 14 gives way to 15 and 16).
fn beginning(writer: &mut Writer, which: u64) {
    match which % 3 {
        0 => (0..writer.random.below(3)).for_each(|_| writer.add(Command::Inspect)),
        1 => writer.session((1, 3), (1, 5), (1, 3), 30, 8),
        _ => {
            writer.session((1, 3), (1, 5), (1, 3), 30, 8);
            writer.open(0, 1, 1, 1);
            writer.odd(2);
        }
    }
}

/// Ends within a command: in turn each command with each count of its bytes, behind each beginning.
fn cut_short(writer: &mut Writer, which: u64) {
    let cuts: Vec<(u8, usize)> =
        COMMANDS.iter().flat_map(|&(first, all)| (1..all).map(move |kept| (first, kept))).collect();
    let cases = cuts.len() as u64;
    let (first, kept) = cuts[(which % cases) as usize];
    beginning(writer, which / cases);
    writer.bytes.push(first);
    for _ in 1..kept {
        let byte = writer.random.word() as u8;
        writer.bytes.push(byte);
    }
}

/// In turn each unknown byte in first, last and middle place.
fn unknown_byte(writer: &mut Writer, which: u64) {
    let unknown: Vec<u8> = (0..=255).filter(|&byte| COMMANDS.iter().all(|&(known, _)| known != byte)).collect();
    let byte = unknown[(which % unknown.len() as u64) as usize];
    let (before, behind) = [(false, true), (true, false), (true, true)][(which % 3) as usize];
    if before {
        let which = writer.random.long();
        beginning(writer, which);
        writer.add(Command::Inspect);
    }
    writer.bytes.push(byte);
    if behind {
        beginning(writer, 1);
    }
}

/// The keys at both ends of 64 and of 32 bits, lawful and not.
fn outer_keys(writer: &mut Writer) {
    let keys = writer.random.within(1, 8);
    among(writer, (keys, 12), 600, &EDGE_KEYS);
}

/// Keys of two or three low and as many high halves: each has others that differ from it in one half only.
fn halves(writer: &mut Writer) {
    let edges = [0, 1, 5, 1 << 31, u32::MAX - 1, u32::MAX];
    let lows = [writer.random.pick(&edges), writer.random.word(), 5];
    let highs = [0, writer.random.word(), writer.random.pick(&edges)];
    let keys: Vec<u64> = lows.iter().flat_map(|&low| highs.map(|high| key_of_halves(low, high))).collect();
    among(writer, (8, 60), 1_500, &keys);
}

/// So many commands of some processes on these keys, on a store that holds so many keys and versions.
fn among(writer: &mut Writer, held: (u32, u32), commands: u32, keys: &[u64]) {
    let processes = writer.random.within(1, 4);
    writer.open(held.0, held.1, processes, MAX_LIMIT);
    for _ in 0..commands {
        let key = writer.random.pick(keys);
        let process = writer.next_process();
        if writer.random.once_in(20) {
            let back = writer.random.below(3);
            writer.look(key, back);
        } else if !writer.step_if_running(process) {
            writer.start_on(process, key, (0, 3));
        }
    }
}

/// Eight processes fill the largest tables with rising timestamps and honest draws, then go on against them.
fn filled(writer: &mut Writer, which: u64) {
    let versions = [MAX_VERSIONS, MAX_KEYS + 100, MAX_KEYS][(which % 3) as usize];
    writer.open(MAX_KEYS, versions, 8, MAX_LIMIT);
    let pool = MAX_KEYS + 40;
    let mut started = 0;
    while writer.versions().is_some_and(|held| held < versions) {
        let process = writer.random.below(8);
        if writer.step_if_running(process) {
            continue;
        }
        started += 1;
        let (key, value, draw) = (key_of(started * 7 % pool), writer.random.word(), writer.random.word() as u16);
        writer.put(process, key, value, started, draw);
    }
    for _ in 0..3_000 {
        writer.any(50, pool);
    }
}

/// One or two keys with all 4,095 versions; looks to both ends of the chain.
fn deep_chain(writer: &mut Writer) {
    let keys = writer.random.within(1, 2);
    writer.open(keys, MAX_VERSIONS, 3, MAX_LIMIT);
    while writer.versions().is_some_and(|held| held < MAX_VERSIONS) {
        let process = writer.next_process();
        if !writer.step_if_running(process) {
            let key = key_of(writer.random.below(keys));
            writer.start_on(process, key, (7, 8));
        }
    }
    for _ in 0..300 {
        let key = key_of(writer.random.below(keys));
        let middle = writer.random.below(MAX_VERSIONS);
        let back = writer.random.pick(&[0, 1, 4_093, 4_094, 4_095, 4_096, 65_535, middle]);
        writer.look(key, back);
        writer.any(50, keys + 1);
    }
}

/// Numbers with as many digits as can be.
fn long_lines(writer: &mut Writer) {
    writer.open(MAX_KEYS, 300, 8, MAX_LIMIT);
    for _ in 0..40_000 {
        let key = LAST_KEY - u64::from(writer.random.below(150));
        let process = writer.next_process();
        if writer.random.once_in(10) {
            let back = writer.random.below(3);
            writer.look(key, back);
        } else if !writer.step_if_running(process) {
            writer.start_on(process, key, (u32::MAX - 3, u32::MAX));
        }
    }
}

/// Commands of one byte, each with a line many times as long: with no store, with one idle, with one busy.
fn short_commands(writer: &mut Writer, which: u64) {
    match which % 3 {
        0 => {}
        1 => writer.open(2, 3, 1, 90),
        _ => {
            writer.open(2, 3, 1, 90);
            writer.get(0, 7);
        }
    }
    for _ in 0..writer.random.within(60_000, 140_000) {
        writer.add(Command::Inspect);
    }
}

/// A sheet of about a power of two of bytes, to the byte: cut there, or filled up to there with inspections.
fn buffer_edges(writer: &mut Writer, which: u64) {
    let powers = [64, 512, 1_024, 4_096, 8_192, 16_384, 32_768, 65_536, 131_072];
    let size = powers[(which % powers.len() as u64) as usize] + writer.random.within(0, 34) - 17;
    let size = size as usize;
    writer.open(3, 200, 4, MAX_LIMIT);
    while writer.bytes.len() < size - longest_command() {
        writer.any(1_000, 4);
    }
    if writer.random.once_in(2) {
        (0..longest_command()).for_each(|_| writer.any(1_000, 4));
    }
    while writer.bytes.len() < size {
        writer.add(Command::Inspect);
    }
    writer.bytes.truncate(size);
}
