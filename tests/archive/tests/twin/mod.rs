//! The model behind the header's functions, on lent memory: right, or with one slip that the comparison has to tell.

pub mod chains;
pub mod tops;

use archive_tests::expected::{perform, unknown_beside, Outcome};
use archive_tests::fence::{page_words, WIDE};
use archive_tests::interface::Interface;
use archive_tests::subject::answer_words;
use archive_tests::words::*;
use chains::Pass;
use std::cell::Cell;
use std::ptr::null_mut;
use store_tests::broken::{self, Broken};
use store_tests::damage::{Operation, Reply};
use store_tests::machine::Machine;
use store_tests::model::{low_half, Call, Refusal, State, Store};
use tops::Count;

#[derive(Clone, Copy, Debug, PartialEq, Eq)]
pub enum Slip {
    None,
    /// A start, a step, a look or an inspection of the model's own slips.
    Model(broken::Slip),
    /// An inspection makes such a pass over each chain.
    Pass(Pass),
    /// An inspection counts the nodes of the levels so.
    Count(Count),
    /// A step's answer has another word.
    Answer(usize),
    /// Refusal 10 is told as 11.
    Number,
    /// A refused call leaves its answer's words.
    AnswerLeft,
    /// A refused step counts as an event.
    RefusedCounts,
    /// A step alters this word of this part, if there is one.
    Word(Part, usize),
    /// A start refuses unknown numbers of any process.
    AllTested,
    /// A step makes the unknown numbers of other processes known.
    OthersMadeKnown,
    /// Lengths are counted in 32 bits.
    ShortLengths,
    /// A refused open leaves the state.
    RefusedOpenKeeps,
    /// The high half of a tray is lost on its way in.
    ShortKeys,
    /// A start writes the halves of its tray changed over.
    HalvesSwapped,
    /// The last tray of a sweep is lost on its way in: it is the first.
    LastLost,
    /// A start of a sweep writes the halves of its last tray changed over.
    LastSwapped,
    /// A step that shows gives the halves of the tray changed over.
    ShownSwapped,
    /// A step writes a word beside this part, where that is not a guard page.
    Beside(Part),
    /// A step reads the word on the guard page.
    Guard(Part),
    /// A look writes the state, with the word that stands there.
    Const,
    Abort,
}

thread_local! {
    pub static SLIP: Cell<Slip> = const { Cell::new(Slip::None) };
}

type Lent = [(*mut u32, usize); 4];
const NOT_LENT: (*mut u32, usize) = (null_mut(), 0);

unsafe fn read((first, length): (*mut u32, usize)) -> Vec<u32> {
    (0..length % WIDE).map(|at| *first.add(at)).collect()
}

unsafe fn write((first, _): (*mut u32, usize), words: &[u32]) {
    words.iter().enumerate().for_each(|(at, &word)| *first.add(at) = word);
}

/// One call: the words lent are read, the model works on them, and what it changed is written.
unsafe fn turn(lent: Lent, operation: Operation, answer: *mut u32) -> u32 {
    let slip = SLIP.get();
    let before = Words([read(lent[0]), read(lent[1]), read(lent[2]), read(lent[3])]);
    let mut words = before.clone();
    let wide = Part::ALL.into_iter().find(|&part| lent[part as usize].1 >= WIDE);
    let wide = wide.filter(|_| slip != Slip::ShortLengths);
    let mut outcome = match (slip, operation) {
        (Slip::Model(_), Operation::Open { .. } | Operation::Status { .. }) => perform(&mut words, wide, operation),
        (Slip::Model(slip), _) => broken_call(&mut words, slip, operation),
        (Slip::AllTested, Operation::Start { .. }) if unknown_beside(before.state(), operation) => {
            Outcome { words: Reply::Refused(Refusal::AlteredState).words(), flaw: None }
        }
        (Slip::ShortKeys, _) => perform(&mut words, wide, short(operation)),
        (Slip::LastLost, Operation::Start { process, call: Call::Scan { first, .. } }) => {
            perform(&mut words, wide, Operation::Start { process, call: Call::Scan { first, last: first } })
        }
        _ => perform(&mut words, wide, operation),
    };
    spoil(slip, &before, &mut words, operation, &mut outcome);
    for part in Part::ALL {
        if words.part(part) != before.part(part) {
            write(lent[part as usize], words.part(part));
        }
    }
    if slip != Slip::AnswerLeft || outcome.words[0] == 0 {
        write((answer, 0), &outcome.words[1..=answer_words(operation)]);
    }
    stray(slip, lent, operation);
    outcome.words[0]
}

/// The slips that only alter what the call gives.
fn spoil(slip: Slip, before: &Words, words: &mut Words, operation: Operation, outcome: &mut Outcome) {
    let number = outcome.words[0];
    let step = matches!(operation, Operation::Step { .. });
    match slip {
        Slip::Answer(at) if step && number == 0 => outcome.words[1 + at] ^= 1,
        Slip::Number if number == 10 => outcome.words[0] = 11,
        Slip::RefusedCounts if step && number == 8 => words.part_mut(Part::State)[4] += 1,
        Slip::Word(part, at) if step => {
            if let Some(word) = words.part_mut(part).get_mut(at) {
                *word ^= 1 << 31;
            }
        }
        Slip::OthersMadeKnown if step && number == 0 => {
            let kinds = words.part_mut(Part::State)[HEAD..].iter_mut().step_by(PROCESS);
            kinds.for_each(|kind| *kind = (*kind).min(GREATEST_KIND));
        }
        Slip::HalvesSwapped if number == 0 => swap_halves(words, operation, KEY_OF_PROCESS),
        Slip::LastSwapped if number == 0 => swap_halves(words, operation, LAST_OF_PROCESS),
        Slip::ShownSwapped if step && number == 0 && outcome.words[1] == 3 => outcome.words.swap(3, 4),
        Slip::Pass(pass) if operation == Operation::Inspect && number == 0 => {
            outcome.words = chains::inspect(before, pass);
        }
        Slip::Count(count) if operation == Operation::Inspect && number == 0 => {
            outcome.words = tops::inspect(before, count);
        }
        Slip::RefusedOpenKeeps if (1..5).contains(&number) => words.clone_from(before),
        _ => {}
    }
}

/// Changes over two words of the process that a start gives a call.
fn swap_halves(words: &mut Words, operation: Operation, [low, high]: [usize; 2]) {
    if let Operation::Start { process, .. } = operation {
        words.part_mut(Part::State)[words_of(process as usize)].swap(low, high);
    }
}

/// The slips that touch memory which is not lent, or lent to be read only.
unsafe fn stray(slip: Slip, lent: Lent, operation: Operation) {
    match (slip, operation) {
        (Slip::Beside(part), Operation::Step { .. }) => {
            let (first, length) = lent[part as usize];
            match (at_guard(first.add(length)), at_guard(first)) {
                (false, _) => *first.add(length) ^= 1,
                (true, false) => *first.sub(1) ^= 1,
                (true, true) => {}
            }
        }
        (Slip::Guard(part), Operation::Step { .. }) => {
            let (first, length) = lent[part as usize];
            let at = if at_guard(first.add(length)) { first.add(length) } else { first.sub(1) };
            at.read_volatile();
        }
        (Slip::Const, Operation::Look { .. }) if lent[0].1 == STATE => lent[0].0.write_volatile(LAYOUT),
        (Slip::Abort, Operation::Look { .. }) => std::process::abort(),
        _ => {}
    }
}

/// Does a page begin here? Each part has less than a page beside its own, so the guard begins or ends here.
fn at_guard(word: *mut u32) -> bool {
    (word as usize).is_multiple_of(4 * page_words())
}

/// The operation with trays of 32 bits.
fn short(operation: Operation) -> Operation {
    let cut = |key| u64::from(low_half(key));
    let cut_call = |call| match call {
        Call::Put { key, value, timestamp, draw } => Call::Put { key: cut(key), value, timestamp, draw },
        Call::Get { key } => Call::Get { key: cut(key) },
        Call::Scan { first, last } => Call::Scan { first: cut(first), last: cut(last) },
    };
    match operation {
        Operation::Start { process, call } => Operation::Start { process, call: cut_call(call) },
        Operation::Look { key, back } => Operation::Look { key: cut(key), back },
        other => other,
    }
}

/// A call of a broken model; the words must be lawful.
fn broken_call(words: &mut Words, slip: broken::Slip, operation: Operation) -> Outcome {
    let state = State::from_words(&words.state()[1..]).expect("a lawful state");
    let [_, node_table, version_table, tally] = std::mem::take(&mut words.0);
    let mut broken = Broken { store: Store { state, node_table, version_table, tally }, slip };
    let reply = match operation {
        Operation::Start { process, call } => broken.start(process, call).map(Reply::Started),
        Operation::Step { process } => broken.step(process).map(Reply::Stepped),
        Operation::Look { key, back } => broken.look(key, back).map(|(value, stamp)| Reply::Looked(value, stamp)),
        _ => broken.inspect().map(Reply::Inspected),
    };
    let reply = reply.unwrap_or_else(Reply::Refused);
    let Store { state, node_table, version_table, tally } = broken.store;
    words.0 = [state_words(&state), node_table, version_table, tally];
    Outcome { words: reply.words(), flaw: None }
}

unsafe extern "C" fn version() -> u32 {
    LAYOUT
}

unsafe extern "C" fn state_count() -> usize {
    STATE
}

unsafe extern "C" fn tally_count() -> usize {
    7
}

unsafe extern "C" fn node_words(keys: u32) -> usize {
    if (1..=1_023).contains(&keys) {
        16 * (keys as usize + 1)
    } else {
        0
    }
}

unsafe extern "C" fn reading_words(versions: u32) -> usize {
    if (1..=4_095).contains(&versions) {
        3 * (versions as usize + 1)
    } else {
        0
    }
}

unsafe extern "C" fn open(
    s: *mut u32,
    sw: usize,
    n: *mut u32,
    nw: usize,
    v: *mut u32,
    vw: usize,
    processes: u32,
    limit: u32,
) -> u32 {
    turn([(s, sw), (n, nw), (v, vw), NOT_LENT], Operation::Open { processes, limit }, null_mut())
}

unsafe extern "C" fn start_put(
    s: *mut u32,
    sw: usize,
    n: *const u32,
    nw: usize,
    v: *const u32,
    vw: usize,
    process: u32,
    key: u64,
    value: u32,
    timestamp: u32,
    draw: u16,
    tick: *mut u32,
) -> u32 {
    let call = Call::Put { key, value, timestamp, draw };
    turn([(s, sw), (n as _, nw), (v as _, vw), NOT_LENT], Operation::Start { process, call }, tick)
}

unsafe extern "C" fn start_get(
    s: *mut u32,
    sw: usize,
    n: *const u32,
    nw: usize,
    v: *const u32,
    vw: usize,
    process: u32,
    key: u64,
    tick: *mut u32,
) -> u32 {
    let call = Call::Get { key };
    turn([(s, sw), (n as _, nw), (v as _, vw), NOT_LENT], Operation::Start { process, call }, tick)
}

unsafe extern "C" fn start_sweep(
    s: *mut u32,
    sw: usize,
    n: *const u32,
    nw: usize,
    v: *const u32,
    vw: usize,
    process: u32,
    first: u64,
    last: u64,
    tick: *mut u32,
) -> u32 {
    let call = Call::Scan { first, last };
    turn([(s, sw), (n as _, nw), (v as _, vw), NOT_LENT], Operation::Start { process, call }, tick)
}

unsafe extern "C" fn step(
    s: *mut u32,
    sw: usize,
    n: *mut u32,
    nw: usize,
    v: *mut u32,
    vw: usize,
    t: *mut u32,
    tw: usize,
    process: u32,
    answer: *mut u32,
) -> u32 {
    turn([(s, sw), (n, nw), (v, vw), (t, tw)], Operation::Step { process }, answer)
}

unsafe extern "C" fn look(
    s: *const u32,
    sw: usize,
    n: *const u32,
    nw: usize,
    v: *const u32,
    vw: usize,
    key: u64,
    back: u32,
    answer: *mut u32,
) -> u32 {
    turn([(s as _, sw), (n as _, nw), (v as _, vw), NOT_LENT], Operation::Look { key, back }, answer)
}

unsafe extern "C" fn inspect(
    s: *const u32,
    sw: usize,
    n: *const u32,
    nw: usize,
    v: *const u32,
    vw: usize,
    answer: *mut u32,
) -> u32 {
    turn([(s as _, sw), (n as _, nw), (v as _, vw), NOT_LENT], Operation::Inspect, answer)
}

unsafe extern "C" fn standing(s: *const u32, sw: usize, process: u32, answer: *mut u32) -> u32 {
    turn([(s as _, sw), NOT_LENT, NOT_LENT, NOT_LENT], Operation::Status { process }, answer)
}

pub const TWIN: Interface = Interface {
    version,
    state_words: state_count,
    tally_words: tally_count,
    node_words,
    reading_words,
    open,
    start_put,
    start_get,
    start_sweep,
    step,
    look,
    inspect,
    standing,
};
