//! The sheet program and the random sheets.

use std::collections::BTreeSet;
use store_tests::compare::Kinds;
use store_tests::generate::{self, Plan};
use store_tests::model::Refusal;
use store_tests::sheet::{run, Command, COMMANDS};
use store_tests::text;

fn lines(text: &str) -> Vec<String> {
    run(&text::write(text).unwrap()).lines().map(String::from).collect()
}

#[test]
fn empty_sheet_prints_nothing() {
    assert_eq!(run(&[]), "");
}

#[test]
fn commands_before_an_open_are_refused_14() {
    let printed = lines("get 0 7\nput 0 0 1 1 1\nstep 9\nlook 0 0\ninspect\nopen 1 1 1 1\nstep 0");
    assert_eq!(printed[..5], ["refused 14"; 5]);
    assert_eq!(printed[5..], ["open 1 1 1 1", "refused 8"]);
}

#[test]
fn unknown_bytes_and_cut_commands_end_the_run() {
    assert_eq!(run(b"\0II"), "refused 15\n", "15 comes before 14");
    assert_eq!(run(b"S"), "refused 16\n", "16 comes before 14");
    assert_eq!(run(b"IS"), "refused 14\nrefused 16\n");
    let whole: Vec<u8> = text::write("open 1 1 1 9\nput 0 1 2 3 4").unwrap();
    assert_eq!(run(&whole), "open 1 1 1 9\nstart 0 1\n");
    for cut in 11..whole.len() {
        assert_eq!(run(&whole[..cut]), "open 1 1 1 9\nrefused 16\n", "cut at {cut}");
    }
    for cut in 1..10 {
        assert_eq!(run(&whole[..cut]), "refused 16\n", "cut at {cut}");
    }
}

#[test]
fn every_byte_is_a_command_or_refused_15() {
    for byte in 0..=255u8 {
        let line = if b"OPGSLpgl".contains(&byte) { 16 } else { 15 };
        let line = if byte == b'I' { 14 } else { line };
        assert_eq!(run(&[byte]), format!("refused {line}\n"));
    }
}

#[test]
fn every_command_has_its_count_of_bytes() {
    for (first, count) in COMMANDS {
        let bytes = vec![first; count];
        let (command, rest) = Command::decode(&bytes).unwrap();
        assert_eq!(rest, []);
        let mut encoded = Vec::new();
        command.encode(&mut encoded);
        assert_eq!(encoded, bytes);
        for cut in 1..count {
            assert_eq!(Command::decode(&bytes[..cut]), Err(Refusal::CutShort), "{first:#x} cut at {cut}");
        }
    }
}

#[test]
fn each_open_replaces_the_store() {
    let printed = lines("open 2 3 1 40\nget 0 7\nopen 1 1 2 9\nget 0 7\nget 1 7");
    assert_eq!(printed, ["open 2 3 1 40", "start 0 1", "open 1 1 2 9", "start 0 1", "start 1 2"]);
    let refused = [("0 3 1 40", 1), ("1024 3 1 40", 1), ("65535 0 0 0", 1), ("2 0 0 0", 2), ("2 4096 1 40", 2)];
    let more = [("2 3 0 0", 3), ("2 3 9 40", 3), ("2 3 1 0", 4), ("2 3 1 1000000001", 4), ("2 3 1 0xFFFFFFFF", 4)];
    for (open, number) in refused.into_iter().chain(more) {
        let printed = lines(&format!("open 2 3 1 40\nget 0 7\nopen {open}\nstep 0\ninspect"));
        assert_eq!(
            printed[2..],
            [format!("refused {number}"), "refused 14".into(), "refused 14".into()],
            "open {open}"
        );
    }
}

#[test]
fn a_longer_sheet() {
    let printed = lines(
        "open 2 3 2 90\nput 0 7 250 100 1\nput 1 7 251 99 1\nsteps 0 8\nsteps 1 8\nsteps 0 3\nsteps 1 4\nlook 7 0\nlook 7 1\n\
         inspect\nget 1 7\ninspect\nsteps 1 8\ninspect\nput 2 7 1 1 1\nput 0 0 1 1 1\n\
         put 0 0xFFFFFFFFFFFFFFFF 1 1 1\nstep 0",
    );
    assert_eq!(printed[18], "step 1 18 wait");
    assert_eq!(printed[21], "done 0 put new 250 100 1 20 21");
    assert_eq!(printed[25], "done 1 put too-old 251 99 2 24 25");
    let rest = ["look 7 0 250 100", "refused 13", "sound", "start 1 26", "refused 7"];
    assert_eq!(printed[26..31], rest);
    assert_eq!(printed[37], "done 1 get found 250 100 26 33 33");
    assert_eq!(printed[38..], ["refused 8", "sound", "refused 5", "refused 6", "refused 6", "refused 8"]);
}

#[test]
fn commands_decode_as_encoded() {
    for seed in seeds_of(Plan::ManyOpens, 2 * generate::ROUND) {
        let sheet = generate::sheet(seed);
        let mut rest = &sheet[..];
        while let Some(Ok((command, after))) = (!rest.is_empty()).then(|| Command::decode(rest)) {
            let mut bytes = Vec::new();
            command.encode(&mut bytes);
            assert_eq!(bytes, rest[..rest.len() - after.len()], "seed {seed}");
            rest = after;
        }
    }
}

/// The random sheets reach all that a sheet can print, and print nothing that needs altered memory (10, 11, fault).
#[test]
fn random_sheets_reach_everything() {
    let mut kinds = Kinds::default();
    (0..generate::ROUND).for_each(|seed| kinds.count(&generate::sheet(seed)));
    println!("{kinds}");
    assert_eq!(kinds.missing(), [""; 0]);
    assert_eq!(kinds.impossible(), [""; 0]);
}

#[test]
fn shares_add_up_to_a_round() {
    assert_eq!(generate::SHARES.iter().map(|(_, share)| share).sum::<u64>(), generate::ROUND);
    for (plan, share) in generate::SHARES {
        let which: Vec<u64> =
            (0..3 * generate::ROUND).map(generate::plan).filter(|met| met.0 == plan).map(|met| met.1).collect();
        assert_eq!(which, (0..3 * share).collect::<Vec<u64>>(), "{plan:?}");
    }
}

/// The seeds of a plan below `seeds`.
fn seeds_of(plan: Plan, seeds: u64) -> impl Iterator<Item = u64> {
    (0..seeds).filter(move |&seed| generate::plan(seed).0 == plan)
}

#[test]
fn every_command_is_cut_at_every_length() {
    let mut cuts = BTreeSet::new();
    for seed in seeds_of(Plan::CutShort, 25 * generate::ROUND) {
        let sheet = generate::sheet(seed);
        let printed = run(&sheet);
        assert!(printed.ends_with("refused 16\n"), "seed {seed}");
        let mut rest = &sheet[..];
        while let Ok((_, after)) = Command::decode(rest) {
            rest = after;
        }
        cuts.insert((rest[0], rest.len(), printed.contains("open"), printed.contains("refused 1\n")));
    }
    // 9 cuts of an open, 15 of a put, 5 of a get, 1 of a step, 6 of a look, 4 more of each with a key of eight bytes;
    // with no store, a store, a refused open.
    assert_eq!(cuts.len(), (9 + 15 + 5 + 1 + 6 + 19 + 9 + 10) * 3);
}

#[test]
fn every_unknown_byte_stands_in_every_place() {
    let mut met = BTreeSet::new();
    for seed in seeds_of(Plan::UnknownByte, 94 * generate::ROUND) {
        let sheet = generate::sheet(seed);
        assert!(run(&sheet).ends_with("refused 15\n"), "seed {seed}");
        let mut rest = &sheet[..];
        while let Ok((_, after)) = Command::decode(rest) {
            rest = after;
        }
        met.insert((rest[0], rest.len() == sheet.len(), rest.len() == 1));
    }
    assert_eq!(met.len(), 247 * 3);
}

#[test]
fn opens_meet_the_edges_of_every_operand() {
    let seed = seeds_of(Plan::OpenEdges, generate::ROUND).next().unwrap();
    let sheet = generate::sheet(seed);
    let mut opens = BTreeSet::new();
    let mut rest = &sheet[..];
    while let Some(Ok((command, after))) = (!rest.is_empty()).then(|| Command::decode(rest)) {
        if let Command::Open { keys, versions, processes, limit } = command {
            opens.insert((keys, versions, processes, limit));
        }
        rest = after;
    }
    assert_eq!(opens.len(), 5 * 5 * 11 * 5);
}

#[test]
fn some_sheets_are_far_longer_than_a_buffer() {
    for seed in seeds_of(Plan::Long, generate::ROUND) {
        let sheet = generate::sheet(seed);
        assert!(sheet.len() > 6 * 65_536 && run(&sheet).lines().count() >= 200_000, "seed {seed}");
    }
}

#[test]
fn a_seed_gives_one_sheet() {
    for seed in [0, 6, 14, 19, 25, 26, 30, 35, 44, u64::MAX] {
        assert_eq!(generate::sheet(seed), generate::sheet(seed));
    }
}
