//! Sheets as lines, and back.

use store_tests::generate;
use store_tests::random::Random;
use store_tests::text::{explain, write};

#[test]
fn example_is_explained() {
    let lines = "open 2 3 1 40\nget 0 7\nsteps 0 6\nlook 7 0\n";
    assert_eq!(explain(&write(lines).unwrap()), lines);
}

#[test]
fn every_line_comes_back() {
    let lines = "open 65535 65535 255 4294967295\nput 255 4294967295 4294967295 0 65535\nget 0 0\nstep 3\nsteps 4 2\n\
                 look 0 65535\nput8 255 4294967295 4294967295 0 65535\nget8 0 0\nlook8 7 65535\n\
                 put 1 4294967296 2 3 4\nget 1 18446744073709551615\nlook 18446744073709551614 0\ninspect\n\
                 bytes 0x00 0xFF 0x4F # an unknown byte ends the run\n";
    assert_eq!(explain(&write(lines).unwrap()), lines);
}

/// Four bytes where they hold the tray, eight where they do not or where the line asks for them.
#[test]
fn trays_take_four_bytes_or_eight() {
    let size = |line: &str| write(line).unwrap().len();
    for (word, rest, four, eight) in [("put 0", " 1 2 3", 16, 20), ("get 0", "", 6, 10), ("look", " 0", 7, 11)] {
        let asked = word.split(' ').next().unwrap();
        for (tray, due) in [("0", four), ("0xFFFFFFFF", four), ("4294967296", eight), ("18446744073709551615", eight)] {
            let line = format!("{word} {tray}{rest}");
            let wide = line.replacen(asked, &format!("{asked}8"), 1);
            assert_eq!([size(&line), size(&wide)], [due, eight], "{line}");
            assert_eq!(write(&line) == write(&wide), due == eight, "{line}");
        }
    }
}

#[test]
fn comments_blanks_and_hexadecimal() {
    let lines = "# a comment\n\n  open 0x2 3 1 0x28   # behind a line\n\tget 0 7\nsteps 1 0\nbytes\n";
    assert_eq!(write(lines), write("open 2 3 1 40\nget 0 7"));
}

#[test]
fn random_sheets_come_back() {
    for seed in 0..generate::ROUND {
        let sheet = generate::sheet(seed);
        assert_eq!(write(&explain(&sheet)), Ok(sheet), "seed {seed}");
    }
}

#[test]
fn random_bytes_come_back() {
    for seed in 0..2_000 {
        let mut random = Random::new(seed);
        let bytes: Vec<u8> = (0..random.below(40)).map(|_| random.pick(b"OPGSLIpgl\0\0\0\x01\xFF")).collect();
        assert_eq!(write(&explain(&bytes)), Ok(bytes), "seed {seed}");
    }
}

#[test]
fn bad_lines_are_all_told() {
    let lines =
        "open 2 3 1\nopen 2 3 1 40\nputt 0\nstep 256\n# fine\nget 0 -7\nlook 7 +1\ninspect 0\nsteps 0 1000001\n\
                 put 0 18446744073709551616 1 1 1\nget 0 0x\nbytes 256\nopen 99999999999999999999 1 1 1\n\
                 look8 0x10000000000000000 0\nget8 1\nget 0 9999999999999999999999999999999999999999\nstep8 0";
    let told: Vec<String> = write(lines).unwrap_err().iter().map(|bad| bad.to_string()).collect();
    let due = [
        "line 1: open takes trays readings stations limit; 3 given",
        "line 3: unknown word \"putt\" (known: open put put8 get get8 step steps look look8 inspect bytes)",
        "line 4: station 256 is above 255",
        "line 6: tray \"-7\" is not a number (decimal or 0x, no sign)",
        "line 7: back \"+1\" is not a number (decimal or 0x, no sign)",
        "line 8: inspect takes no numbers; 1 given",
        "line 9: times 1000001 is above 1000000",
        "line 10: tray 18446744073709551616 is above 18446744073709551615",
        "line 11: tray \"0x\" is not a number (decimal or 0x, no sign)",
        "line 12: byte 256 is above 255",
        "line 13: trays 99999999999999999999 is above 65535",
        "line 14: tray 18446744073709551616 is above 18446744073709551615",
        "line 15: get8 takes station tray; 1 given",
        "line 16: tray \"9999999999999999999999999999999999999999\" is not a number (decimal or 0x, no sign)",
        "line 17: unknown word \"step8\" (known: open put put8 get get8 step steps look look8 inspect bytes)",
    ];
    assert_eq!(told, due);
}
