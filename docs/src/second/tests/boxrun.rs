//! The program itself, fed through standard input.

use std::io::Write;
use std::process::{Command, Stdio};

fn run(script: &[u8]) -> Vec<u8> {
    run_with(&[], script)
}

fn run_with(arguments: &[&str], script: &[u8]) -> Vec<u8> {
    let mut child = Command::new(env!("CARGO_BIN_EXE_second"))
        .args(arguments)
        .stdin(Stdio::piped())
        .stdout(Stdio::piped())
        .spawn()
        .unwrap();
    child.stdin.take().unwrap().write_all(script).unwrap();
    let output = child.wait_with_output().unwrap();
    assert!(output.status.success());
    output.stdout
}

#[test]
fn prints_the_sheet() {
    let scripts: [&[u8]; 5] =
        [&[], &[1, 13], &[1], &[0x19, 8, 0, 0, 2, 0, 1, 4], &[1, 13, 0x19, 8, 0, 0]];
    for script in scripts {
        assert_eq!(run(script), second::sheet(script));
    }
    assert_eq!(run(scripts[3]), b"code number used bytes\n0 2 6 0000\n4 0 2 -\n");
    // Two bytes are missing.
    assert_eq!(run(scripts[4]), b"code number used bytes\n0 0 2 -\n1 2 0 -\n");
}

/// Exam cases A to D: a draw again gets the draw after it.
#[test]
fn prints_the_handles_of_a_draw_again() {
    let mut script = vec![7, 1, 0, 1, 0, 0, 0, 0, 0, 0, 0, 3, 14, 0];
    for (length, draw) in [(5, 7_u64), (0, 281_474_976_710_655)] {
        let protect = [0x3D, 11, 1, 0, 0, 0, 0, 0, 0, 0, 0, 0, length, 0];
        script.extend([&protect[..], &draw.to_le_bytes()].concat().repeat(2));
    }
    let printed = "\
code number used bytes
0 0 11 -
0 0 3 -
0 1407374883553287 22 -
0 1407551387880710 22 -
0 281474976710655 22 -
0 281449761806750 22 -
";
    assert_eq!(run(&script), printed.as_bytes());
}

#[test]
fn scripts_at_the_limit() {
    for length in [65_535, 65_536, 65_537] {
        let script: Vec<u8> = [1, 13].into_iter().cycle().take(length).collect();
        let printed = run(&script);
        assert_eq!(printed, second::sheet(&script));
        assert_eq!(run_with(&["--level-one"], &script), printed);
        let too_long = b"code number used bytes\n16 0 0 -\n";
        assert_eq!(printed == too_long, length == 65_537);
    }
}

/// Place 4 is the full box's alone.
#[test]
fn prints_the_level_one_sheet() {
    let scripts: [&[u8]; 4] = [&[], &[1], &[3, 14, 4, 1, 13], &[3, 14, 4, 3, 14]];
    for script in scripts {
        assert_eq!(run_with(&["--level-one"], script), second::sheet_level_one(script));
    }
    assert_eq!(run(scripts[2]), b"code number used bytes\n7 0 3 -\n0 0 2 -\n");
    let printed = run_with(&["--level-one"], scripts[2]);
    assert_eq!(printed, b"code number used bytes\n22 0 3 -\n0 0 2 -\n");
}

#[test]
fn any_other_argument_gets_the_usage() {
    let cases: [&[&str]; 9] = [
        &[""],
        &["-"],
        &["--"],
        &["--level-on"],
        &["--level-one "],
        &["--Level-One"],
        &["--full"],
        &["--level-one", "--level-one"],
        &["--level-one", ""],
    ];
    for arguments in cases {
        let output = Command::new(env!("CARGO_BIN_EXE_second"))
            .args(arguments)
            .stdin(Stdio::null())
            .output()
            .unwrap();
        assert_eq!(output.status.code(), Some(2), "{arguments:?}");
        assert!(output.stdout.is_empty());
        assert_eq!(output.stderr, b"usage: second [--level-one]\n");
    }
}
