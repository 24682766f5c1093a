//! The text of the bench program, from the library and from the program itself.

mod common;

use common::*;
use std::io::Write;
use std::process::{Command, Output, Stdio};

fn text(input: &[u8]) -> String {
    String::from_utf8(second::bench(input)).expect("plain text")
}

fn program(arguments: &[&str], input: &[u8]) -> Output {
    let mut program = Command::new(env!("CARGO_BIN_EXE_second"))
        .args(arguments)
        .stdin(Stdio::piped())
        .stdout(Stdio::piped())
        .stderr(Stdio::piped())
        .spawn()
        .expect("the program starts");
    let mut stdin = program.stdin.take().expect("a pipe");
    // A program that has read enough may close the pipe first.
    let _ = stdin.write_all(input);
    drop(stdin);
    program.wait_with_output().expect("the program ends")
}

/// The five lines printed in the paper.
const FIVE_LINES: &str = "\
sheet good terms 9 skeletons 2
skeleton 0 open at 0 1
skeleton 1 realized
maps 0 to 1: 1
0
";

#[test]
fn five_lines_for_the_sheet_of_105_bytes() {
    assert_eq!(text(&blanchet()), FIVE_LINES);
}

/// The same from the hexadecimal digits as the paper prints them.
#[test]
fn the_printed_digits() {
    let digits: Vec<u8> = "4253 01 544d 050000 544d 030000 544d 060000 544d 060100 544d 080200
        544d 080300 544d 0b0004 544d 0b0603 544d 0b0100 534b 5354 02 0007 0108 4e4f 04 4e4f 05
        554f 00 534b 5354 02 0007 0108 5354 02 0107 0008 4f52 00000100 4f52 01010001 4e4f 04
        4e4f 05 554f 00 454e"
        .bytes()
        .filter(u8::is_ascii_hexdigit)
        .collect();
    let byte = |pair: &[u8]| {
        let pair = std::str::from_utf8(pair).unwrap();
        u8::from_str_radix(pair, 16).unwrap()
    };
    let sheet: Vec<u8> = digits.chunks(2).map(byte).collect();
    assert_eq!(sheet, blanchet());
}

/// "a bad sheet gives only `sheet refused N place P skeleton K`".
#[test]
fn a_bad_sheet() {
    assert_eq!(text(&[]), "sheet refused 1 place 0 skeleton 0\n");
    let cut = &blanchet()[..104];
    assert_eq!(text(cut), "sheet refused 1 place 103 skeleton 0\n");
    let no_origin = bytes("BS 1 TM 2 0 0 TM 2 1 0 SK ST 1 1 0 SK ST 1 1 0 UO 1 EN");
    assert_eq!(text(&no_origin), "sheet refused 12 place 1 skeleton 1\n");
}

/// "no maps line for one skeleton".
#[test]
fn one_skeleton() {
    let sheet = bytes("BS 1 TM 0 0 0 SK ST 1 1 0 EN");
    let expected = "sheet good terms 1 skeletons 1\nskeleton 0 realized\n";
    assert_eq!(text(&sheet), expected);
}

/// "Each map is a line, its numbers parted by one space" (P10), and none is no line.
#[test]
fn lines_of_maps() {
    let texts = "BS 1 TM 2 0 0 TM 2 1 0 TM 2 2 0 TM 2 3 0";
    let sheet = bytes(&format!(
        "{texts} SK ST 1 0 0 ST 1 0 1 SK ST 1 0 2 ST 1 0 3 EN"
    ));
    let expected = "sheet good terms 4 skeletons 2\nskeleton 0 realized\nskeleton 1 realized\n\
                    maps 0 to 1: 4\n0 0\n0 1\n1 0\n1 1\n";
    assert_eq!(text(&sheet), expected);
    let none = bytes(&format!("{texts} SK ST 1 0 0 SK ST 1 1 1 EN"));
    let expected = "sheet good terms 4 skeletons 2\nskeleton 0 realized\nskeleton 1 realized\n\
                    maps 0 to 1: 0\n";
    assert_eq!(text(&none), expected);
}

/// 49,152 bytes are lent: 6^6 maps of 6 strands take 279,936, and 5^6 of them 93,750.
#[test]
fn no_room_for_the_maps() {
    for strands in [5, 6] {
        let sheet = bytes(&format!(
            "BS 1 TM 0 0 0 SK {} SK {} EN",
            times(6, "ST 1 1 0"),
            times(strands, "ST 1 1 0")
        ));
        let expected = "sheet good terms 1 skeletons 2\nskeleton 0 realized\n\
                        skeleton 1 realized\nmaps 0 to 1 refused 16\n";
        assert_eq!(text(&sheet), expected);
    }
    // 4^6 maps take 24,576 bytes: four lines and 4,096 maps.
    let sheet = bytes(&format!(
        "BS 1 TM 0 0 0 SK {} SK {} EN",
        times(6, "ST 1 1 0"),
        times(4, "ST 1 1 0")
    ));
    let lines = text(&sheet);
    assert_eq!(lines.lines().count(), 4 + 4096);
    assert_eq!(lines.lines().nth(3), Some("maps 0 to 1: 4096"));
    assert_eq!(lines.lines().nth(5), Some("0 0 0 0 0 1"));
    assert_eq!(lines.lines().last(), Some("3 3 3 3 3 3"));
}

/// "its first 4,096 bytes decide".
#[test]
fn long_input() {
    let mut long = blanchet();
    long.resize(10_000, b'E');
    let expected = "sheet refused 8 place 105 skeleton 0\n";
    assert_eq!(text(&long), expected);
    let output = program(&[], &long);
    assert_eq!(String::from_utf8_lossy(&output.stdout), expected);
}

#[test]
fn the_program_writes_the_text() {
    let output = program(&[], &blanchet());
    assert!(output.status.success());
    assert!(output.stderr.is_empty());
    assert_eq!(String::from_utf8_lossy(&output.stdout), FIVE_LINES);
    let output = program(&[], &[]);
    assert!(output.status.success());
    assert_eq!(output.stdout, b"sheet refused 1 place 0 skeleton 0\n");
}

/// With keys carried, atom 4 of the sheet of 105 bytes is carried in message 7.
#[test]
fn the_program_plants_a_slip() {
    let output = program(&["--slip", "1"], &blanchet());
    assert!(output.status.success());
    assert_eq!(output.stdout, b"sheet refused 11 place 4 skeleton 0\n");
}

#[test]
fn the_program_knows_its_arguments() {
    for arguments in [&["--slip", "0"][..], &["--slip", "x"], &["--slip"], &["x"]] {
        let output = program(arguments, &blanchet());
        assert!(!output.status.success());
        assert!(output.stdout.is_empty());
    }
}
