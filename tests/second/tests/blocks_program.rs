//! The command-line program of blocks, run as others run it.

use std::io::Write;
use std::process::{Command, Stdio};

/// The exit status and the output.
fn blocks(arguments: &[&str], input: &[u8]) -> (i32, Vec<u8>) {
    let mut child = Command::new(env!("CARGO_BIN_EXE_blocks"))
        .args(arguments)
        .stdin(Stdio::piped())
        .stdout(Stdio::piped())
        .stderr(Stdio::null())
        .spawn()
        .unwrap();
    // A program that reads nothing may have ended already.
    let _ = child.stdin.take().unwrap().write_all(input);
    let output = child.wait_with_output().unwrap();
    (output.status.code().unwrap(), output.stdout)
}

fn text(arguments: &[&str], input: &str) -> String {
    let (status, output) = blocks(arguments, input.as_bytes());
    assert_eq!(status, 0);
    String::from_utf8(output).unwrap()
}

#[test]
fn run() {
    // The hash of no bytes is the offset basis.
    assert_eq!(text(&["run"], "0\n"), "no 13 cbf29ce484222325\n");
    let lines = text(&["run"], "4096\n7 8 1096\n11 0 2000\n10 0 9\n10 8 1\n0\n13\n");
    let lines: Vec<_> = lines.lines().map(|line| line.rsplit_once(' ').unwrap()).collect();
    let answers: Vec<_> = lines.iter().map(|line| line.0).collect();
    let wanted = ["ok 0", "ok 9", "ok 1 9 1096 16384 7 1 0", "ok 0 0 0 0 0 0 0", "no 2 0 0 0 0 0 0", "ok 0", "no 12"];
    assert_eq!(answers, wanted);
    assert!(lines[0].1 == lines[5].1 && lines[0].1 != lines[1].1 && lines[1].1 == lines[4].1);
}

#[test]
fn several_sequences() {
    let lines = text(&["run"], "3840\n0\n13\n4096\n13\n");
    let answers: Vec<_> = lines.lines().map(|line| line.rsplit_once(' ').unwrap().0).collect();
    assert_eq!(answers, ["no 13", "no 13", "no 1", "ok 0", "no 12"]);
    for bad in ["", "4096\n14 1\n", "4096\n1\n", "4096\nx\n", "4096 1\n", "4096\n\n", "99999999\n"] {
        assert_eq!(blocks(&["run"], bad.as_bytes()).0, 2, "{bad:?}");
    }
}

#[test]
fn make_cover_facts_damage_dump_and_judge() {
    let made = text(&["make", "5", "300", "17"], "");
    assert!(made.starts_with("4352\n") && made.lines().count() == 301);
    assert_eq!(made, text(&["make", "5", "300", "17"], ""));
    assert_eq!(text(&["run"], &made).lines().count(), 301);
    assert_eq!(text(&["facts"], &made), "301 calls\n");
    let (status, cover) = blocks(&["cover"], made.as_bytes());
    assert!(status == 1 && String::from_utf8(cover).unwrap().contains("NOT COVERED format no 13"));
    let damaged = text(&["damage", "5", "200"], &made);
    assert_eq!(damaged.lines().count(), 200);
    assert!(damaged.contains(" sound\n") && damaged.contains(" broken 9\n"));
    let (_, memory) = blocks(&["dump"], made.as_bytes());
    assert_eq!(memory.len(), 4 * 4352);
    assert_eq!(blocks(&["judge"], &memory), (0, b"[]\n".to_vec()));
    let changed = [&memory[..16], &[1], &memory[17..]].concat();
    assert_eq!(blocks(&["judge"], &changed), (0, b"[1]\n".to_vec()));
    assert_eq!(blocks(&["judge"], &memory[4..]), (0, b"[1]\n".to_vec()));
    assert_eq!(blocks(&["damage", "1", "1"], b"3840\n").0, 2);
    assert_eq!(text(&["facts"], "3840\n13\n0\n"), "3 calls\n");
}

fn bytes_of(words: &[u32]) -> Vec<u8> {
    words.iter().flat_map(|word| word.to_le_bytes()).collect()
}

#[test]
fn runs() {
    // One word: format is refused, and a number that no call has ends the part; then a cut call, format and a find in 16 KiB.
    let input = bytes_of(&[1, 3, 0, 14, 0, 0, 4096, 3, 13, 7, 8, 4, 0, 11, 0, 968, 0, 0]);
    let (status, output) = blocks(&["runs"], &input);
    let lines: Vec<_> = std::str::from_utf8(&output).unwrap().lines().collect();
    let seven = (2_166_136_261u32 ^ 7).wrapping_mul(16_777_619).to_string();
    assert_eq!((status, &lines[..4]), (0, &["no 13", &seven, "verdict 1", "no 1"][..]));
    assert_eq!(lines[5..13], ["ok 0", "ok 1", "ok 8", "ok 968", "ok 16384", "ok 7", "ok 1", "ok 0"]);
    assert!(lines[4] != lines[13] && lines[14..] == ["verdict 0"]);
    let (status, cover) = blocks(&["runs", "cover"], &input);
    assert!(status == 1 && String::from_utf8(cover).unwrap().contains("NOT COVERED create no 9\n"));
}

#[test]
fn runs_stop_where_there_is_no_room_for_an_answer() {
    // Nine finds take 63 of 64 places: a call behind them is run, a tenth find is not.
    let finds = |count: usize| [[11, 0, 968]].repeat(count).concat();
    let lines_of = |part: &[u32]| {
        let input = bytes_of(&[&[4096, 1, 0, part.len() as u32], part, &[0, 0]].concat());
        blocks(&["runs"], &input).1.iter().filter(|&&byte| byte == b'\n').count() - 4
    };
    assert_eq!(lines_of(&finds(9)), 63);
    assert_eq!(lines_of(&[finds(9), vec![13, 13]].concat()), 64);
    assert_eq!(lines_of(&[finds(10), vec![13]].concat()), 63);
}
