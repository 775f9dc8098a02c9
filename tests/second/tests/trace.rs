//! The command-line program, run as others run it.

use std::io::Write;
use std::process::{Command, Stdio};

fn trace(arguments: &[&str], input: &str) -> String {
    let mut child = Command::new(env!("CARGO_BIN_EXE_trace"))
        .args(arguments)
        .stdin(Stdio::piped())
        .stdout(Stdio::piped())
        .spawn()
        .unwrap();
    child.stdin.take().unwrap().write_all(input.as_bytes()).unwrap();
    let output = child.wait_with_output().unwrap();
    assert!(output.status.success());
    String::from_utf8(output.stdout).unwrap()
}

#[test]
fn run() {
    // The hash of no bytes is the offset basis; of a formatted memory it is the same each time.
    assert_eq!(trace(&["run"], "0\n"), "no 2 cbf29ce484222325\n");
    let lines = trace(&["run"], "20\n1 256 512 768 1024 1280\n5 256 4096\n12 256 1\n0 0\n");
    let lines: Vec<_> = lines.lines().map(|line| line.rsplit_once(' ').unwrap()).collect();
    let answers: Vec<_> = lines.iter().map(|line| line.0).collect();
    assert_eq!(answers, ["ok 0", "ok 0", "ok 3", "no 16", "ok 0"]);
    assert!(lines[0].1 == lines[4].1 && lines[0].1 != lines[1].1 && lines[1].1 == lines[3].1);
}

#[test]
fn run_with_large_pages() {
    // The length is that of 256 small pages: format may choose either edition.
    let lines = trace(&["run"], "16 1\n8 256\n8 4096\n0 0\n8 256\n0 2\n0 1\n8 256\n");
    let answers: Vec<_> = lines.lines().map(|line| line.rsplit_once(' ').unwrap().0).collect();
    assert_eq!(answers, ["ok 0", "no 3", "ok 0", "ok 0", "ok 0", "no 2", "ok 0", "no 3"]);
    assert_eq!(trace(&["run"], "15 1\n").split_at(5).0, "no 2 ");
    let made = trace(&["make", "5", "100", "20", "1"], "");
    assert!(made.starts_with("20 1\n"));
    assert_eq!(trace(&["run"], &made).lines().count(), 101);
}

#[test]
fn make_cover_and_damage() {
    let made = trace(&["make", "5", "300", "73"], "");
    assert_eq!(made.lines().count(), 301);
    assert_eq!(made, trace(&["make", "5", "300", "73"], ""));
    assert_eq!(trace(&["run"], &made).lines().count(), 301);
    assert_eq!(trace(&["cover"], &made).lines().count(), 19);
    let damaged = trace(&["damage", "5", "200"], &made);
    assert_eq!(damaged.lines().count(), 200);
    assert!(damaged.contains(" sound\n") && damaged.contains(" broken 1\n"));
}

fn runs_of(input: &[u32]) -> String {
    let input: Vec<u8> = input.iter().flat_map(|word| word.to_le_bytes()).collect();
    trace(&["runs"], std::str::from_utf8(&input).unwrap())
}

#[test]
fn runs() {
    // One word: format is refused, a number that no call has is not run; then a cut call in 16 pages, and format there.
    let output = runs_of(&[1, 2, 0, 0, 1, 16, 0, 1024, 2, 10, 8, 3, 0, 0, 10, 0, 0, 0]);
    let lines: Vec<_> = output.lines().collect();
    let seven = (2_166_136_261u32 ^ 7).wrapping_mul(16_777_619).to_string();
    assert_eq!(lines[..4], ["no 2", &seven, &seven, "verdict 1"]);
    assert_eq!(lines[4..7], ["record 1 18 0 0 0 2166136261", "record 1 17 0 0 0 2166136261", "no 1"]);
    assert_eq!(lines[8..10], ["ok 0", "no 14"]);
    assert_eq!(lines[11..], ["verdict 0", "record 0 0 256 2048 64 4045242224", "record 17 17 0 0 0 2166136261"]);
}

#[test]
fn what_resume_answers() {
    // A child at 256 with a page at 0xFFF00: notified, it notifies back, and its slot 3 is resumed; then a slot that no one has.
    let calls = "1 256 512 768 1024 1280\n12 1536 1792\n12 1792 2048\n6 256 1048320 1536\n3 2304 256 1048320 3\n\
        13 256 100 200 1 2 3 4 5 6 7 8\n13 0 7 8 11 12 13 14 15 16 17 18\n15 256 3\n15 256 4\n";
    let lines = trace(&["run"], &format!("40\n{calls}"));
    let answers: Vec<_> = lines.lines().map(|line| line.rsplit_once(' ').unwrap().0).collect();
    assert_eq!(answers[6..8], ["ok 0", "ok 0"]);
    assert_eq!(answers[8..], ["ok 0 7 1 8 11 12 13 14 15 16 17 18", "no 5 0 0 0 0 0 0 0 0 0 0 0"]);
    // With 64 numbers for answers: 12 for each of five resumes, four for others, and none for what follows.
    let resume = [15, 0, 2];
    let part = [&[0, 0][..], &resume.repeat(5), &[10, 10, 10, 10]].concat();
    let cut = [&[0, 0][..], &resume.repeat(6)].concat();
    let input = [&[1024, part.len() as u32][..], &part, &[cut.len() as u32], &cut, &[0, 0]].concat();
    let output = runs_of(&input);
    let lines: Vec<_> = output.lines().collect();
    let refused = [vec!["no 14"], vec!["ok 0"; 11]].concat();
    let five = [vec!["ok 0"], refused.repeat(5)].concat();
    assert_eq!(lines[..64], [five.clone(), vec!["no 14"; 3]].concat());
    assert_eq!(lines[65..65 + 61], five);
    assert_eq!((lines[64], lines[127]), (lines[126], "verdict 0"));
}
