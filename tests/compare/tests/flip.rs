//! The comparisons themselves, tried: each finds one changed bit, and none where nothing was changed.

use std::process::Command;

const PROGRAMS: [&str; 2] = [env!("CARGO_BIN_EXE_compare"), env!("CARGO_BIN_EXE_blocks")];

fn compare(program: &str, words: &[&str]) -> (Option<i32>, String) {
    let output = Command::new(program).args(["--calls", "2000"]).args(words).output().unwrap();
    (output.status.code(), String::from_utf8(output.stdout).unwrap())
}

#[test]
fn one_changed_bit_is_reported() {
    for program in PROGRAMS {
        for seed in 1..=20 {
            let (status, text) = compare(program, &["--flip", "--seed", &seed.to_string()]);
            assert_eq!(status, Some(1));
            assert!(text.starts_with(&format!("DIFFERENCE: seed {seed}, ")) && text.contains("\n  word "), "{text}");
        }
    }
}

#[test]
fn no_difference_without_it() {
    for program in PROGRAMS {
        let (_, text) = compare(program, &["--seed", "1"]);
        assert!(!text.contains("DIFFERENCE"), "{text}");
    }
}

/// One round is too little for everything to occur.
#[test]
fn what_did_not_occur_is_told() {
    for program in PROGRAMS {
        let (status, text) = compare(program, &[]);
        assert!(status == Some(1) && text.contains("\nNOT COVERED: "), "{text}");
    }
}

#[test]
fn other_arguments_are_refused() {
    for program in PROGRAMS {
        for words in [&["--pages"][..], &["--seed"], &["--seed", "-1"]] {
            assert_eq!(compare(program, words).0, Some(2));
        }
    }
}
