//! The comparison itself: equal answers pass, and each way of being wrong is seen.
//! The programs compared are the oracle's own modes and small shell commands.

use std::process::Command;

const ORACLE: &str = env!("CARGO_BIN_EXE_oracle");

/// The exit code of a comparison and its last line.
fn compare(words: &[&str]) -> (i32, String) {
    let ran = Command::new(ORACLE)
        .args(["compare", "--rows", "20000", "--seed", "5"])
        .args(words)
        .output()
        .unwrap();
    let said = String::from_utf8(ran.stdout).unwrap();
    let last = said.lines().last().unwrap_or("").to_string();
    (ran.status.code().unwrap(), last)
}

#[test]
fn equal_answers_pass() {
    let (code, last) = compare(&["--", ORACLE, "answers"]);
    assert_eq!((code, last.as_str()), (0, "rows 20000 differ 0 skipped 0"));
}

#[test]
fn other_answers_fail() {
    assert_eq!(compare(&["--", ORACLE, "plain"]).0, 1);
    assert_eq!(compare(&["--", ORACLE, "ruled"]).0, 1);
}

#[test]
fn missing_and_extra_answers_fail() {
    let answers = format!("{ORACLE} answers");
    for tail in ["head -c 1000000", "cat; echo more", "cat; exit 3"] {
        let command = format!("{answers} | ({tail})");
        assert_eq!(compare(&["--", "sh", "-c", &command]).0, 1, "{tail}");
    }
    assert_eq!(compare(&["--", "no-such-program"]).0, 2);
}

/// 255 for an entry passes only where the entry is not named as ported.
#[test]
fn not_ported_is_skipped_only_where_said() {
    // 88 bytes for each row: 255, then zeros
    let silent =
        "od -An -v -w24 -tx1 | while read row; do printf '\\377'; head -c 87 /dev/zero; done";
    let rows = ["--rows", "300", "--entries", "0,1,2"];
    let run =
        |ported| compare(&[&rows[..], &["--ported", ported, "--", "sh", "-c", silent]].concat());
    assert_eq!(run("0"), (0, "rows 100 differ 0 skipped 200".to_string()));
    assert_eq!(run("0,1").0, 1);
}
