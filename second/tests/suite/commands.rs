//! The program itself: its words, its statuses, what it says.

use std::io::Write;
use std::process::{Command, Stdio};

/// Status, standard output and whether anything was said on standard error.
fn run(words: &str, input: &[u8]) -> (Option<i32>, Vec<u8>, bool) {
    let (status, output, message) = run_and_hear(words, input);
    (status, output, !message.is_empty())
}

/// Status, standard output and standard error.
fn run_and_hear(words: &str, input: &[u8]) -> (Option<i32>, Vec<u8>, Vec<u8>) {
    let mut child = Command::new(env!("CARGO_BIN_EXE_second"))
        .args(words.split_whitespace())
        .stdin(Stdio::piped())
        .stdout(Stdio::piped())
        .stderr(Stdio::piped())
        .spawn()
        .unwrap();
    // The program may end without reading all.
    let _ = child.stdin.take().unwrap().write_all(input);
    let output = child.wait_with_output().unwrap();
    (output.status.code(), output.stdout, output.stderr)
}

#[test]
fn unknown_words_get_a_message() {
    for words in [
        "",
        "list",
        "listing x",
        "make",
        "make 1",
        "make x 1",
        "make 1 1 nothing",
        "calls",
        "calls 1",
        "calls x 1",
        "calls 1 2 3",
        "check 1",
        "answer 1",
        "transcript 2 3",
        "totals 2 3",
        "hand-on",
        "hand-on folder name",
        "hand-on folder name commit 2 3",
    ] {
        assert_eq!(run(words, b""), (Some(2), Vec::new(), true), "'{words}'");
    }
}

/// A radius is 2 or 3: anything else is said in one line, and no folder is there.
#[test]
fn no_radius_gets_a_message() {
    let folder = concat!(env!("CARGO_TARGET_TMPDIR"), "/no-radius");
    let (_, reel, _) = run("make 1 1", b"");
    for word in ["0", "1", "4", "03", "3.0", "-2", "x", "radius=3"] {
        let said = format!("second: a radius is 2 or 3, not '{word}'\n");
        for words in [
            format!("transcript {word}"),
            format!("totals {word}"),
            format!("hand-on {folder} name commit {word}"),
        ] {
            let (status, output, message) = run_and_hear(&words, &reel);
            assert_eq!((status, output), (Some(2), Vec::new()), "{words}");
            assert_eq!(message, said.as_bytes());
            assert!(!std::path::Path::new(folder).exists());
        }
    }
}

#[test]
fn transcripts_at_both_radii() {
    let (_, reel, _) = run("make 1 3 places=3", b"");
    let (_, plain, _) = run("transcript", &reel);
    let lines = |text: Vec<u8>, line: &str| {
        let text = String::from_utf8(text).unwrap();
        text.lines().filter(|l| *l == line).count()
    };
    let ordinary = run("transcript 2", &reel);
    assert_eq!(ordinary, (Some(0), plain.clone(), false));
    assert_eq!(lines(plain, "blocks 0 0 512"), 3);
    let (status, wide, said) = run("transcript 3", &reel);
    assert_eq!((status, said), (Some(0), false));
    assert_eq!(lines(wide, "blocks 0 512 0"), 3);
    let (_, listing, _) = run("listing", &reel);
    assert!(listing.ends_with(b"mended 0\nbad 1536\nend ok\n"));
}

#[test]
fn totals_at_both_radii() {
    let (_, reel, _) = run("make 1 3 places=3 sync=3@2", b"");
    let text = |blocks: &str| {
        let lines = (1..=16).map(|p| format!("programme {p} {blocks}\n"));
        let lines: String = lines.collect();
        format!("superframes 3\nlost 1\n{lines}end ok\n").into_bytes()
    };
    let bad = (Some(0), text("clean 0 mended 0 bad 128"), false);
    let mended = (Some(0), text("clean 0 mended 128 bad 0"), false);
    assert_eq!(run("totals", &reel), bad);
    assert_eq!(run("totals 2", &reel), bad);
    assert_eq!(run("totals 3", &reel), mended);
    let refused = (Some(0), b"refused 8\n".to_vec(), false);
    assert_eq!(run("totals", b"no reel"), refused);
    assert_eq!(run("totals 3", b""), refused);
}

#[test]
fn from_made_to_listed() {
    let (status, reel, said) = run("make 1 3 sync=3@2", b"");
    assert_eq!((status, reel.len(), said), (Some(0), 16 + 3 * 5120, false));
    let listing = b"superframes 3\nlost 1\nsync 0\nclean 1024\nmended 0\nbad 0\nend ok\n".to_vec();
    assert_eq!(run("listing", &reel), (Some(0), listing, false));
    let (status, transcript, _) = run("transcript", &reel);
    assert_eq!(status, Some(0));
    assert!(transcript.ends_with(b"end ok\n"));
    assert_eq!(
        run("listing", b""),
        (Some(0), b"refused 8\n".to_vec(), false)
    );
}

#[test]
fn from_calls_to_verdict() {
    let (_, calls, _) = run("calls 3 50", b"");
    let (_, answers, _) = run("answer", &calls);
    let verdict = b"50 lines, 0 wrong\n".to_vec();
    assert_eq!(run("check", &answers), (Some(0), verdict.clone(), false));
    assert_eq!(run("check 3 50", &answers), (Some(0), verdict, false));
    assert_eq!(run("check 3 51", &answers).0, Some(1));
    assert_eq!(run("check", b"").0, Some(1));
}

#[test]
fn from_made_to_handed_on() {
    let folder = concat!(env!("CARGO_TARGET_TMPDIR"), "/commands");
    let _ = std::fs::remove_dir_all(folder);
    let words = format!("hand-on {folder} a.reel 0123");
    let (_, reel, _) = run("make 1 3 short=1", b"");
    assert_eq!(
        run(&words, b"no reel"),
        (Some(0), b"refused 8\n".to_vec(), false)
    );
    assert_eq!(
        run(&words, &reel),
        (Some(0), b"end short\n".to_vec(), false)
    );
    let about = std::fs::read(format!("{folder}/about.txt")).unwrap();
    assert_eq!(about, b"reel a.reel\nradius 2\ncommit 0123\n");
    // It is there now.
    assert_eq!(run(&words, &reel), (Some(1), Vec::new(), true));
    std::fs::remove_dir_all(folder).unwrap();
    let end = run(&format!("{words} 3"), &reel);
    assert_eq!(end, (Some(0), b"end short\n".to_vec(), false));
    let about = std::fs::read(format!("{folder}/about.txt")).unwrap();
    assert_eq!(about, b"reel a.reel\nradius 3\ncommit 0123\n");
    std::fs::remove_dir_all(folder).unwrap();
}
