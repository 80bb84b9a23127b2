//! Answering call lines, and checking the answers that another program gave.

use crate::answer::answer;
use std::io::{self, BufRead, Write};

const BETWEEN: &str = " = ";
/// What stands behind a line that cannot be read.
const UNREADABLE: &str = "?";
/// How many wrong answers are shown.
const SHOWN: u64 = 10;

/// Writes each line with its answer behind.
pub fn answer_all(input: impl BufRead, output: &mut impl Write) -> io::Result<()> {
    each_line(input, |line| {
        output.write_all(line)?;
        writeln!(output, "{BETWEEN}{}", right_answer(line))
    })
}

fn right_answer(call: &[u8]) -> String {
    let call = std::str::from_utf8(call).ok();
    call.and_then(answer)
        .unwrap_or_else(|| UNREADABLE.to_string())
}

/// Checks lines with answers and says what is wrong. Where the calls are known, the lines have to be
/// just those. True where there was a line and all were right.
pub fn check(
    input: impl BufRead,
    mut calls: Option<&mut dyn Iterator<Item = String>>,
    output: &mut impl Write,
) -> io::Result<bool> {
    let (mut lines, mut wrong) = (0u64, 0u64);
    let mut fault = |line: u64, what: String| -> io::Result<()> {
        wrong += 1;
        if wrong <= SHOWN {
            writeln!(output, "line {line}: {what}")?;
        }
        Ok(())
    };
    each_line(input, |line| {
        lines += 1;
        let text = String::from_utf8_lossy(line);
        let Some((call, given)) = text.split_once(BETWEEN) else {
            return fault(lines, format!("no answer\n  {text}"));
        };
        if let Some(calls) = &mut calls {
            match calls.next() {
                Some(asked) if asked == call => {}
                Some(asked) => {
                    return fault(lines, format!("asked\n  {asked}\nnot\n  {call}"));
                }
                None => return fault(lines, format!("never asked\n  {call}")),
            }
        }
        let right = right_answer(call.as_bytes());
        if given == right {
            return Ok(());
        }
        fault(
            lines,
            format!("{call}\n  says     {given}\n  not      {right}"),
        )
    })?;
    if let Some(asked) = calls.and_then(|calls| calls.next()) {
        fault(lines + 1, format!("missing, as all behind it\n  {asked}"))?;
    }
    writeln!(output, "{lines} lines, {wrong} wrong")?;
    Ok(lines > 0 && wrong == 0)
}

/// Hands on each line without its end; a last line without one counts too.
fn each_line(
    mut input: impl BufRead,
    mut hand_on: impl FnMut(&[u8]) -> io::Result<()>,
) -> io::Result<()> {
    let mut line = Vec::new();
    while input.read_until(b'\n', &mut line)? > 0 {
        if line.ends_with(b"\n") {
            line.pop();
        }
        hand_on(&line)?;
        line.clear();
    }
    Ok(())
}
