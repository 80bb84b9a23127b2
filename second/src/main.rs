//! The command line: `second make | listing | totals | transcript | hand-on | calls | answer | check`.

use second::{calls, check, damage, hand_on, listing, make, radius, totals, transcript};
use std::ffi::OsString;
use std::io::{self, BufWriter, Write};
use std::process::ExitCode;

const USAGE: &str = "\
second make SEED N [damage ...]   write a reel of N superframes
second listing                    read a reel, write its listing
second totals [RADIUS]            read a reel, write the totals of each programme
second transcript [RADIUS]        read a reel, write every answer of the reader
second hand-on FOLDER [NAME COMMIT [RADIUS]]
                                  read a reel, write the folder for the restorers
second calls all                  write the systematic call lines
second calls SEED N               write N random call lines
second answer                     read call lines, write each with its answer
second check [all | SEED N]       read answered lines, check every answer
RADIUS is 2 or 3, and 2 where it is not given.
README.md tells the words of damage and the form of the lines.";

fn main() -> ExitCode {
    let arguments: Vec<String> = std::env::args_os()
        .skip(1)
        .map(|argument| argument.to_string_lossy().into_owned())
        .collect();
    let mut output = BufWriter::new(io::stdout().lock());
    let done = run(&arguments, &mut output);
    let flushed = output.flush().map_err(Fault::from);
    match done.and_then(|code| flushed.map(|()| code)) {
        Ok(code) => code,
        // Whoever reads has enough.
        Err(Fault::Io(error)) if error.kind() == io::ErrorKind::BrokenPipe => ExitCode::SUCCESS,
        Err(Fault::Io(error)) => complain(&error.to_string(), 1),
        Err(Fault::Words(what)) => complain(&what, 2),
    }
}

fn complain(what: &str, status: u8) -> ExitCode {
    // Where even this cannot be said, the status has to do.
    let _ = writeln!(io::stderr(), "second: {what}");
    ExitCode::from(status)
}

/// Why a command could not be done.
enum Fault {
    Io(io::Error),
    Words(String),
}

impl From<io::Error> for Fault {
    fn from(error: io::Error) -> Fault {
        Fault::Io(error)
    }
}

impl From<String> for Fault {
    fn from(what: String) -> Fault {
        Fault::Words(what)
    }
}

fn run(arguments: &[String], output: &mut impl Write) -> Result<ExitCode, Fault> {
    let words: Vec<&str> = arguments.iter().map(String::as_str).collect();
    match words[..] {
        ["make", seed, superframes, ..] => {
            let order = make::Order::parse(seed, superframes, &arguments[3..])?;
            make::make(&order, output)?;
        }
        ["listing"] => listing::list(io::stdin().lock(), output)?,
        ["totals"] => totals::write(radius::ORDINARY, io::stdin().lock(), output)?,
        ["totals", word] => totals::write(radius::parse(word)?, io::stdin().lock(), output)?,
        ["transcript"] => transcript::write(radius::ORDINARY, io::stdin().lock(), output)?,
        ["transcript", word] => {
            transcript::write(radius::parse(word)?, io::stdin().lock(), output)?
        }
        ["hand-on", ..] => {
            // A path and a name are bytes, and stay as they were given.
            let words: Vec<OsString> = std::env::args_os().skip(2).collect();
            let order = hand_on::Order::parse(&words);
            let order = order.ok_or(format!("which folder?\n{USAGE}"))??;
            let end = hand_on::write(io::stdin().lock(), &order)?;
            end.write(output)?;
        }
        ["calls", ref which @ ..] if !which.is_empty() => {
            for line in call_lines(which)? {
                writeln!(output, "{line}")?;
            }
        }
        ["answer"] => check::answer_all(io::stdin().lock(), output)?,
        ["check"] => return verdict(check::check(io::stdin().lock(), None, output)?),
        ["check", ref which @ ..] => {
            let mut lines = call_lines(which)?;
            let right = check::check(io::stdin().lock(), Some(&mut lines), output)?;
            return verdict(right);
        }
        _ => return Err(Fault::Words(format!("what shall be done?\n{USAGE}"))),
    }
    Ok(ExitCode::SUCCESS)
}

/// The lines of `all` or of `SEED N`.
fn call_lines(which: &[&str]) -> Result<Box<dyn Iterator<Item = String>>, Fault> {
    match which {
        ["all"] => Ok(Box::new(calls::all())),
        [seed, count] => {
            let (seed, count) = (damage::number(seed)?, damage::number(count)?);
            Ok(Box::new(calls::random(seed, count)))
        }
        _ => Err(Fault::Words(format!("which calls?\n{USAGE}"))),
    }
}

fn verdict(right: bool) -> Result<ExitCode, Fault> {
    Ok(if right {
        ExitCode::SUCCESS
    } else {
        ExitCode::FAILURE
    })
}
