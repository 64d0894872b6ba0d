//! The commands over the library: what is asked on the command line, what is
//! read on standard input and what is printed.

use std::ffi::{OsStr, OsString};
use std::io::{self, BufWriter, Read, Write};
use std::path::PathBuf;
use std::process::ExitCode;

use second::answers;
use second::bench::Bench;
use second::case::{self, KEPT_BYTES};
use second::compare;
use second::corpus::Corpus;
use second::make;

const USAGE: &str = "usage: second verdict | list LIMIT | next LIMIT [after N ...] \
                     | replay BUDGET N ... | rewrite | checks | make SEED COUNT DIR \
                     | corpus DIR | compare SEED COUNT DIR | bench worst|deep|dense|ring LINES \
                     | bench long|hub|maze";

enum Command {
    Verdict,
    List {
        limit: u64,
    },
    Next {
        limit: u64,
        after: Option<Vec<u8>>,
    },
    Replay {
        budget: u16,
        run: Vec<u8>,
    },
    Rewrite,
    Checks,
    Make {
        seed: u64,
        count: u64,
        folder: PathBuf,
    },
    Corpus {
        folder: PathBuf,
    },
    Compare {
        seed: u64,
        count: u64,
        folder: PathBuf,
    },
    Bench(Bench),
}

fn main() -> ExitCode {
    let arguments: Vec<OsString> = std::env::args_os().skip(1).collect();
    let Some(command) = parse(&arguments) else {
        eprintln!("{USAGE}");
        return ExitCode::from(2);
    };
    match perform(&command) {
        Ok(code) => code,
        Err(error) => {
            eprintln!("second: {error}");
            ExitCode::FAILURE
        }
    }
}

fn parse(arguments: &[OsString]) -> Option<Command> {
    let (name, rest) = arguments.split_first()?;
    match (name.to_str()?, rest) {
        ("verdict", []) => Some(Command::Verdict),
        ("rewrite", []) => Some(Command::Rewrite),
        ("checks", []) => Some(Command::Checks),
        ("list", [limit]) => Some(Command::List {
            limit: number(limit)?,
        }),
        ("next", [limit]) => Some(Command::Next {
            limit: number(limit)?,
            after: None,
        }),
        ("next", [limit, after, run @ ..]) if after == "after" => Some(Command::Next {
            limit: number(limit)?,
            after: Some(run_numbers(run)?),
        }),
        ("replay", [budget, run @ ..]) => {
            let budget = u16::try_from(number(budget)?).ok()?;
            Some(Command::Replay {
                budget,
                run: run_numbers(run)?,
            })
        }
        ("make", [seed, count, folder]) => Some(Command::Make {
            seed: number(seed)?,
            count: number(count)?,
            folder: PathBuf::from(folder),
        }),
        ("corpus", [folder]) => Some(Command::Corpus {
            folder: PathBuf::from(folder),
        }),
        ("compare", [seed, count, folder]) => Some(Command::Compare {
            seed: number(seed)?,
            count: number(count)?,
            folder: PathBuf::from(folder),
        }),
        ("bench", [name]) => Bench::named(name.to_str()?, None).map(Command::Bench),
        ("bench", [name, lines]) => {
            Bench::named(name.to_str()?, Some(number(lines)?)).map(Command::Bench)
        }
        _ => None,
    }
}

/// Decimal digits alone: no sign, no blanks.
fn number(text: &OsStr) -> Option<u64> {
    let text = text.to_str()?;
    if !text.bytes().all(|byte| byte.is_ascii_digit()) {
        return None;
    }
    text.parse().ok()
}

fn run_numbers(texts: &[OsString]) -> Option<Vec<u8>> {
    texts
        .iter()
        .map(|text| u8::try_from(number(text)?).ok())
        .collect()
}

fn perform(command: &Command) -> io::Result<ExitCode> {
    let mut out = BufWriter::new(io::stdout().lock());
    match command {
        Command::Verdict => out.write_all(&answers::verdict(&read_input()?))?,
        Command::List { limit } => out.write_all(&answers::list(&read_input()?, *limit))?,
        Command::Next { limit, after } => {
            out.write_all(&answers::next(&read_input()?, *limit, after.as_deref()))?;
        }
        Command::Replay { budget, run } => {
            out.write_all(&answers::replay(&read_input()?, *budget, run))?;
        }
        Command::Rewrite => out.write_all(&answers::rewrite(&read_input()?))?,
        Command::Checks => out.write_all(&answers::checks(&read_input()?))?,
        Command::Make {
            seed,
            count,
            folder,
        } => {
            std::fs::create_dir_all(folder)?;
            for index in 0..*count {
                std::fs::write(
                    folder.join(format!("{index:04}.case")),
                    make::file(*seed, index),
                )?;
            }
        }
        Command::Corpus { folder } => {
            std::fs::create_dir_all(folder)?;
            let made = Corpus::whole();
            std::fs::write(folder.join("corpus"), made.entries)?;
            std::fs::write(folder.join("expected"), made.expected)?;
        }
        Command::Bench(which) => out.write_all(&case::bytes(&which.case()))?,
        Command::Compare {
            seed,
            count,
            folder,
        } => {
            let done = compare::compare(*seed, *count, folder)?;
            for one in &done.differences {
                writeln!(out, "case {}: {}", one.index, one.call)?;
                writeln!(out, "  program: {}", String::from_utf8_lossy(&one.program))?;
                writeln!(out, "  second:  {}", String::from_utf8_lossy(&one.second))?;
            }
            let (answers, differences) = (done.answers, done.differences.len());
            writeln!(
                out,
                "{count} cases, {answers} answers, {differences} differences"
            )?;
            if differences > 0 {
                out.flush()?;
                return Ok(ExitCode::FAILURE);
            }
        }
    }
    out.flush()?;
    Ok(ExitCode::SUCCESS)
}

/// Keeps the first bytes and reads on to the end, so that whoever writes into
/// the pipe can finish.
fn read_input() -> io::Result<Vec<u8>> {
    let mut input = io::stdin().lock();
    let mut kept = Vec::new();
    input
        .by_ref()
        .take(KEPT_BYTES as u64)
        .read_to_end(&mut kept)?;
    io::copy(&mut input, &mut io::sink())?;
    Ok(kept)
}
