//! Holds built programs against this one on freshly made cases: each is asked the
//! same, and every byte of the answers must be the same.

use std::io::{self, Write};
use std::path::Path;
use std::process::{Command, Stdio};

use crate::random::Random;
use crate::{answers, case, make};

/// Where a program answered otherwise: the case's number, what was called, and
/// both answers.
pub struct Difference {
    pub index: u64,
    pub call: String,
    pub program: Vec<u8>,
    pub second: Vec<u8>,
}

pub struct Comparison {
    pub answers: u64,
    pub differences: Vec<Difference>,
}

/// One question: a program, its arguments and what this program says.
struct Question {
    program: &'static str,
    arguments: Vec<String>,
    expected: Vec<u8>,
}

impl Question {
    fn plain(program: &'static str, expected: Vec<u8>) -> Question {
        Question {
            program,
            arguments: Vec::new(),
            expected,
        }
    }
}

/// Asks the programs in the folder about made cases of a seed.
pub fn compare(seed: u64, count: u64, folder: &Path) -> io::Result<Comparison> {
    let mut all = Comparison {
        answers: 0,
        differences: Vec::new(),
    };
    for index in 0..count {
        let file = make::file(seed, index);
        for question in questions(seed, index, &file) {
            let program = ask(folder, &question, &file)?;
            all.answers += 1;
            if program != question.expected {
                let call = format!("{} {}", question.program, question.arguments.join(" "));
                all.differences.push(Difference {
                    index,
                    call,
                    program,
                    second: question.expected,
                });
            }
        }
    }
    Ok(all)
}

fn questions(seed: u64, index: u64, file: &[u8]) -> Vec<Question> {
    let mut random = Random::new(!seed, index);
    let limit = if random.chance(80) {
        6
    } else {
        random.between(0, 5) as u64
    };
    let run = some_run(&mut random, file);
    let budget = if random.chance(50) {
        u16::MAX
    } else {
        random.between(0, run.len() + 1) as u16
    };
    let mut replayed = vec![budget.to_string()];
    replayed.extend(run.iter().map(u8::to_string));
    vec![
        Question::plain("verdict", answers::verdict(file)),
        Question::plain("checks", answers::checks(file)),
        Question::plain("rewrite", answers::rewrite(file)),
        Question {
            program: "explanations",
            arguments: vec![limit.to_string()],
            expected: answers::list(file, limit),
        },
        Question {
            program: "replay",
            arguments: replayed,
            expected: answers::replay(file, budget, &run),
        },
    ]
}

/// A run that can be fired, often with a number changed, left out or put in.
fn some_run(random: &mut Random, file: &[u8]) -> Vec<u8> {
    let Ok(case) = case::read(file) else {
        return random.numbers(0, 8, 6);
    };
    let steps = random.between(0, 24);
    let mut run = make::walk(random, &case, steps).run;
    if random.chance(40) && !run.is_empty() {
        let at = random.under(run.len());
        match random.under(3) {
            0 => run[at] = random.under(50) as u8,
            1 => {
                run.remove(at);
            }
            _ => run.insert(at, random.under(50) as u8),
        }
    }
    run
}

fn ask(folder: &Path, question: &Question, file: &[u8]) -> io::Result<Vec<u8>> {
    let mut child = Command::new(folder.join(question.program))
        .args(&question.arguments)
        .stdin(Stdio::piped())
        .stdout(Stdio::piped())
        .spawn()?;
    // A program may keep less than it is sent.
    if let Some(mut input) = child.stdin.take() {
        let _ = input.write_all(file);
    }
    Ok(child.wait_with_output()?.stdout)
}
