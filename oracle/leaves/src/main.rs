//! Compares the proved leaves with document 01's refusals and the numbers of pm-remez: `leaves COUNT SEED COMMAND ..`, with the
//! command that runs served.c.

mod ask;
mod lists;
mod proved;
mod rules;
mod search_lists;
mod search_rules;

use std::collections::BTreeMap;
use std::process::ExitCode;

use ask::{Ask, LEAVES, Room};
use oracle::design::quiet_panics;
use proved::Proved;
use rules::Outcome::{Gave, Refused};

/// Cases that are asked at once.
const PART: usize = 256;

/// The differences of one leaf that are written out; the rest is counted.
const SHOWN: usize = 20;

/// A class of known differences: how many, and the smallest input that shows it.
#[derive(Default)]
struct Class {
    count: usize,
    smallest: Option<(Ask, Room)>,
}

impl Class {
    fn add(&mut self, ask: &Ask, room: Room) {
        self.count += 1;
        let smaller = |(other, _): &(Ask, Room)| ask.size() < other.size();
        if self.smallest.as_ref().is_none_or(smaller) {
            self.smallest = Some((ask.clone(), room));
        }
    }
}

#[derive(Default)]
struct Counts {
    outcomes: BTreeMap<String, usize>,
    classes: BTreeMap<&'static str, Class>,
    wrong: usize,
}

fn compare(leaf: usize, count: usize, seed: u64, filter: &mut Proved) -> Result<Counts, String> {
    let mut counts = Counts::default();
    for from in (0..count).step_by(PART) {
        let part: Vec<_> = (from..count.min(from + PART))
            .map(|index| lists::case(seed, leaf, index))
            .collect();
        let answers = filter.answers(&part)?;
        for ((ask, room), answer) in part.iter().zip(&answers) {
            let said = rules::says(ask, *room);
            let (number, word) = match &said.outcome {
                Gave(_) => (0, "gave".to_string()),
                Refused(number) => (*number, format!("refused {number:2}")),
            };
            *counts.outcomes.entry(word).or_default() += 1;
            if let Some(class) = said.difference {
                counts.classes.entry(class).or_default().add(ask, *room);
            }
            let wrote = match &said.outcome {
                Gave(told) => answer.wrote(&told.counts, &told.words),
                // Only the sort's output is not blank before the call, and it refuses nothing.
                Refused(_) => answer.wrote(&[], &[]),
            };
            if answer.number != number || !wrote {
                counts.wrong += 1;
                if counts.wrong <= SHOWN {
                    println!("# DIFFERENT, expected {:?}", said.outcome);
                    println!("# answered {}, output {}", answer.number, answer.output());
                    if !answer.guarded() {
                        println!("# a word outside the output was written");
                    }
                    print!("{}", ask.text(*room));
                }
            }
        }
    }
    Ok(counts)
}

fn run(count: usize, seed: u64, command: &[String]) -> Result<usize, String> {
    quiet_panics();
    let mut filter = Proved::start(command)?;
    let mut wrong = 0;
    for (leaf, name) in LEAVES.iter().enumerate() {
        let counts = compare(leaf, count, seed, &mut filter)?;
        let outcomes: Vec<String> = counts
            .outcomes
            .iter()
            .map(|(word, n)| format!("{word}: {n}"))
            .collect();
        println!("{name}: {count} compared; {}", outcomes.join(", "));
        for (name, class) in &counts.classes {
            println!("    known difference: {name}: {}; smallest:", class.count);
            if let Some((ask, room)) = &class.smallest {
                for line in ask.text(*room).lines() {
                    println!("        {line}");
                }
            }
        }
        if counts.wrong > 0 {
            println!("    DIFFERENT: {}", counts.wrong);
        }
        wrong += counts.wrong;
    }
    filter.end()?;
    Ok(wrong)
}

fn main() -> ExitCode {
    let words: Vec<String> = std::env::args().skip(1).collect();
    let parsed = match &words[..] {
        [count, seed, command @ ..] if !command.is_empty() => count
            .parse()
            .ok()
            .zip(seed.parse().ok())
            .map(|n| (n, command)),
        _ => None,
    };
    let Some(((count, seed), command)) = parsed else {
        eprintln!("usage: leaves COUNT SEED COMMAND..");
        return ExitCode::from(2);
    };
    match run(count, seed, command) {
        Ok(0) => {
            println!("no difference that is not known");
            ExitCode::SUCCESS
        }
        Ok(wrong) => {
            println!("{wrong} differences");
            ExitCode::FAILURE
        }
        Err(why) => {
            eprintln!("leaves: FAILED: {why}");
            ExitCode::FAILURE
        }
    }
}
