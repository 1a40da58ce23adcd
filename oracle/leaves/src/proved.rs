//! The proved leaves, asked through the filter of served.c.

use std::io::{Read, Write};
use std::process::{Child, ChildStdin, ChildStdout, Command, Stdio};

use crate::ask::{Ask, Room};

/// served.c's GUARD and MARK.
const GUARD: usize = 8;
const MARK: u64 = 0x5a5a_5a5a_5a5a_0000;

pub struct Proved {
    child: Child,
    asks: ChildStdin,
    answers: ChildStdout,
}

/// What a call answered, and each word of its two outputs with the guards around it.
pub struct Answer {
    pub number: u64,
    counts: Vec<u64>,
    words: Vec<u64>,
}

/// The output begins with these words, and every other word is as it was.
fn begins(output: &[u64], front: &[u64]) -> bool {
    let written = GUARD..GUARD + front.len();
    output.len() >= 2 * GUARD + front.len()
        && output.iter().enumerate().all(|(i, &word)| {
            if written.contains(&i) {
                word == front[i - GUARD]
            } else {
                word == MARK + i as u64
            }
        })
}

fn shown(output: &[u64]) -> String {
    let words = &output[GUARD..output.len() - GUARD];
    let words: Vec<String> = words.iter().map(|word| format!("{word:016x}")).collect();
    words.join(" ")
}

fn guarded(output: &[u64]) -> bool {
    let end = output.len() - GUARD;
    let guard = |i: usize| output[i] == MARK + i as u64;
    (0..GUARD).all(guard) && (end..output.len()).all(guard)
}

impl Answer {
    /// The outputs begin with these, bit for bit, and are as they were beyond.
    pub fn wrote(&self, counts: &[u64], words: &[u64]) -> bool {
        begins(&self.counts, counts) && begins(&self.words, words)
    }

    /// The outputs, for a message.
    pub fn output(&self) -> String {
        format!("{} and {}", shown(&self.counts), shown(&self.words))
    }

    pub fn guarded(&self) -> bool {
        guarded(&self.counts) && guarded(&self.words)
    }
}

fn said<A>(what: &str, came: std::io::Result<A>) -> Result<A, String> {
    came.map_err(|why| format!("the proved leaves {what}: {why}"))
}

impl Proved {
    pub fn start(command: &[String]) -> Result<Proved, String> {
        let (program, words) = command
            .split_first()
            .ok_or("no command for the proved leaves")?;
        let mut child = said(
            "do not start",
            Command::new(program)
                .args(words)
                .stdin(Stdio::piped())
                .stdout(Stdio::piped())
                .spawn(),
        )?;
        let asks = child.stdin.take().expect("its input is a pipe");
        let answers = child.stdout.take().expect("its output is a pipe");
        Ok(Proved {
            child,
            asks,
            answers,
        })
    }

    /// The answers to a part. The filter reads all of it before it writes.
    pub fn answers(&mut self, part: &[(Ask, Room)]) -> Result<Vec<Answer>, String> {
        let mut words = vec![0];
        for (ask, room) in part {
            ask.block(*room, &mut words);
        }
        words[0] = words.len() as u64 - 1;
        let bytes: Vec<u8> = words.iter().flat_map(|word| word.to_le_bytes()).collect();
        said("take no more", self.asks.write_all(&bytes))?;
        said("take no more", self.asks.flush())?;
        let size = |length: usize| length + 2 * GUARD;
        let sizes = part.iter().map(|(_, r)| 1 + size(r.counts) + size(r.out));
        let mut bytes = vec![0; 8 * sizes.sum::<usize>()];
        said("do not answer", self.answers.read_exact(&mut bytes))?;
        let word = |b: &[u8]| u64::from_le_bytes(b.try_into().expect("8 bytes"));
        let mut words = bytes.chunks_exact(8).map(word);
        let mut next = |count: usize| words.by_ref().take(count).collect::<Vec<u64>>();
        let one = |(_, room): &(Ask, Room)| Answer {
            number: next(1)[0],
            counts: next(size(room.counts)),
            words: next(size(room.out)),
        };
        Ok(part.iter().map(one).collect())
    }

    pub fn end(mut self) -> Result<(), String> {
        drop(self.asks);
        let ended = said("do not end", self.child.wait())?;
        if ended.success() {
            Ok(())
        } else {
            Err(format!("the proved leaves ended with {ended}"))
        }
    }
}
