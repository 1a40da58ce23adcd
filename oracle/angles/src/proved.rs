//! The proved functions, asked through the filter of served.c.

use crate::function::Function;
use std::io::{Read, Write};
use std::process::{Child, ChildStdin, ChildStdout, Command, Stdio};

/// The most places in a block: an answer fits a pipe, so neither side waits for the other.
pub const BLOCK: usize = 4096;

pub struct Proved {
    child: Child,
    asks: ChildStdin,
    answers: ChildStdout,
}

impl Proved {
    /// Starts the filter: its command, with a word more where its time is asked.
    pub fn start(command: &[String], more: &[&str]) -> Result<Proved, String> {
        let (program, words) = command
            .split_first()
            .ok_or("no command for the proved functions")?;
        let mut child = Command::new(program)
            .args(words)
            .args(more)
            .stdin(Stdio::piped())
            .stdout(Stdio::piped())
            .spawn()
            .map_err(|why| format!("{program} does not start: {why}"))?;
        let asks = child.stdin.take().expect("its input is a pipe");
        let answers = child.stdout.take().expect("its output is a pipe");
        Ok(Proved {
            child,
            asks,
            answers,
        })
    }

    fn ask(&mut self, function: Function, places: &[f64]) -> Result<(), String> {
        assert!(places.len() <= BLOCK);
        let head = [function as u64, places.len() as u64];
        let mut bytes: Vec<u8> = head.iter().flat_map(|w| w.to_le_bytes()).collect();
        bytes.extend(places.iter().flat_map(|x| x.to_le_bytes()));
        let sent = self.asks.write_all(&bytes).and_then(|()| self.asks.flush());
        sent.map_err(|why| format!("the proved functions take no more places: {why}"))
    }

    pub fn values(&mut self, function: Function, places: &[f64]) -> Result<Vec<f64>, String> {
        self.ask(function, places)?;
        let mut bytes = vec![0; 8 * places.len()];
        let came = self.answers.read_exact(&mut bytes);
        came.map_err(|why| format!("the proved functions do not answer: {why}"))?;
        let value = |b: &[u8]| f64::from_le_bytes(b.try_into().expect("8 bytes"));
        Ok(bytes.chunks_exact(8).map(value).collect())
    }

    /// Nanoseconds a call, throughput and latency, as the filter's line says them.
    pub fn time(
        command: &[String],
        function: Function,
        places: &[f64],
    ) -> Result<(f64, f64), String> {
        let mut filter = Proved::start(command, &["time"])?;
        filter.ask(function, places)?;
        drop(filter.asks);
        let mut line = String::new();
        let came = filter.answers.read_to_string(&mut line);
        came.map_err(|why| format!("the proved functions do not answer: {why}"))?;
        let ended = filter.child.wait();
        ended.map_err(|why| format!("the proved functions do not end: {why}"))?;
        let mut times = line.split_whitespace().map(str::parse::<f64>);
        match (times.next(), times.next()) {
            (Some(Ok(throughput)), Some(Ok(latency))) => Ok((throughput, latency)),
            _ => Err(format!("the proved functions answer no times: {line:?}")),
        }
    }

    pub fn end(mut self) -> Result<(), String> {
        drop(self.asks);
        let ended = self
            .child
            .wait()
            .map_err(|why| format!("the proved functions do not end: {why}"))?;
        if ended.success() {
            Ok(())
        } else {
            Err(format!("the proved functions ended with {ended}"))
        }
    }
}
