//! The judgement of the angle functions: `sweep COMMAND ..`, with the command that runs served.c, or `values`.

#[path = "../../src/angles.rs"]
mod angles;
mod function;
mod list;
mod places;
mod proved;
mod sweep;
mod timing;

use std::process::ExitCode;

fn main() -> ExitCode {
    let words: Vec<String> = std::env::args().skip(1).collect();
    match words.split_first() {
        Some((word, command)) if word == "sweep" && !command.is_empty() => {
            match sweep::sweep(command) {
                Ok(()) => ExitCode::SUCCESS,
                Err(why) => {
                    eprintln!("angles: FAILED: {why}");
                    ExitCode::FAILURE
                }
            }
        }
        Some((word, [])) if word == "values" => {
            list::list();
            ExitCode::SUCCESS
        }
        _ => {
            eprintln!("usage: angle_places sweep COMMAND.. | angle_places values");
            ExitCode::from(2)
        }
    }
}
