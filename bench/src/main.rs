//! The proved clocks and the yard beside peers in plain Rust: `agree` compares
//! what they answer, `measure` how long they take.

mod agree;
mod ids;
mod inputs;
mod kinds;
mod measure;
mod ours;
mod outcomes;
mod scripts;
mod seasons;
mod steps;
mod timing;
mod trees;
mod vector_rows;
mod yard;

use std::process::ExitCode;

fn main() -> ExitCode {
    let arguments: Vec<String> = std::env::args().collect();
    let seed = arguments
        .get(2)
        .and_then(|word| word.parse().ok())
        .unwrap_or(1);
    let done = match arguments.get(1).map(String::as_str) {
        Some("agree") => agree::all(seed),
        Some("measure") => measure::all(seed),
        Some("loop") => measure::one(seed, &arguments[3..]),
        _ => {
            Err("bench agree|measure [SEED], or bench loop SEED ROW ours|peer SECONDS".to_string())
        }
    };
    match done {
        Ok(()) => ExitCode::SUCCESS,
        Err(problem) => {
            eprintln!("{problem}");
            ExitCode::FAILURE
        }
    }
}
