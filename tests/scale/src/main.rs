//! The comparison at scale: `scale [SEED [OUTLINES]]`; and `scale --texts FILE`, which leaves written trees for another parser.

use std::env;
use std::fs;
use std::process::ExitCode;

use plates_scale::peer;
use plates_scale::random::Random;
use plates_scale::runs::{Runner, DEFAULT_OUTLINES, DEFAULT_SEED};

fn main() -> ExitCode {
    let given: Vec<String> = env::args().skip(1).collect();
    if let [option, file] = &given[..] {
        if option == "--texts" {
            return leave_texts(file);
        }
    }
    let Some((seed, outlines)) = numbers(&given) else {
        eprintln!("usage: scale [SEED [OUTLINES]] or scale --texts FILE");
        return ExitCode::from(2);
    };
    println!("seed {seed}, {outlines} outlines");
    let mut runner = Runner::new(seed);
    let finished = runner.run(outlines).is_ok();
    println!("{}", runner.report.summary());
    if finished && runner.report.passed() {
        ExitCode::SUCCESS
    } else {
        ExitCode::FAILURE
    }
}

fn leave_texts(file: &str) -> ExitCode {
    let lines = peer::lines(&mut Random::new(DEFAULT_SEED));
    match fs::write(file, lines) {
        Ok(()) => ExitCode::SUCCESS,
        Err(error) => {
            eprintln!("{file}: {error}");
            ExitCode::FAILURE
        }
    }
}

fn numbers(given: &[String]) -> Option<(u64, u64)> {
    let given: Vec<u64> = given
        .iter()
        .map(|argument| argument.parse().ok())
        .collect::<Option<_>>()?;
    match given[..] {
        [] => Some((DEFAULT_SEED, DEFAULT_OUTLINES)),
        [seed] => Some((seed, DEFAULT_OUTLINES)),
        [seed, outlines] => Some((seed, outlines)),
        _ => None,
    }
}
