//! An implementation of document 01 that shares nothing with the library, and the comparison of
//! both. Every command first runs the settled examples.
//! `compare` is there where it is built with `--cfg library` and linked with a library.

#![cfg_attr(not(library), allow(dead_code))]

mod calls;
mod cases;
mod clips;
#[cfg(library)]
mod compare;
#[cfg(library)]
mod compare_lanes;
#[cfg(library)]
mod compare_lines;
#[cfg(library)]
mod compare_queue;
mod draw;
mod frame_image;
mod frames;
mod generate;
#[cfg(library)]
mod generate_lines;
#[cfg(library)]
mod generate_queue;
mod halves;
mod host;
mod image;
mod judge;
mod kernels;
mod lane_image;
mod lane_runs;
mod lanes;
#[cfg(library)]
mod library;
mod lines;
mod listings;
mod marks_image;
mod oscillator;
mod paper;
mod processes;
mod program;
mod queue;
mod queue_paper;
mod queue_runs;
mod random;
mod runs;
mod settings;
mod settled;
mod settled_queue;
mod sheets;
mod state;
#[cfg(library)]
mod tally;
mod turned;
mod turned_lists;
mod values;
mod vectors;

use std::process::ExitCode;

const USAGE: &str = "usage:
  compare [--long] [--outputs N] [--calls N] [--seed S]
                        holds the library that this is linked with against the implementation
  turned                a part of this, on lists of calls with turned samples; without a library
                        on the implementation itself
  program PATH [ARGUMENT ..]
                        the same for a program, on drawn inputs
  vectors DIR --check   whether the files of DIR have the implementation's answers
  vectors DIR --write   writes these answers
  run FILE              prints a run on paper, as those of vectors/paper, with its outputs
  values                what the program check_values must write
  runs                  what the program check_runs must write
  queue                 what the program check_queue must write
  output KERNEL REGISTER SAMPLE SAMPLE SAMPLE SAMPLE
                        one output, and high, low or neither; the register in
                        hexadecimal";

fn main() -> ExitCode {
    let arguments = std::env::args().skip(1).collect::<Vec<String>>();
    let words = arguments.iter().map(String::as_str).collect::<Vec<&str>>();
    match command(&words) {
        Ok(()) => ExitCode::SUCCESS,
        Err(what) => {
            eprintln!("{what}");
            ExitCode::FAILURE
        }
    }
}

fn command(words: &[&str]) -> Result<(), String> {
    let examples = settled::run()?;
    eprintln!("{examples} settled examples hold");
    match words {
        #[cfg(library)]
        ["compare", words @ ..] => compare::run(&amount(words)?),
        #[cfg(library)]
        ["turned"] => compare::turned_samples(&mut library::Library::new(), 1),
        #[cfg(not(library))]
        ["turned"] => turned_lists::tell(&turned_lists::on_model(1, turned_lists::LISTS)?),
        ["program", command @ ..] if !command.is_empty() => processes::run(command),
        ["vectors", folder, "--write"] => vectors::write(folder),
        ["vectors", folder, "--check"] => vectors::check(folder),
        ["values"] => values::lines().map(|text| print!("{text}")),
        ["runs"] => runs::lines().map(|text| print!("{text}")),
        ["queue"] => queue_runs::lines().map(|text| print!("{text}")),
        ["run", path] => run(path),
        ["output", case @ ..] => values::one(case).map(|text| print!("{text}")),
        _ => Err(USAGE.to_string()),
    }
}

fn run(path: &str) -> Result<(), String> {
    let text = std::fs::read_to_string(path).map_err(|error| format!("{path}: {error}"))?;
    listings::anew(&text).map(|(text, _)| print!("{text}"))
}

#[cfg(library)]
fn amount(words: &[&str]) -> Result<compare::Amount, String> {
    let mut amount = compare::Amount { outputs: 10_000_000, calls: 120_000, seed: 1 };
    let mut rest = words;
    loop {
        rest = match rest {
            [] => return Ok(amount),
            ["--long", rest @ ..] => {
                (amount.outputs, amount.calls) = (100_000_000, 1_000_000);
                rest
            }
            [option, value, rest @ ..] => {
                let number = value.parse::<u64>().map_err(|_| USAGE)?;
                match *option {
                    "--outputs" => amount.outputs = number,
                    "--calls" => amount.calls = number,
                    "--seed" => amount.seed = number,
                    _ => return Err(USAGE.to_string()),
                }
                rest
            }
            _ => return Err(USAGE.to_string()),
        }
    }
}
