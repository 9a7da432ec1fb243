//! `bench measure`: times of the calls for C as ratios to the second program, in one run, on the same inputs.
//! `bench compare SEED COUNT`: both programs on COUNT seeded cases of each kind; status 1 at the first difference, which is printed.
#![deny(warnings)]

mod compare;
mod made;
mod measure;
mod ours;

use std::process::ExitCode;

const USAGE: &str = "usage:
  bench measure
  bench compare SEED COUNT";

fn main() -> ExitCode {
    let args: Vec<String> = std::env::args().skip(1).collect();
    let args: Vec<&str> = args.iter().map(String::as_str).collect();
    let numbers = |a: &str, b: &str| Some((a.parse().ok()?, b.parse().ok()?));
    match args[..] {
        ["measure"] => measure::measure(),
        ["compare", seed, count] => {
            let Some((seed, count)) = numbers(seed, count) else {
                eprintln!("{USAGE}");
                return ExitCode::from(2);
            };
            if let Err(difference) = compare::compare(seed, count) {
                println!("{difference}");
                return ExitCode::FAILURE;
            }
        }
        _ => {
            eprintln!("{USAGE}");
            return ExitCode::from(2);
        }
    }
    ExitCode::SUCCESS
}
