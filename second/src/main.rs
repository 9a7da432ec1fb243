#![deny(warnings)]
#![forbid(unsafe_code)]

use second::text::{case_verdict, octets_of, read_verdict};
use second::{capture, check, make, UNIT_OCTETS};
use std::io::{self, BufRead, BufWriter, Write};
use std::process::ExitCode;

const USAGE: &str = "usage:
  second check WITNESSES.txt|VECTORS.jsonl ..
  second make SEED COUNT reads|warnings|calls|calls-unit|calls-binary
  second judge < LINES
  second capture FILE";

fn main() -> ExitCode {
    let args: Vec<String> = std::env::args().skip(1).collect();
    let args: Vec<&str> = args.iter().map(String::as_str).collect();
    let done = match args[..] {
        ["check", ref paths @ ..] if !paths.is_empty() => check_all(paths),
        ["make", seed, count, kind] => make_all(seed, count, kind),
        ["judge"] => judge(),
        ["capture", path] => play(path),
        _ => Err(USAGE.into()),
    };
    match done {
        Ok(true) => ExitCode::SUCCESS,
        Ok(false) => ExitCode::FAILURE,
        Err(why) => {
            eprintln!("{why}");
            ExitCode::from(2)
        }
    }
}

type Done = Result<bool, String>;

fn check_all(paths: &[&str]) -> Done {
    let mut result = check::Result::default();
    for path in paths {
        let text = std::fs::read_to_string(path).map_err(|e| format!("{path}: {e}"))?;
        if path.ends_with(".jsonl") {
            check::vectors(path, &text, &mut result);
        } else {
            check::witnesses(path, &text, &mut result);
        }
    }
    for difference in &result.differences {
        println!("{difference}");
    }
    for (word, count) in check::WORDS.iter().zip(result.witnesses) {
        println!("{word} witnesses: {count}");
    }
    println!("messages: {} ({} over the limit, {} answered 3)", result.messages, result.over, result.extended);
    println!("differences: {}", result.differences.len());
    Ok(result.differences.is_empty())
}

fn make_all(seed: &str, count: &str, kind: &str) -> Done {
    let seed = seed.parse().map_err(|_| USAGE)?;
    let count = count.parse().map_err(|_| USAGE)?;
    let mut out = BufWriter::new(io::stdout().lock());
    match kind {
        "reads" => make::reads(seed, count, &mut out),
        "warnings" => make::warnings(seed, count, &mut out),
        "calls" => make::calls(seed, count, make::Form::Text, &mut out),
        "calls-unit" => make::calls(seed, count, make::Form::Digest, &mut out),
        "calls-binary" => make::calls(seed, count, make::Form::Binary, &mut out),
        _ => return Err(USAGE.into()),
    }
    .and_then(|()| out.flush())
    .map_err(|e| e.to_string())?;
    Ok(true)
}

/// Gives our verdict on cases from elsewhere: lines as `make` prints them (what stands behind
/// ` =>` is dropped).
fn judge() -> Done {
    let mut unit = vec![0; UNIT_OCTETS];
    let mut out = BufWriter::new(io::stdout().lock());
    for line in io::stdin().lock().lines() {
        let line = line.map_err(|e| e.to_string())?;
        let shown = line.split_once(" => ").map_or(&line[..], |(case, _)| case);
        let case = shown.trim();
        let verdict = if case == "table" {
            unit.fill(0);
            writeln!(out, "table").map_err(|e| e.to_string())?;
            continue;
        } else {
            case_verdict(&mut unit, case)
                .or_else(|| octets_of(case).map(|octets| read_verdict(&octets)))
                .ok_or_else(|| format!("not understood: {case}"))?
        };
        writeln!(out, "{shown} => {verdict}").map_err(|e| e.to_string())?;
    }
    out.flush().map_err(|e| e.to_string())?;
    Ok(true)
}

fn play(path: &str) -> Done {
    let input = std::fs::read(path).map_err(|e| format!("{path}: {e}"))?;
    let mut text = String::new();
    capture(&input, &mut text);
    print!("{text}");
    Ok(true)
}
