//! Draws traces, runs the Rust and another program by each, and reports the first difference.

use std::fs::File;
use std::path::{Path, PathBuf};
use std::process::{Command, ExitCode, Stdio};

use compare::drawing::draw;
use compare::driver::Reach;
use compare::run::{Run, run};

/// The other program's replies to the trace in a file.
fn replies_of(program: &Path, trace: &Path) -> Result<String, String> {
    let input = File::open(trace).map_err(|e| format!("{}: {e}", trace.display()))?;
    let ran = Command::new(program).stdin(Stdio::from(input)).stderr(Stdio::inherit()).output();
    let output = ran.map_err(|e| format!("{}: {e}", program.display()))?;
    if !output.status.success() {
        eprintln!("{} ended with {}", program.display(), output.status);
    }
    Ok(String::from_utf8_lossy(&output.stdout).into_owned())
}

/// The first place where the replies differ: the trace's line, the Rust's reply, the other's.
fn difference(rust: &Run, other: &str) -> Option<(usize, String, String)> {
    let mut theirs = other.lines();
    for (number, reply) in &rust.replies {
        let their = theirs.next().unwrap_or("(nothing)");
        if reply != their {
            return Some((*number, reply.clone(), their.to_owned()));
        }
    }
    let number = rust.replies.last().map_or(0, |(number, _)| *number);
    theirs.next().map(|extra| (number, "(nothing more)".to_owned(), extra.to_owned()))
}

/// One trace: how many replies agree, or what differs.
fn one(program: &Path, seed: u64, reach: Reach, kept: &Path) -> Result<usize, String> {
    let text = draw(seed, reach);
    let rust = run(text.as_bytes(), reach);
    if let Some((number, why)) = rust.outside {
        return Err(format!("seed {seed}, line {number}: drawn outside the domain: {why}"));
    }
    std::fs::write(kept, &text).map_err(|e| format!("{}: {e}", kept.display()))?;
    let other = replies_of(program, kept)?;
    match difference(&rust, &other) {
        None => Ok(rust.replies.len()),
        Some((number, ours, theirs)) => {
            let call = text.lines().nth(number.saturating_sub(1)).unwrap_or_default();
            Err(format!(
                "seed {seed}, line {number}: {call}\n  Rust:  {ours}\n  other: {theirs}\n  kept:  {}",
                kept.display()
            ))
        }
    }
}

fn main() -> ExitCode {
    let (flags, words): (Vec<String>, Vec<String>) = std::env::args().skip(1).partition(|word| word == "--off-block");
    let reach = if flags.is_empty() { Reach::Domain } else { Reach::OffBlock };
    let number = |at: usize| words.get(at).and_then(|text| text.parse::<u64>().ok());
    let (Some(program), Some(count)) = (words.first().map(PathBuf::from), number(1)) else {
        eprintln!("compare [--off-block] REPLAY COUNT [FIRST SEED]");
        return ExitCode::FAILURE;
    };
    let first = number(2).unwrap_or(1);
    let kept = PathBuf::from("difference.kept");
    let mut lines = 0;
    for seed in first..first + count {
        match one(&program, seed, reach, &kept) {
            Ok(agreed) => lines += agreed,
            Err(text) => {
                println!("{text}");
                return ExitCode::FAILURE;
            }
        }
    }
    let _gone = std::fs::remove_file(&kept);
    println!("{count} traces, {lines} lines, no difference");
    ExitCode::SUCCESS
}
