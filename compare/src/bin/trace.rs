//! Reads a trace, drives the Rust by it and prints the replies. Exit 2, after a line `outside`, where the trace
//! leaves the domain of comparison.

use std::io::{Read, Write};
use std::process::ExitCode;

use compare::driver::Reach;

fn main() -> ExitCode {
    let reach = match std::env::args().nth(1).as_deref() {
        Some("--beyond") => Reach::Beyond,
        Some("--off-block") => Reach::OffBlock,
        _ => Reach::Domain,
    };
    let mut input = Vec::new();
    std::io::stdin().read_to_end(&mut input).expect("standard input");
    let run = compare::run::run(&input, reach);
    std::io::stdout().write_all(run.text().as_bytes()).expect("standard output");
    match run.outside {
        None => ExitCode::SUCCESS,
        Some(_) => ExitCode::from(2),
    }
}
