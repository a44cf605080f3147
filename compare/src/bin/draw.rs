//! Prints the trace of a seed.

use std::process::ExitCode;

use compare::driver::Reach;

fn main() -> ExitCode {
    let (flags, words): (Vec<String>, Vec<String>) = std::env::args().skip(1).partition(|word| word == "--off-block");
    let reach = if flags.is_empty() { Reach::Domain } else { Reach::OffBlock };
    let seed = words.first().and_then(|text| text.parse().ok());
    match seed {
        Some(seed) => {
            print!("{}", compare::drawing::draw(seed, reach));
            ExitCode::SUCCESS
        }
        None => {
            eprintln!("draw [--off-block] SEED");
            ExitCode::FAILURE
        }
    }
}
