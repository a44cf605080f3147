//! Draws traces, writes off the block among them, runs the Rust by each, and writes them one after another, and the Rust's
//! replies: the standard input and output of the program `lists`, in which a line `# list` is the first of a trace.

use std::process::ExitCode;

use compare::drawing::draw;
use compare::driver::Reach;
use compare::run::run;

fn main() -> ExitCode {
    let words: Vec<String> = std::env::args().skip(1).collect();
    let number = |at: usize| words.get(at).and_then(|text| text.parse::<u64>().ok());
    let (Some(count), Some(first), Some(traces), Some(replies)) = (number(0), number(1), words.get(2), words.get(3))
    else {
        eprintln!("list COUNT FIRST-SEED TRACES REPLIES");
        return ExitCode::FAILURE;
    };
    let mut given = String::new();
    let mut said = String::new();
    for seed in first..first + count {
        let text = format!("# list\n{}", draw(seed, Reach::OffBlock));
        let rust = run(text.as_bytes(), Reach::OffBlock);
        if let Some((line, why)) = rust.outside {
            println!("seed {seed}, line {line}: drawn outside the domain: {why}");
            return ExitCode::FAILURE;
        }
        said.push_str(&rust.text());
        given.push_str(&text);
    }
    for (path, text) in [(traces, &given), (replies, &said)] {
        if let Err(e) = std::fs::write(path, text) {
            println!("{path}: {e}");
            return ExitCode::FAILURE;
        }
    }
    println!("{count} traces, {} replies", said.lines().count());
    ExitCode::SUCCESS
}
