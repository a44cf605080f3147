//! A whole trace: its lines in order, each with its reply.

use crate::card::Refusal;
use crate::driver::{Driver, Reach, Stop};
use crate::lines::{Answer, Call, Form, Line, read};
use crate::opening::Opening;

/// The replies of a trace, each with the number of its line, and where it left the domain.
#[derive(Debug, Default, PartialEq)]
pub struct Run {
    pub replies: Vec<(usize, String)>,
    pub outside: Option<(usize, &'static str)>,
}

impl Run {
    /// The replies as the programs print them.
    pub fn text(&self) -> String {
        let mut text: String = self.replies.iter().map(|(_, reply)| format!("{reply}\n")).collect();
        if let Some((number, why)) = self.outside {
            text.push_str(&format!("outside {number}: {why}\n"));
        }
        text
    }
}

/// How far a trace is.
enum State {
    Before,
    Opening(Opening),
    Started(Box<Driver>),
}

/// The lines of a file, without their LF; an end after the last LF is no line.
fn cut(input: &[u8]) -> Vec<Line> {
    let mut lines: Vec<Line> = input.split(|b| *b == b'\n').map(read).collect();
    if input.is_empty() || input.ends_with(b"\n") {
        lines.pop();
    }
    lines
}

/// The refusal that the next call of `rest` is, if it is one.
fn refusal_ahead(rest: &[Line]) -> Option<Refusal> {
    let next = rest.iter().find_map(|line| match line {
        Line::Comment | Line::Bad => None,
        other => Some(other),
    })?;
    match next {
        Line::Call(Call::Answer(Answer { qtag, back, form: Form::Refused(raw), .. })) => {
            Some(Refusal { tag: Some(*qtag), raw: *raw, back: *back })
        }
        _ => None,
    }
}

/// One line; a reply or none, or why there is none.
fn step(state: &mut State, line: &Line, rest: &[Line], reach: Reach) -> Result<Option<String>, Stop> {
    match (&mut *state, line) {
        (_, Line::Comment) => Ok(None),
        (State::Before, Line::Open(open)) => {
            *state = State::Opening(Opening { open: open.clone(), regions: Vec::new() });
            Ok(None)
        }
        (State::Opening(opening), Line::Region(region)) => {
            opening.regions.push(region.clone());
            Ok(None)
        }
        (State::Opening(opening), Line::Start) => {
            *state = State::Started(Box::new(Driver::new(opening.clone(), reach)?));
            Ok(Some("ok".to_owned()))
        }
        (State::Started(driver), Line::Call(call)) => driver.call(call, refusal_ahead(rest)).map(Some),
        _ => Err(Stop::Bad),
    }
}

/// Runs a trace, of which the Rust gets the domain of comparison and what `reach` adds.
pub fn run(input: &[u8], reach: Reach) -> Run {
    let lines = cut(input);
    let mut state = State::Before;
    let mut run = Run::default();
    for (at, line) in lines.iter().enumerate() {
        let number = at + 1;
        match step(&mut state, line, &lines[number..], reach) {
            Ok(None) => {}
            Ok(Some(reply)) => run.replies.push((number, reply)),
            Err(Stop::Bad) => run.replies.push((number, format!("bad {number}"))),
            Err(Stop::Outside(why)) => {
                run.outside = Some((number, why));
                break;
            }
        }
    }
    run
}
