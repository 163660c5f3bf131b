//! The bench: a night read from a byte source, its answers written line by line.

use std::fmt;
use std::io::{self, BufRead, Write};

use crate::feeder::Feeder;
use crate::lines::{self, Command, LONGEST_HEADER};
use crate::queue::{Done, Phase};
use crate::refusal::{number, Refusal};

/// Commands that the bench reads; the line after them stops it.
pub const MOST_LINES: u32 = 256;

/// Runs one night. Fails only where reading or writing fails.
pub fn run(input: impl BufRead, mut output: impl Write) -> io::Result<()> {
    let mut bytes = input.bytes();
    // A header longer than the longest good one is bad whatever follows, so no more is read of it.
    let first = lines::next(&mut bytes.by_ref().take(LONGEST_HEADER + 1))?;
    let Some(mut feeder) = first.and_then(|line| start(&line)) else {
        return writeln!(output, "bad header");
    };
    for line_number in 1..=MOST_LINES {
        let Some(line) = lines::next(&mut bytes)? else {
            return last_line(&feeder, output);
        };
        match lines::command(&line, feeder.posts()) {
            Some(command) => {
                let answer = call(&mut feeder, command);
                answer_line(&mut output, line_number, command, answer)?;
            }
            None => answer_line(&mut output, line_number, '?', Err(Refusal::NotACommand))?,
        }
    }
    // One byte is enough for another line.
    if bytes.next().transpose()?.is_some() {
        let refused = Err(Refusal::TooManyLines);
        answer_line(&mut output, MOST_LINES + 1, '?', refused)?;
    }
    last_line(&feeder, output)
}

fn start(line: &[u8]) -> Option<Feeder> {
    let (posts, places) = lines::header(line)?;
    Feeder::start(posts, places).ok()
}

/// Calls the post that a command is for.
pub fn call(feeder: &mut Feeder, command: Command) -> Result<Done, Refusal> {
    match command {
        Command::Take(p) => feeder.take(p),
        Command::Return(p) => feeder.give_back(p),
        Command::Deliver(p, q) => feeder.deliver(p, q),
    }
}

fn answer_line(
    output: &mut impl Write,
    line_number: u32,
    command: impl fmt::Display,
    answer: Result<Done, Refusal>,
) -> io::Result<()> {
    let refusal = number(&answer);
    let mark = match answer {
        Ok(Done { granted: true, .. }) => 'G',
        _ => '-',
    };
    writeln!(output, "{line_number} {command} {refusal} {mark}")
}

fn last_line(feeder: &Feeder, mut output: impl Write) -> io::Result<()> {
    let places = feeder.places();
    let held = feeder.in_phase(Phase::Holding);
    let waiting = feeder.in_phase(Phase::Unsettled) + feeder.in_phase(Phase::Numbered);
    writeln!(output, "places {places} held {held} waiting {waiting}")
}
