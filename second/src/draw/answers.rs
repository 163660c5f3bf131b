//! Each line of a night with its answer: the input and the output read side by side.

use super::misfit::{quoted, Misfit, Side};
use crate::bench::MOST_LINES;
use crate::lines::{self, Command};
use crate::queue::{MOST_PLACES, MOST_POSTS};

/// A line of a night and what the output says of it.
#[derive(Clone, Copy, Debug, PartialEq, Eq)]
pub struct Answer {
    /// None where the output has `?`.
    pub command: Option<Command>,
    /// 0 or the refusal.
    pub number: u8,
    pub granted: bool,
}

pub struct Answers {
    pub posts: u8,
    pub places: u8,
    pub answers: Vec<Answer>,
    /// The output's last line, which stands after the answers and says `places`.
    pub last: String,
}

pub fn read(input: &[u8], output: &[u8]) -> Result<Answers, Misfit> {
    let mut bytes = input.iter().map(|&byte| Ok(byte));
    let mut night = std::iter::from_fn(|| lines::next(&mut bytes).expect("bytes are at hand"));
    let (posts, places) = night
        .next()
        .and_then(|line| header(&line))
        .ok_or_else(|| bad_header(input))?;
    let output = String::from_utf8_lossy(output);
    let mut said = output.split_terminator('\n');
    let mut answers = Vec::new();
    // The bench looks at no line after the one it stops at.
    for (line_number, line) in (1..=MOST_LINES as usize + 1).zip(night) {
        let may_be_said = if line_number > MOST_LINES as usize {
            too_many_lines()
        } else {
            answers_to(lines::command(&line, posts))
        };
        answers.push(answer(line_number, &may_be_said, said.next())?);
    }
    let last = last_line(answers.len() + 1, &mut said)?;
    Ok(Answers {
        posts,
        places,
        answers,
        last,
    })
}

fn header(line: &[u8]) -> Option<(u8, u8)> {
    let in_range = |&(posts, places): &(u8, u8)| {
        (1..=MOST_POSTS).contains(&posts) && (1..=MOST_PLACES).contains(&places)
    };
    lines::header(line).filter(in_range)
}

fn bad_header(input: &[u8]) -> Misfit {
    let first = input.split(|&byte| byte == b'\n').next();
    let found = first.filter(|_| !input.is_empty());
    let expected = "a header, posts and places with one space between, both from 1 to 16";
    Misfit::expected(
        Side::Input,
        1,
        expected,
        found.map(String::from_utf8_lossy).as_deref(),
    )
}

/// All answers that the bench can give to a line. It has no others: what it offers is always new
/// to the post, in 12 bytes, and no counter comes to its end in 256 lines.
fn answers_to(command: Option<Command>) -> Vec<Answer> {
    let given: &[(u8, bool)] = match command {
        Some(Command::Take(_)) => &[(0, false), (0, true), (13, false)],
        Some(Command::Return(_)) => &[(0, false), (14, false)],
        Some(Command::Deliver(..)) => &[(0, false), (0, true), (12, false), (15, false)],
        None => &[(16, false)],
    };
    let answer = |&(number, granted)| Answer {
        command,
        number,
        granted,
    };
    given.iter().map(answer).collect()
}

fn too_many_lines() -> Vec<Answer> {
    vec![Answer {
        command: None,
        number: 17,
        granted: false,
    }]
}

/// The one of these answers that the output's line says.
fn answer(line_number: usize, may_be: &[Answer], said: Option<&str>) -> Result<Answer, Misfit> {
    let texts: Vec<String> = may_be.iter().map(|a| text(line_number, a)).collect();
    let place = texts.iter().position(|text| Some(text.as_str()) == said);
    place.map(|place| may_be[place]).ok_or_else(|| {
        let texts: Vec<String> = texts.iter().map(|text| quoted(text)).collect();
        Misfit::expected(Side::Output, line_number, &texts.join(" or "), said)
    })
}

/// An answer as the bench writes it.
pub fn text(line_number: usize, answer: &Answer) -> String {
    let command = match answer.command {
        Some(command) => command.to_string(),
        None => "?".to_string(),
    };
    let mark = if answer.granted { 'G' } else { '-' };
    format!("{line_number} {command} {} {mark}", answer.number)
}

/// The line after the answers; nothing may follow it.
fn last_line<'a>(
    line_number: usize,
    said: &mut impl Iterator<Item = &'a str>,
) -> Result<String, Misfit> {
    let misfit = |line, expected, found| Misfit::expected(Side::Output, line, expected, found);
    let expected = "the last line, \"places ..\", as the input has no more lines";
    let last = said.next();
    let last = last
        .filter(|last| last.starts_with("places "))
        .ok_or_else(|| misfit(line_number, expected, last))?;
    match said.next() {
        Some(more) => Err(misfit(line_number + 1, "the end of the file", Some(more))),
        None => Ok(last.to_string()),
    }
}
