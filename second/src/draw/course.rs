//! The course of a night, as its answers imply it: after each line, which posts wait and which hold.

use super::answers::{self, Answer};
use super::misfit::{Misfit, Side};
use crate::lines::Command;

/// What the answers tell of a post. They do not tell phase 1 from phase 2: both wait.
#[derive(Clone, Copy, Debug, PartialEq, Eq)]
pub enum State {
    Idle,
    Waiting,
    Holding,
}

pub struct Course {
    posts: u8,
    places: u8,
    answers: Vec<Answer>,
    /// The state of each post after each line.
    after: Vec<Vec<State>>,
}

/// Lines next to each other, from the first to the last, that have something in common.
#[derive(Clone, Copy, Debug, PartialEq, Eq)]
pub struct Stretch<T> {
    pub of: T,
    pub first: usize,
    pub last: usize,
}

impl Course {
    pub fn read(input: &[u8], output: &[u8]) -> Result<Course, Misfit> {
        let read = answers::read(input, output)?;
        let mut states = vec![State::Idle; usize::from(read.posts)];
        let mut after = Vec::new();
        for (line_number, answer) in (1..).zip(&read.answers) {
            if let Some(command) = answer.command {
                let state = &mut states[usize::from(command.post())];
                *state = next(*state, command, answer)
                    .ok_or_else(|| does_not_follow(line_number, command, answer, *state))?;
            }
            after.push(states.clone());
        }
        let course = Course {
            posts: read.posts,
            places: read.places,
            answers: read.answers,
            after,
        };
        course.ends_with(&read.last)?;
        Ok(course)
    }

    pub fn posts(&self) -> u8 {
        self.posts
    }

    pub fn places(&self) -> usize {
        usize::from(self.places)
    }

    pub fn lines(&self) -> usize {
        self.answers.len()
    }

    /// The answers with their line numbers.
    pub fn answers(&self) -> impl Iterator<Item = (usize, &Answer)> {
        (1..).zip(&self.answers)
    }

    pub fn grants(&self) -> impl Iterator<Item = (usize, &Answer)> {
        self.answers().filter(|(_, answer)| answer.granted)
    }

    pub fn refused(&self) -> impl Iterator<Item = (usize, &Answer)> {
        self.answers().filter(|(_, answer)| answer.number != 0)
    }

    /// The states of one post, each as long as it lasts.
    pub fn states_of(&self, post: u8) -> Vec<Stretch<State>> {
        stretches(self.after.iter().map(|states| states[usize::from(post)]))
    }

    /// How many hold, each number as long as it lasts.
    pub fn holding(&self) -> Vec<Stretch<usize>> {
        stretches(
            self.after
                .iter()
                .map(|states| count(states, State::Holding)),
        )
    }

    /// The most that hold after any line.
    pub fn most_holding(&self) -> usize {
        self.holding().iter().map(|s| s.of).max().unwrap_or(0)
    }

    /// How many are in this state after the last line.
    pub fn at_the_end(&self, state: State) -> usize {
        match self.after.last() {
            Some(states) => count(states, state),
            None => 0,
        }
    }

    fn ends_with(&self, last: &str) -> Result<(), Misfit> {
        let held = self.at_the_end(State::Holding);
        let waiting = self.at_the_end(State::Waiting);
        let expected = format!("places {} held {held} waiting {waiting}", self.places);
        if last == expected {
            return Ok(());
        }
        let expected = format!("{expected:?}, as the lines before imply");
        let line_number = self.lines() + 1;
        Err(Misfit::expected(
            Side::Output,
            line_number,
            &expected,
            Some(last),
        ))
    }
}

/// The state that an answer leaves a post in; none if it is no answer to a post in this state.
fn next(before: State, command: Command, answer: &Answer) -> Option<State> {
    let is_done = answer.number == 0;
    let fits = match command {
        Command::Take(_) => is_done == (before == State::Idle),
        Command::Return(_) => is_done == (before == State::Holding),
        Command::Deliver(..) => !answer.granted || before == State::Waiting,
    };
    let after = match command {
        _ if answer.granted => State::Holding,
        Command::Take(_) if is_done => State::Waiting,
        Command::Return(_) if is_done => State::Idle,
        _ => before,
    };
    fits.then_some(after)
}

fn does_not_follow(line_number: usize, command: Command, answer: &Answer, state: State) -> Misfit {
    let is = match state {
        State::Idle => "is idle",
        State::Waiting => "waits",
        State::Holding => "holds",
    };
    Misfit {
        side: Side::Output,
        line: line_number,
        what: format!(
            "{:?} does not follow: by the lines before, post {} {is}",
            answers::text(line_number, answer),
            command.post()
        ),
    }
}

fn count(states: &[State], state: State) -> usize {
    states.iter().filter(|&&s| s == state).count()
}

fn stretches<T: Copy + PartialEq>(items: impl Iterator<Item = T>) -> Vec<Stretch<T>> {
    let mut found: Vec<Stretch<T>> = Vec::new();
    for (line_number, of) in (1..).zip(items) {
        match found.last_mut() {
            Some(stretch) if stretch.of == of => stretch.last = line_number,
            _ => found.push(Stretch {
                of,
                first: line_number,
                last: line_number,
            }),
        }
    }
    found
}
