//! Random nights for the bench: most lines are accepted, some refused, some spoilt.

use crate::bench;
use crate::feeder::Feeder;
use crate::lines::{self, Command};
use crate::queue::Phase;
use crate::random::Random;

/// What a night is like.
struct Style {
    posts: u8,
    places: u8,
    lines: usize,
    /// One line in so many is a take or return, where something could be delivered.
    busy: usize,
    /// Nothing of the first comes to the second for half of the night.
    mute: Option<(u8, u8)>,
    /// Percent of lines that are any command, allowed or not.
    wrong: usize,
    /// Percent of lines that are damaged.
    spoilt: usize,
}

pub fn night(random: &mut Random) -> Vec<u8> {
    let style = style(random);
    let mut night = header(random, &style);
    let mut feeder = Feeder::start(style.posts, style.places).expect("styles are in range");
    for line_number in 0..style.lines {
        // The mute pair is heard again later, so that what waited is settled then.
        let mute = style.mute.filter(|_| line_number < style.lines / 2);
        let line = line(random, &style, &feeder, mute);
        if let Some(command) = lines::command(&line, style.posts) {
            // A refusal is as good as an answer here: the bench will show it.
            let _ = bench::call(&mut feeder, command);
        }
        night.extend(line);
        night.push(b'\n');
    }
    if random.chance(10) {
        night.pop();
    }
    night
}

fn style(random: &mut Random) -> Style {
    let mut number = |first, last| random.between(first, last);
    let plain = Style {
        posts: number(2, 6) as u8,
        places: number(1, 4) as u8,
        lines: number(20, 200),
        busy: number(2, 12),
        mute: None,
        wrong: 5,
        spoilt: 0,
    };
    match number(0, 6) {
        // Few posts.
        0 => Style {
            posts: number(1, 2) as u8,
            places: number(1, 2) as u8,
            ..plain
        },
        // Many posts.
        1 => Style {
            posts: number(8, 16) as u8,
            places: number(1, 16) as u8,
            lines: number(100, 256),
            busy: number(2, 60),
            ..plain
        },
        // One that lags behind, so that 12 comes up.
        2 | 3 => Style {
            posts: 3 + (number(0, 3) / 3) as u8,
            lines: number(150, 256),
            busy: number(4, 8),
            mute: Some((2, 0)),
            ..plain
        },
        // Longer than the bench reads.
        4 => Style {
            lines: number(257, 300),
            ..plain
        },
        // Damaged.
        5 => Style {
            wrong: 15,
            spoilt: 15,
            ..plain
        },
        _ => plain,
    }
}

fn header(random: &mut Random, style: &Style) -> Vec<u8> {
    let mut header = format!("{} {}", style.posts, style.places).into_bytes();
    if style.spoilt > 0 && random.chance(20) {
        spoil(random, &mut header);
    }
    header.push(b'\n');
    header
}

fn line(random: &mut Random, style: &Style, feeder: &Feeder, mute: Option<(u8, u8)>) -> Vec<u8> {
    let command = if random.chance(style.wrong) {
        any(random, style.posts)
    } else {
        likely(random, style, feeder, mute)
    };
    let mut line = command.to_string().into_bytes();
    if random.chance(style.spoilt) {
        spoil(random, &mut line);
    }
    line
}

/// Any command at all; a post may be one too high.
fn any(random: &mut Random, posts: u8) -> Command {
    let p = random.between(0, usize::from(posts)) as u8;
    let q = random.between(0, usize::from(posts)) as u8;
    match random.below(4) {
        0 => Command::Take(p),
        1 => Command::Return(p),
        _ => Command::Deliver(p, q),
    }
}

/// A command that the bench will most likely accept.
fn likely(random: &mut Random, style: &Style, feeder: &Feeder, mute: Option<(u8, u8)>) -> Command {
    let mut deliveries = Vec::new();
    let mut calls = Vec::new();
    for p in 0..style.posts {
        let others = (0..style.posts).filter(|&q| q != p && Some((p, q)) != mute);
        let pending = others.filter(|&q| feeder.next(p, q).is_some());
        deliveries.extend(pending.map(|q| Command::Deliver(p, q)));
        match feeder.phase(p) {
            Phase::Idle => calls.push(Command::Take(p)),
            Phase::Holding => calls.push(Command::Return(p)),
            Phase::Unsettled | Phase::Numbered => {}
        }
    }
    let is_call = deliveries.is_empty() || random.below(style.busy) == 0;
    let from = if is_call && !calls.is_empty() {
        calls
    } else {
        deliveries
    };
    if from.is_empty() {
        any(random, style.posts)
    } else {
        random.one_of(&from)
    }
}

fn spoil(random: &mut Random, line: &mut Vec<u8>) {
    let place = random.below(line.len());
    let byte = random.one_of(b"\0\t\r \x0b+-0189DRTdrt\x80\xff");
    match random.below(8) {
        0 => line[place] = byte,
        1 => line.insert(place, byte),
        2 => line.push(byte),
        3 => {
            line.remove(place);
        }
        4 => line.clear(),
        5 => line.make_ascii_lowercase(),
        // The last number by 2 to the 8, 32 or 64 too high, or nearly.
        6 => line.extend(
            random
                .one_of(&["256", "4294967296", "18446744073709551616"])
                .bytes(),
        ),
        _ => line.extend(vec![byte; random.between(1, 300)]),
    }
}

#[cfg(test)]
mod tests {
    use super::*;

    #[test]
    fn nights_are_a_good_mixture() {
        let mut random = Random::new(1);
        let mut times = [0; 18];
        let mut bad_headers = 0;
        for _ in 0..300 {
            let mut output = Vec::new();
            bench::run(&night(&mut random)[..], &mut output).unwrap();
            for line in String::from_utf8(output).unwrap().lines() {
                let words: Vec<&str> = line.split(' ').collect();
                match words[..] {
                    ["bad", ..] => bad_headers += 1,
                    ["places", ..] => {}
                    [.., number, _] => times[number.parse::<usize>().unwrap()] += 1,
                    _ => panic!("{line}"),
                }
            }
        }
        assert!(bad_headers > 0);
        for (number, times) in times.iter().enumerate().skip(12) {
            assert!(*times > 0, "{number} never came up");
        }
        assert!(times[0] * 3 > times.iter().sum::<usize>() * 2);
    }

    #[test]
    fn the_same_seed_makes_the_same_night() {
        let made = |seed| night(&mut Random::new(seed));
        assert_eq!(made(5), made(5));
        assert_ne!(made(5), made(6));
    }
}
