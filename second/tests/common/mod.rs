//! Short words for the tests: kinds, frames and calls with a buffer of 12 bytes.

// Each test program uses some of these.
#![allow(dead_code)]

use second::frame;
use second::message::{Kind, Message};
use second::queue::{Done, Queue};
use second::refusal::{number, Refusal};

pub const TAKE: u8 = 1;
pub const RETURN: u8 = 2;
pub const ACK: u8 = 3;

/// What a call gave: the number, the message written if any, the grant mark.
pub type Given = (u8, Option<(u8, u8, u32)>, bool);

/// Nothing but number 0.
pub const QUIET: Given = (0, None, false);

pub fn start(posts: u8, own: u8, feeder: u8, places: u8) -> Queue {
    let (queue, answer) = Queue::start(posts, own, feeder, places);
    assert_eq!(answer, Ok(()));
    queue
}

pub fn frame(feeder: u8, kind: u8, sender: u8, counter: u32) -> [u8; 12] {
    let kind = Kind::from_number(kind).unwrap();
    let message = Message {
        kind,
        sender,
        counter,
    };
    frame::bytes(feeder, &message)
}

pub fn take(post: &mut Queue) -> Given {
    let mut buffer = [0; 12];
    let answer = post.take(&mut buffer);
    given(answer, &buffer)
}

pub fn give_back(post: &mut Queue) -> Given {
    let mut buffer = [0; 12];
    let answer = post.give_back(&mut buffer);
    given(answer, &buffer)
}

pub fn receive(post: &mut Queue, kind: u8, sender: u8, counter: u32) -> Given {
    let frame = frame(post.feeder(), kind, sender, counter);
    let mut buffer = [0; 12];
    let answer = post.receive(&frame, &mut buffer);
    given(answer, &buffer)
}

/// Done with this message written and no grant.
pub fn wrote(kind: u8, sender: u8, counter: u32) -> Given {
    (0, Some((kind, sender, counter)), false)
}

pub fn refused(number: u8) -> Given {
    (number, None, false)
}

fn given(answer: Result<Done, Refusal>, buffer: &[u8; 12]) -> Given {
    let is_written = matches!(answer, Ok(Done { written: true, .. }));
    let is_granted = matches!(answer, Ok(Done { granted: true, .. }));
    let written = is_written.then(|| {
        let (_, message) = frame::read(buffer).unwrap();
        (message.kind.number(), message.sender, message.counter)
    });
    assert!(is_written || buffer == &[0; 12]);
    (number(&answer), written, is_granted)
}

pub fn phase(post: &Queue) -> u8 {
    post.phase() as u8
}

pub fn floor(post: &Queue) -> Option<(u32, u8)> {
    post.floor().map(|floor| (floor.counter, floor.post))
}
