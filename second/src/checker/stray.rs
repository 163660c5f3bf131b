//! Calls that are no part of a good run: short buffers, and frames that are damaged, doubled, out
//! of order or made up.

use super::one_call::Call;
use crate::frame;
use crate::message::{Kind, Message};
use crate::queue::Queue;
use crate::random::Random;

type Frame = [u8; frame::LENGTH];

/// A call for a post, and the length of the buffer to lend. `sent` has the frames of each post.
pub fn call(random: &mut Random, post: &Queue, sent: &[Vec<Frame>]) -> (Call, usize) {
    let buffer = if random.chance(12) {
        random.below(frame::LENGTH)
    } else {
        random.between(frame::LENGTH, frame::LENGTH + 2)
    };
    let call = match random.below(12) {
        0 => Call::Take,
        1 => Call::Return,
        _ => Call::Receive(frame(random, post, sent)),
    };
    (call, buffer)
}

fn frame(random: &mut Random, post: &Queue, sent: &[Vec<Frame>]) -> Vec<u8> {
    let sender = random.below(sent.len());
    let mut bytes = if random.chance(40) && !sent[sender].is_empty() {
        random.one_of(&sent[sender]).to_vec()
    } else {
        made_up(random, post).to_vec()
    };
    spoil(random, &mut bytes);
    bytes
}

/// Good fields but for the sender, which may be one too high or the own one, and the counter.
fn made_up(random: &mut Random, post: &Queue) -> Frame {
    let sender = match post.waiting().last() {
        // One that has something waiting may have four.
        Some(waiting) if random.chance(30) => waiting.sender,
        _ => random.between(0, usize::from(post.posts())) as u8,
    };
    let counter = match random.below(6) {
        0 => post.last(sender),
        1 | 2 => post.last(sender).saturating_add(1),
        3 => post.clock().saturating_add(1),
        4 => u32::MAX - random.below(2) as u32,
        _ => random.below(3) as u32,
    };
    let kind = random.one_of(&[Kind::Take, Kind::Return, Kind::Acknowledgment]);
    let message = Message {
        kind,
        sender,
        counter,
    };
    frame::bytes(post.feeder(), &message)
}

fn spoil(random: &mut Random, bytes: &mut Vec<u8>) {
    match random.below(8) {
        0 => bytes[random.below(frame::LENGTH)] = random.byte(),
        1 => bytes[random.below(frame::LENGTH)] ^= 1 << random.below(8),
        2 => bytes.truncate(random.below(frame::LENGTH)),
        3 => bytes.push(random.byte()),
        4 => {
            // Two fields spoilt at once show which test comes first.
            bytes[random.between(0, 5)] ^= 0x80;
            bytes[random.between(6, 11)] = 0;
        }
        5 => {
            // A sender that only some feeders or none have, with counter 0.
            bytes[7] = random.one_of(&[bytes[7], 15, 16, 255]);
            bytes[8..].fill(0);
        }
        _ => {}
    }
}
