//! 01's table of refusals once more, row by row: each row says when its number is given, and the
//! first row that applies is taken. The checker holds every answer of a post against it.

use super::hearing;
use crate::message::{Kind, Message};
use crate::queue::Queue;

type Row = (u8, bool);

fn first(rows: &[Row]) -> u8 {
    rows.iter().find(|row| row.1).map_or(0, |row| row.0)
}

pub fn start(posts: u8, own: u8, places: u8) -> u8 {
    first(&[(1, !are_sound(posts, own, places))])
}

/// `settled` is the post's settled list before the call, here and below.
pub fn take(post: &Queue, settled: &[Message], buffer: usize) -> u8 {
    first(&[
        (1, !is_sound(post)),
        (2, buffer < 12),
        (13, hearing::phase(post, settled) != 0),
        (11, is_at_the_end(post)),
    ])
}

pub fn give_back(post: &Queue, settled: &[Message], buffer: usize) -> u8 {
    first(&[
        (1, !is_sound(post)),
        (2, buffer < 12),
        (14, hearing::phase(post, settled) != 3),
        (11, is_at_the_end(post)),
    ])
}

pub fn receive(post: &Queue, settled: &[Message], frame: &[u8], buffer: usize) -> u8 {
    // Rows after 3 mean nothing for a frame of another length; 0 stands for a byte not there.
    let byte = |place: usize| frame.get(place).copied().unwrap_or(0);
    let (kind, sender) = (byte(6), byte(7));
    let counter = (8..12).fold(0, |n, place| n << 8 | u32::from(byte(place)));
    let is_counted = kind == 1 || kind == 2;
    let mut of_sender = post.messages().iter().filter(|m| m.sender == sender);
    // What waits are the takes and returns after the settled ones.
    let counted = post
        .messages()
        .iter()
        .filter(|m| m.kind != Kind::Acknowledgment);
    let waiting = counted.skip(settled.len());
    let waiting_of_sender = waiting.filter(|m| m.sender == sender).count();
    first(&[
        (1, !is_sound(post)),
        (2, buffer < 12),
        (3, frame.len() != 12),
        (4, [byte(0), byte(1), byte(2)] != [0x46, 0x50, 0x4D]),
        (5, [byte(3), byte(4)] != [0, 1]),
        (6, byte(5) != post.feeder()),
        (7, ![1, 2, 3].contains(&kind)),
        (8, sender == post.own() || sender >= post.posts()),
        (9, counter == 0),
        (10, of_sender.any(|m| m.counter >= counter)),
        (
            11,
            is_counted && (is_at_the_end(post) || counter == 4294967295),
        ),
        (12, is_counted && waiting_of_sender >= 4),
    ])
}

fn is_sound(post: &Queue) -> bool {
    are_sound(post.posts(), post.own(), post.places())
}

fn are_sound(posts: u8, own: u8, places: u8) -> bool {
    (1..=16).contains(&posts) && own < posts && (1..=16).contains(&places)
}

fn is_at_the_end(post: &Queue) -> bool {
    post.messages().iter().any(|m| m.counter == 4294967295)
}
