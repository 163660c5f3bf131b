//! What a post's list says, found another way than the queue finds it: no last counters and no
//! floor, but whether something at or above a message was heard from every other post (section
//! 4.2.2's implicit acknowledgment). The checker holds the queue against it.

use crate::message::{Kind, Message};
use crate::queue::Queue;

/// The takes and returns settled at a post, in stamp order. Going down from the newest message, a
/// message is settled once all other posts have been met, itself included.
pub fn settled(post: &Queue) -> Vec<Message> {
    let mut heard = vec![false; usize::from(post.posts())];
    heard[usize::from(post.own())] = true;
    let mut unheard = heard.len() - 1;
    let mut settled = Vec::new();
    for message in post.messages().iter().rev() {
        let sender = usize::from(message.sender);
        if !heard[sender] {
            heard[sender] = true;
            unheard -= 1;
        }
        if unheard == 0 && message.kind != Kind::Acknowledgment {
            settled.push(*message);
        }
    }
    settled.reverse();
    settled
}

/// The own takes that a settled list grants: number at most places + settled returns. Those given
/// back since are among them.
pub fn granted(own: u8, places: u8, settled: &[Message]) -> Vec<Message> {
    let returns = settled.iter().filter(|m| m.kind == Kind::Return).count();
    let room = usize::from(places) + returns;
    let takes = settled.iter().filter(|m| m.kind == Kind::Take);
    let with_room = takes.take(room);
    with_room.filter(|m| m.sender == own).copied().collect()
}

/// The own takes and returns in the order sent.
pub fn said(post: &Queue) -> Vec<Message> {
    let own = post.messages().iter().filter(|m| m.sender == post.own());
    own.filter(|m| m.kind != Kind::Acknowledgment)
        .copied()
        .collect()
}

/// The phase number.
pub fn phase(post: &Queue, settled: &[Message]) -> u8 {
    match said(post).last() {
        Some(take) if take.kind == Kind::Take => {
            let granted = granted(post.own(), post.places(), settled);
            if granted.contains(take) {
                3
            } else if settled.contains(take) {
                2
            } else {
                1
            }
        }
        _ => 0,
    }
}

/// Bit r for every other post that nothing at or above the own unsettled take was heard from.
pub fn missing(post: &Queue, settled: &[Message]) -> u16 {
    if phase(post, settled) != 1 {
        return 0;
    }
    let mut silent = (0..post.posts()).fold(0, |set, r| set | 1 << r);
    silent &= !(1 << post.own());
    // Whatever stands above the own take was heard at or above it.
    let is_own_take = |m: &Message| m.sender == post.own() && m.kind == Kind::Take;
    for message in post.messages().iter().rev() {
        if is_own_take(message) {
            break;
        }
        silent &= !(1 << message.sender);
    }
    silent
}

#[cfg(test)]
mod tests {
    use super::*;

    /// Post 0 of three after take (1,0) of its own, take (1,1) received, and acknowledgment (2,2).
    fn two_takes() -> Queue {
        let mut post = Queue::start(3, 0, 0, 1).0;
        post.take(&mut [0; 12]).unwrap();
        hear(&mut post, Kind::Take, 1, 1);
        hear(&mut post, Kind::Acknowledgment, 2, 2);
        post
    }

    fn hear(post: &mut Queue, kind: Kind, counter: u32, sender: u8) {
        let message = Message {
            kind,
            sender,
            counter,
        };
        let frame = crate::frame::bytes(0, &message);
        post.receive(&frame, &mut [0; 12]).unwrap();
    }

    fn stamps(messages: &[Message]) -> Vec<(u32, u8)> {
        messages.iter().map(|m| (m.counter, m.sender)).collect()
    }

    #[test]
    fn settled_up_to_the_post_heard_least() {
        let mut post = two_takes();
        assert_eq!(stamps(&settled(&post)), [(1, 0), (1, 1)]);
        // (3,1) waits, since nothing of post 2 stands above it.
        hear(&mut post, Kind::Return, 3, 1);
        assert_eq!(stamps(&settled(&post)), [(1, 0), (1, 1)]);
        hear(&mut post, Kind::Acknowledgment, 3, 2);
        assert_eq!(stamps(&settled(&post)), [(1, 0), (1, 1), (3, 1)]);
    }

    #[test]
    fn granted_by_number() {
        let take = |counter, sender| Message {
            kind: Kind::Take,
            sender,
            counter,
        };
        let give_back = Message {
            kind: Kind::Return,
            sender: 0,
            counter: 3,
        };
        let list = [take(1, 0), take(1, 1), take(2, 1)];
        assert_eq!(stamps(&granted(0, 1, &list)), [(1, 0)]);
        assert_eq!(stamps(&granted(1, 1, &list)), []);
        assert_eq!(stamps(&granted(1, 2, &list)), [(1, 1)]);
        let list = [take(1, 0), take(1, 1), take(2, 1), give_back];
        assert_eq!(stamps(&granted(1, 1, &list)), [(1, 1)]);
        assert_eq!(stamps(&granted(1, 2, &list)), [(1, 1), (2, 1)]);
    }

    #[test]
    fn phases_and_missing_posts() {
        let mut post = Queue::start(3, 0, 0, 1).0;
        let both = |post: &Queue| {
            let settled = settled(post);
            (phase(post, &settled), missing(post, &settled))
        };
        assert_eq!(both(&post), (0, 0));
        post.take(&mut [0; 12]).unwrap();
        assert_eq!(both(&post), (1, 0b110));
        hear(&mut post, Kind::Take, 1, 1);
        assert_eq!(both(&post), (1, 0b100));
        hear(&mut post, Kind::Acknowledgment, 2, 2);
        assert_eq!(both(&post), (3, 0));
        post.give_back(&mut [0; 12]).unwrap();
        assert_eq!(both(&post), (0, 0));
        // The own take is now the third, and its place depends on settled returns.
        post.take(&mut [0; 12]).unwrap();
        assert_eq!(both(&post), (1, 0b110));
        hear(&mut post, Kind::Acknowledgment, 9, 1);
        hear(&mut post, Kind::Acknowledgment, 9, 2);
        assert_eq!(both(&post), (2, 0));
    }
}
