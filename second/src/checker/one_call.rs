//! One call on one post, held against 01: the number against the table, everything else against
//! what the list says when it is read the other way.

use super::{ensure, hearing, table, Check};
use crate::frame;
use crate::message::{Kind, Message};
use crate::queue::{Done, Queue};
use crate::refusal::{number, Refusal};

#[derive(Clone, Debug)]
pub enum Call {
    Take,
    Return,
    Receive(Vec<u8>),
}

/// What came of a call.
pub struct Outcome {
    pub number: u8,
    pub granted: bool,
    /// The frame written, if any.
    pub frame: Option<[u8; frame::LENGTH]>,
    /// The settled list after the call.
    pub settled: Vec<Message>,
}

/// Bytes of the lent buffer that no call has written.
const UNTOUCHED: u8 = 0xA5;

/// The number that the table gives for a call.
pub fn expected(post: &Queue, settled: &[Message], call: &Call, buffer: usize) -> u8 {
    match call {
        Call::Take => table::take(post, settled, buffer),
        Call::Return => table::give_back(post, settled, buffer),
        Call::Receive(frame) => table::receive(post, settled, frame, buffer),
    }
}

/// Makes a call with a lent buffer of so many bytes. `settled` is the settled list before it.
pub fn make(
    post: &mut Queue,
    settled: &[Message],
    call: &Call,
    buffer: usize,
) -> Result<Outcome, String> {
    let expected = expected(post, settled, call, buffer);
    let before = post.clone();
    let mut lent = vec![UNTOUCHED; buffer];
    let answer = match call {
        Call::Take => post.take(&mut lent),
        Call::Return => post.give_back(&mut lent),
        Call::Receive(frame) => post.receive(frame, &mut lent),
    };
    let number = number(&answer);
    ensure(number == expected, || {
        format!("{call:?} gave {number}, the table says {expected}")
    })?;
    match answer {
        Err(refusal) => {
            changed_nothing(refusal, &before, post, &lent)?;
            Ok(Outcome {
                number,
                granted: false,
                frame: None,
                settled: settled.to_vec(),
            })
        }
        Ok(done) => {
            clock_rises(&before, post, call)?;
            let frame = written(post, call, done, &lent)?;
            let after = settles(post, settled)?;
            granted(&before, settled, post, &after, done)?;
            Ok(Outcome {
                number,
                granted: done.granted,
                frame,
                settled: after,
            })
        }
    }
}

fn changed_nothing(refusal: Refusal, before: &Queue, post: &Queue, lent: &[u8]) -> Check {
    ensure(before == post, || {
        format!("{refusal:?}, and yet the post changed")
    })?;
    ensure(lent.iter().all(|&byte| byte == UNTOUCHED), || {
        format!("{refusal:?}, and yet something was written")
    })
}

/// A take or return sent raises the clock by 1; a message received lifts it to its own counter at
/// least, and by 1 more if it is acknowledged.
fn clock_rises(before: &Queue, after: &Queue, call: &Call) -> Check {
    let greatest = |post: &Queue| post.messages().iter().map(|m| m.counter).max().unwrap_or(0);
    let expected = match call {
        Call::Take | Call::Return => greatest(before) + 1,
        Call::Receive(frame) => match frame::read(frame) {
            Ok((_, message)) if message.is_counted() => greatest(before).max(message.counter) + 1,
            Ok((_, message)) => greatest(before).max(message.counter),
            Err(refusal) => return Err(format!("accepted a frame that reads {refusal:?}")),
        },
    };
    let clock = greatest(after);
    ensure(clock == expected, || {
        format!("clock {clock}, reckoned {expected}")
    })
}

/// Takes, returns and answers to them stand in the first 12 bytes; nothing else is written. The
/// message is the newest of all in the list.
fn written(
    post: &Queue,
    call: &Call,
    done: Done,
    lent: &[u8],
) -> Result<Option<[u8; frame::LENGTH]>, String> {
    let kind = match call {
        Call::Take => Some(Kind::Take),
        Call::Return => Some(Kind::Return),
        Call::Receive(frame) if frame[6] != Kind::Acknowledgment.number() => {
            Some(Kind::Acknowledgment)
        }
        Call::Receive(_) => None,
    };
    ensure(done.written == kind.is_some(), || {
        "wrong mark for a written frame".to_string()
    })?;
    let length = if done.written { frame::LENGTH } else { 0 };
    let (frame, rest) = lent.split_at(length);
    ensure(rest.iter().all(|&byte| byte == UNTOUCHED), || {
        "bytes after the frame were written".to_string()
    })?;
    let Some(kind) = kind else {
        return Ok(None);
    };
    let newest = post.messages().last().copied();
    let said = Message {
        kind,
        sender: post.own(),
        counter: newest.map_or(0, |m| m.counter),
    };
    let read = frame::read(frame);
    ensure(
        read == Ok((post.feeder(), said)) && newest == Some(said),
        || format!("wrote {read:?}, newest is {newest:?}"),
    )?;
    Ok(<[u8; frame::LENGTH]>::try_from(frame).ok())
}

/// The settled list after a call: what was settled stays, and floor, value and missing set agree
/// with what was heard.
fn settles(post: &Queue, before: &[Message]) -> Result<Vec<Message>, String> {
    let rising = post
        .messages()
        .windows(2)
        .all(|pair| pair[0].stamp() < pair[1].stamp());
    ensure(rising, || "the list does not rise".to_string())?;
    let settled = hearing::settled(post);
    ensure(post.settled().eq(&settled), || {
        "settled by the floor is not settled by hearing".to_string()
    })?;
    ensure(settled.starts_with(before), || {
        "what was settled did not stay".to_string()
    })?;
    let value = settled
        .iter()
        .fold(i64::from(post.places()), |value, m| match m.kind {
            Kind::Return => value + 1,
            _ => value - 1,
        });
    ensure(post.value() == Ok(value), || {
        format!("value {:?}, reckoned {value}", post.value())
    })?;
    let missing = hearing::missing(post, &settled);
    ensure(
        post.missing() == Ok((missing, missing.count_ones())),
        || format!("missing {:?}, reckoned {missing}", post.missing()),
    )?;
    Ok(settled)
}

/// The mark comes in exactly the call that brings phase 3.
fn granted(
    before: &Queue,
    settled_before: &[Message],
    after: &Queue,
    settled_after: &[Message],
    done: Done,
) -> Check {
    let old = hearing::phase(before, settled_before);
    let new = hearing::phase(after, settled_after);
    ensure(after.phase() as u8 == new, || {
        format!("phase {:?}, reckoned {new}", after.phase())
    })?;
    ensure(done.granted == (old != 3 && new == 3), || {
        format!("phase {old} to {new}, grant mark {}", done.granted)
    })
}

#[cfg(test)]
mod tests {
    use super::*;

    const DONE: Done = Done {
        written: true,
        granted: false,
    };

    /// Post 0 of two, idle.
    fn idle() -> Queue {
        Queue::start(2, 0, 7, 1).0
    }

    /// Post 0 of two with its take (1,0) sent, and the bytes it wrote.
    fn taken() -> (Queue, [u8; 14]) {
        let mut post = idle();
        let mut lent = [UNTOUCHED; 14];
        post.take(&mut lent).unwrap();
        (post, lent)
    }

    fn acknowledgment(counter: u32) -> Call {
        let message = Message {
            kind: Kind::Acknowledgment,
            sender: 1,
            counter,
        };
        Call::Receive(frame::bytes(7, &message).to_vec())
    }

    #[test]
    fn good_calls_pass() {
        let mut post = idle();
        let took = make(&mut post, &[], &Call::Take, 12).unwrap();
        assert_eq!((took.number, took.granted), (0, false));
        assert!(took.frame.is_some());
        let heard = make(&mut post, &took.settled, &acknowledgment(1), 12).unwrap();
        assert_eq!((heard.number, heard.granted), (0, true));
        assert_eq!((heard.frame, heard.settled.len()), (None, 1));
        let refused = make(&mut post, &heard.settled, &Call::Take, 12).unwrap();
        assert_eq!((refused.number, refused.settled), (13, heard.settled));
    }

    #[test]
    fn a_number_other_than_the_tables_is_found() {
        // With a wrong settled list the table expects phase 3, so the post's 14 is not its number.
        let (mut post, _) = taken();
        let take = post.messages().to_vec();
        assert_eq!(expected(&post, &take, &Call::Return, 12), 0);
        assert!(make(&mut post, &take, &Call::Return, 12).is_err());
    }

    #[test]
    fn a_refusal_that_changes_or_writes_is_found() {
        let (post, lent) = taken();
        let untouched = [UNTOUCHED; 14];
        let refused = Refusal::TakeOutOfPhase;
        assert!(changed_nothing(refused, &post, &post, &untouched).is_ok());
        assert!(changed_nothing(refused, &idle(), &post, &untouched).is_err());
        assert!(changed_nothing(refused, &post, &post, &lent).is_err());
    }

    #[test]
    fn wrong_bytes_are_found() {
        let (post, lent) = taken();
        assert!(written(&post, &Call::Take, DONE, &lent).is_ok());
        for place in 0..14 {
            let mut wrong = lent;
            wrong[place] ^= 1;
            assert!(written(&post, &Call::Take, DONE, &wrong).is_err());
        }
        assert!(written(&post, &Call::Return, DONE, &lent).is_err());
        let silent = Done {
            written: false,
            granted: false,
        };
        assert!(written(&post, &Call::Take, silent, &lent).is_err());
        let untouched = [UNTOUCHED; 14];
        assert!(written(&post, &acknowledgment(1), silent, &untouched).is_ok());
        assert!(written(&post, &acknowledgment(1), silent, &lent).is_err());
        assert!(written(&post, &acknowledgment(1), DONE, &lent).is_err());
    }

    #[test]
    fn a_clock_left_alone_is_found() {
        let (post, _) = taken();
        assert!(clock_rises(&idle(), &post, &Call::Take).is_ok());
        assert!(clock_rises(&post, &post, &Call::Take).is_err());
        assert!(clock_rises(&post, &post, &acknowledgment(1)).is_ok());
        assert!(clock_rises(&post, &post, &acknowledgment(2)).is_err());
    }

    #[test]
    fn a_settled_list_that_shrinks_is_found() {
        let (post, _) = taken();
        assert!(settles(&post, &[]).is_ok());
        assert!(settles(&post, post.messages()).is_err());
    }

    #[test]
    fn a_wrong_grant_mark_is_found() {
        let (before, _) = taken();
        let mut after = before.clone();
        let Call::Receive(frame) = acknowledgment(1) else {
            unreachable!()
        };
        let done = after.receive(&frame, &mut [0; 12]).unwrap();
        let settled = hearing::settled(&after);
        assert!(granted(&before, &[], &after, &settled, done).is_ok());
        let unmarked = Done {
            written: false,
            granted: false,
        };
        assert!(granted(&before, &[], &after, &settled, unmarked).is_err());
        // The same mark once more, though phase 3 is not new.
        assert!(granted(&after, &settled, &after, &settled, done).is_err());
    }
}
