//! A feeder whose every call is held against 01, with demand 3 tested after each.

use super::demand::{self, Seen};
use super::one_call::{self, Call};
use super::summary::Summary;
use super::{ensure, hearing, Check};
use crate::frame;
use crate::message::Message;
use crate::queue::{Phase, Queue};

/// The length of a lent buffer; the two bytes after the frame have to stay.
const BUFFER: usize = frame::LENGTH + 2;

pub struct Watched<'a> {
    summary: &'a mut Summary,
    places: u8,
    posts: Vec<Queue>,
    seen: Vec<Seen>,
    /// The frames each post wrote, in the order sent.
    sent: Vec<Vec<[u8; frame::LENGTH]>>,
    /// accepted[p][q]: how many of p's frames post q has accepted.
    accepted: Vec<Vec<usize>>,
    returns_sent: usize,
}

impl<'a> Watched<'a> {
    pub fn start(
        summary: &'a mut Summary,
        posts: usize,
        feeder: u8,
        places: u8,
    ) -> Result<Watched<'a>, String> {
        let mut queues = Vec::new();
        for own in 0..posts {
            let (queue, answer) = Queue::start(posts as u8, own as u8, feeder, places);
            ensure(answer.is_ok(), || {
                format!("start {posts} {own} {places} was refused")
            })?;
            summary.count(0);
            queues.push(queue);
        }
        Ok(Watched {
            summary,
            places,
            posts: queues,
            seen: vec![Seen::default(); posts],
            sent: vec![Vec::new(); posts],
            accepted: vec![vec![0; posts]; posts],
            returns_sent: 0,
        })
    }

    pub fn post(&self, post: usize) -> &Queue {
        &self.posts[post]
    }

    /// The frames each post wrote, in the order sent.
    pub fn sent(&self) -> &[Vec<[u8; frame::LENGTH]>] {
        &self.sent
    }

    /// The posts that are in one of these phases.
    pub fn in_phase(&self, phases: &[Phase]) -> Vec<usize> {
        let mut posts: Vec<usize> = (0..self.posts.len()).collect();
        posts.retain(|&post| phases.contains(&self.posts[post].phase()));
        posts
    }

    /// The pairs (p, q) with a message of p that q has not accepted.
    pub fn pending(&self) -> Vec<(usize, usize)> {
        let mut pairs = Vec::new();
        for (p, row) in self.accepted.iter().enumerate() {
            for (q, &accepted) in row.iter().enumerate() {
                if p != q && accepted < self.sent[p].len() {
                    pairs.push((p, q));
                }
            }
        }
        pairs
    }
}

/// The calls. Each gives the number that the post gave.
impl Watched<'_> {
    pub fn take(&mut self, post: usize) -> Result<u8, String> {
        let number = self.call(post, &Call::Take)?;
        ensure(number == 0 || number == 13, || {
            format!("a take of post {post} gave {number}")
        })?;
        if number == 0 {
            self.demand3(post)?;
        }
        Ok(number)
    }

    pub fn give_back(&mut self, post: usize) -> Result<u8, String> {
        let number = self.call(post, &Call::Return)?;
        ensure(number == 0 || number == 14, || {
            format!("a return of post {post} gave {number}")
        })?;
        if number == 0 {
            self.returns_sent += 1;
            self.demand3(post)?;
        }
        Ok(number)
    }

    /// Offers q the next message of p that q has not accepted.
    pub fn deliver(&mut self, p: usize, q: usize) -> Result<u8, String> {
        let next = self.sent[p][self.accepted[p][q]];
        let lowest = self.posts[q].floor().map(|floor| usize::from(floor.post));
        let number = self.call(q, &Call::Receive(next.to_vec()))?;
        ensure(number == 0 || number == 12, || {
            format!("in order from {p} to {q}, and yet {number}")
        })?;
        ensure(number == 0 || lowest != Some(p), || {
            format!("post {p} stands lowest at {q}, and yet met 12")
        })?;
        if number == 0 {
            self.accepted[p][q] += 1;
            self.demand3(q)?;
        }
        Ok(number)
    }

    /// One call, and what the post shows after it.
    fn call(&mut self, post: usize, call: &Call) -> Result<u8, String> {
        let queue = &mut self.posts[post];
        let seen = &mut self.seen[post];
        let outcome = one_call::make(queue, &seen.settled, call, BUFFER)?;
        self.summary.count(outcome.number);
        self.sent[post].extend(outcome.frame);
        seen.is_holding = queue.phase() == Phase::Holding;
        seen.granted = hearing::granted(queue.own(), self.places, &outcome.settled);
        seen.settled = outcome.settled;
        if outcome.granted {
            self.summary.grants += 1;
            seen.marked.extend(hearing::said(queue).last());
        }
        Ok(outcome.number)
    }

    /// Calls that are no part of the run, each with the length of its buffer. What the table
    /// refuses is offered to the post itself and has to leave it as it was. Once it accepts one,
    /// a copy of the post goes astray with that and the rest, and is thrown away.
    pub fn stray(&mut self, post: usize, calls: &[(Call, usize)]) -> Check {
        let mut settled = self.seen[post].settled.clone();
        let mut copy: Option<Queue> = None;
        for (call, buffer) in calls {
            let real = &mut self.posts[post];
            let queue = match &mut copy {
                Some(astray) => astray,
                None if one_call::expected(real, &settled, call, *buffer) == 0 => {
                    copy.insert(real.clone())
                }
                None => real,
            };
            let outcome = one_call::make(queue, &settled, call, *buffer)?;
            self.summary.count(outcome.number);
            settled = outcome.settled;
        }
        Ok(())
    }
}

/// What has to hold.
impl Watched<'_> {
    /// After a call of this post that was done. After one that was refused nothing is new.
    fn demand3(&mut self, post: usize) -> Check {
        let length = self.posts[post].messages().len();
        let accepted: usize = self.accepted.iter().map(|row| row[post]).sum();
        ensure(length == self.sent[post].len() + accepted, || {
            format!("the list of post {post} is not what it sent and accepted")
        })?;
        self.summary.longest = self.summary.longest.max(length);
        demand::lists_agree(&self.seen, post)?;
        demand::marks_are_grants(&self.seen[post])?;
        demand::places_suffice(self.places, &self.seen, self.returns_sent)?;
        if self.pending().is_empty() {
            self.summary.rests += 1;
            let sent = self.all_sent()?;
            demand::all_is_settled(&self.seen, &sent)?;
            demand::grants_are_due(self.places, &self.seen, &sent)?;
        }
        Ok(())
    }

    fn all_sent(&self) -> Result<Vec<Message>, String> {
        let frames = self.sent.iter().flatten();
        let messages = frames.map(|frame| frame::read(frame).map(|(_, message)| message));
        let all: Result<Vec<Message>, _> = messages.collect();
        all.map_err(|refusal| format!("a sent frame reads {refusal:?}"))
    }

    /// If anything is on the way, something of it would be accepted now.
    pub fn some_delivery_is_accepted(&self) -> Check {
        let pending = self.pending();
        let would_be_accepted = |&(p, q): &(usize, usize)| {
            let next = self.sent[p][self.accepted[p][q]];
            let mut copy = self.posts[q].clone();
            copy.receive(&next, &mut [0; BUFFER]).is_ok()
        };
        ensure(
            pending.is_empty() || pending.iter().any(would_be_accepted),
            || "nothing on the way is accepted".to_string(),
        )
    }

    /// Where nobody holds and nothing is on the way, all are idle and all places are free.
    pub fn all_is_over(&self) -> Check {
        for (post, queue) in self.posts.iter().enumerate() {
            ensure(queue.phase() == Phase::Idle, || {
                format!("nobody holds, and yet post {post} waits")
            })?;
            ensure(queue.value() == Ok(i64::from(self.places)), || {
                format!("all is given back, and yet value {:?}", queue.value())
            })?;
        }
        Ok(())
    }
}

#[cfg(test)]
mod tests {
    use super::*;

    /// Steps on a feeder of two posts and one place in which post 0 has taken and nothing is
    /// delivered yet.
    fn with_a_take(steps: impl FnOnce(&mut Watched)) {
        let mut summary = Summary::default();
        let mut feeder = Watched::start(&mut summary, 2, 0, 1).unwrap();
        assert_eq!(feeder.take(0), Ok(0));
        steps(&mut feeder);
    }

    #[test]
    fn a_night_passes() {
        with_a_take(|feeder| {
            assert_eq!(feeder.pending(), [(0, 1)]);
            assert_eq!(feeder.deliver(0, 1), Ok(0));
            assert_eq!(feeder.pending(), [(1, 0)]);
            assert_eq!(feeder.deliver(1, 0), Ok(0));
            assert_eq!(feeder.pending(), []);
            assert_eq!(feeder.in_phase(&[Phase::Holding]), [0]);
            assert_eq!((feeder.summary.grants, feeder.summary.rests), (1, 1));
            assert_eq!(feeder.take(0), Ok(13));
            assert_eq!(feeder.give_back(1), Ok(14));
            assert_eq!(feeder.give_back(0), Ok(0));
            assert_eq!(feeder.deliver(0, 1), Ok(0));
            assert_eq!(feeder.deliver(1, 0), Ok(0));
            assert_eq!(feeder.all_is_over(), Ok(()));
            assert_eq!((feeder.summary.grants, feeder.summary.rests), (1, 2));
        });
    }

    #[test]
    fn a_message_lost_from_a_list_is_found() {
        with_a_take(|feeder| {
            assert_eq!(feeder.demand3(0), Ok(()));
            feeder.posts[0] = Queue::start(2, 0, 0, 1).0;
            assert!(feeder.demand3(0).is_err());
        });
    }

    #[test]
    fn a_refusal_in_order_is_found() {
        with_a_take(|feeder| {
            assert_eq!(feeder.deliver(0, 1), Ok(0));
            // Offered once more, as if it had not been accepted.
            feeder.accepted[0][1] = 0;
            assert!(feeder.deliver(0, 1).is_err());
        });
    }

    #[test]
    fn a_feeder_where_nothing_is_accepted_is_found() {
        with_a_take(|feeder| {
            assert_eq!(feeder.some_delivery_is_accepted(), Ok(()));
            // A frame that no post accepts.
            feeder.sent[0][0][0] = 0;
            assert!(feeder.some_delivery_is_accepted().is_err());
        });
    }

    #[test]
    fn a_grant_without_its_mark_is_found() {
        with_a_take(|feeder| {
            assert_eq!(feeder.deliver(0, 1), Ok(0));
            assert_eq!(feeder.deliver(1, 0), Ok(0));
            assert_eq!(feeder.demand3(0), Ok(()));
            feeder.seen[0].marked.clear();
            assert!(feeder.demand3(0).is_err());
        });
    }

    #[test]
    fn a_post_that_still_holds_or_waits_is_found() {
        with_a_take(|feeder| {
            assert!(feeder.all_is_over().is_err());
            assert_eq!(feeder.deliver(0, 1), Ok(0));
            assert_eq!(feeder.deliver(1, 0), Ok(0));
            assert!(feeder.all_is_over().is_err());
        });
    }

    #[test]
    fn stray_calls_leave_the_post_as_it_was() {
        with_a_take(|feeder| {
            let before = feeder.posts[1].clone();
            let good = feeder.sent[0][0].to_vec();
            let mut damaged = good.clone();
            damaged[0] = 0;
            let calls = [
                (Call::Receive(damaged), 12),
                (Call::Receive(good.clone()), 12),
                (Call::Receive(good), 12),
            ];
            assert_eq!(feeder.stray(1, &calls), Ok(()));
            assert_eq!(feeder.posts[1], before);
            // Refused, accepted by the copy, refused as a double by the copy.
            assert_eq!(feeder.summary.numbers[4], 1);
            assert_eq!(feeder.summary.numbers[10], 1);
        });
    }
}
