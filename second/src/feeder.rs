//! The posts of one feeder, and what is on the way between them. What p has sent stands in p's
//! list and what q has accepted in q's, so nothing else has to be kept.

use crate::frame;
use crate::message::Message;
use crate::queue::{Done, Phase, Queue};
use crate::refusal::Refusal;

/// The bench's feeder number.
const FEEDER: u8 = 0;

pub struct Feeder {
    places: u8,
    posts: Vec<Queue>,
}

impl Feeder {
    pub fn start(posts: u8, places: u8) -> Result<Feeder, Refusal> {
        // Post 0 is started even if there are to be none, so that 0 posts are refused too.
        let mut queues = Vec::new();
        for own in 0..posts.max(1) {
            let (queue, answer) = Queue::start(posts, own, FEEDER, places);
            answer?;
            queues.push(queue);
        }
        Ok(Feeder {
            places,
            posts: queues,
        })
    }

    pub fn posts(&self) -> u8 {
        self.posts.len() as u8
    }

    pub fn places(&self) -> u8 {
        self.places
    }

    pub fn phase(&self, p: u8) -> Phase {
        self.post(p).phase()
    }

    pub fn in_phase(&self, phase: Phase) -> usize {
        self.posts.iter().filter(|q| q.phase() == phase).count()
    }

    /// The next message of p that q has not accepted.
    pub fn next(&self, p: u8, q: u8) -> Option<&Message> {
        let accepted = self.post(q).last(p);
        let mut sent = self.post(p).messages().iter().filter(|m| m.sender == p);
        sent.find(|m| m.counter > accepted)
    }

    pub fn take(&mut self, p: u8) -> Result<Done, Refusal> {
        self.posts[usize::from(p)].take(&mut [0; frame::LENGTH])
    }

    pub fn give_back(&mut self, p: u8) -> Result<Done, Refusal> {
        self.posts[usize::from(p)].give_back(&mut [0; frame::LENGTH])
    }

    pub fn deliver(&mut self, p: u8, q: u8) -> Result<Done, Refusal> {
        let next = self.next(p, q).ok_or(Refusal::NothingOnTheWay)?;
        let frame = frame::bytes(FEEDER, next);
        self.posts[usize::from(q)].receive(&frame, &mut [0; frame::LENGTH])
    }

    fn post(&self, p: u8) -> &Queue {
        &self.posts[usize::from(p)]
    }
}
