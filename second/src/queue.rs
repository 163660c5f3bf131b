//! A post by its full queue: the start numbers and every message it sent or accepted.

mod list;

use crate::frame;
use crate::message::{Kind, Message};
use crate::refusal::{refuse, Refusal};

pub const MOST_POSTS: u8 = 16;
pub const MOST_PLACES: u8 = 16;
/// A sender with this many waiting gets 12 for its next take or return.
pub const MOST_WAITING: usize = 4;

#[derive(Clone, Copy, Debug, PartialEq, Eq)]
pub enum Phase {
    Idle = 0,
    /// The own take is not yet settled.
    Unsettled = 1,
    /// The own take has its order number and waits for a place.
    Numbered = 2,
    Holding = 3,
}

/// What a call that was not refused tells.
#[derive(Clone, Copy, Debug, PartialEq, Eq)]
pub struct Done {
    /// A frame stands in the first 12 bytes of the lent buffer.
    pub written: bool,
    /// The grant came in this call.
    pub granted: bool,
}

#[derive(Clone, Debug, PartialEq, Eq)]
pub struct Queue {
    posts: u8,
    own: u8,
    feeder: u8,
    places: u8,
    /// Every message sent or accepted, sorted by stamp.
    messages: Vec<Message>,
}

/// What it keeps.
impl Queue {
    pub fn posts(&self) -> u8 {
        self.posts
    }

    pub fn own(&self) -> u8 {
        self.own
    }

    pub fn feeder(&self) -> u8 {
        self.feeder
    }

    pub fn places(&self) -> u8 {
        self.places
    }

    pub fn messages(&self) -> &[Message] {
        &self.messages
    }
}

/// The calls.
impl Queue {
    /// A refused start has number 1 and gives a queue of zeros, which every later call refuses
    /// with 1.
    pub fn start(posts: u8, own: u8, feeder: u8, places: u8) -> (Queue, Result<(), Refusal>) {
        let queue = Queue {
            posts,
            own,
            feeder,
            places,
            messages: Vec::new(),
        };
        match queue.sound() {
            Ok(()) => (queue, Ok(())),
            Err(refusal) => (Queue::zeros(), Err(refusal)),
        }
    }

    pub fn take(&mut self, buffer: &mut [u8]) -> Result<Done, Refusal> {
        self.sound()?;
        refuse(buffer.len() < frame::LENGTH, Refusal::ShortBuffer)?;
        refuse(self.phase() != Phase::Idle, Refusal::TakeOutOfPhase)?;
        refuse(self.clock() == u32::MAX, Refusal::NoNextCounter)?;
        self.say(Kind::Take, buffer);
        Ok(Done {
            written: true,
            granted: self.phase() == Phase::Holding,
        })
    }

    pub fn give_back(&mut self, buffer: &mut [u8]) -> Result<Done, Refusal> {
        self.sound()?;
        refuse(buffer.len() < frame::LENGTH, Refusal::ShortBuffer)?;
        refuse(self.phase() != Phase::Holding, Refusal::ReturnOutOfPhase)?;
        refuse(self.clock() == u32::MAX, Refusal::NoNextCounter)?;
        self.say(Kind::Return, buffer);
        Ok(Done {
            written: true,
            granted: false,
        })
    }

    pub fn receive(&mut self, frame: &[u8], buffer: &mut [u8]) -> Result<Done, Refusal> {
        let message = self.accepts(frame, buffer.len())?;
        let held = self.phase() == Phase::Holding;
        self.insert(message);
        // A take or return is acknowledged; an acknowledgment is not.
        if message.is_counted() {
            self.say(Kind::Acknowledgment, buffer);
        }
        Ok(Done {
            written: message.is_counted(),
            granted: !held && self.phase() == Phase::Holding,
        })
    }

    /// The rows 1 to 12 for a frame offered to this post.
    fn accepts(&self, frame: &[u8], buffer: usize) -> Result<Message, Refusal> {
        self.sound()?;
        refuse(buffer < frame::LENGTH, Refusal::ShortBuffer)?;
        let fields = frame::split(frame)?;
        refuse(fields.mark != frame::MARK, Refusal::Mark)?;
        refuse(fields.version != frame::VERSION, Refusal::Version)?;
        refuse(fields.feeder != self.feeder, Refusal::OtherFeeder)?;
        let kind = Kind::from_number(fields.kind).ok_or(Refusal::Kind)?;
        let is_other = fields.sender != self.own && fields.sender < self.posts;
        refuse(!is_other, Refusal::Sender)?;
        refuse(fields.counter == 0, Refusal::CounterZero)?;
        let message = Message {
            kind,
            sender: fields.sender,
            counter: fields.counter,
        };
        let is_above = message.counter > self.last(message.sender);
        refuse(!is_above, Refusal::CounterNotAbove)?;
        if message.is_counted() {
            let is_last_counter = self.clock() == u32::MAX || message.counter == u32::MAX;
            refuse(is_last_counter, Refusal::NoNextCounter)?;
            let is_full = self.waiting_of(message.sender) >= MOST_WAITING;
            refuse(is_full, Refusal::FourWaiting)?;
        }
        Ok(message)
    }

    /// Sends an own message with the next counter. The clock is below its end and the buffer long
    /// enough: the caller has tested both.
    fn say(&mut self, kind: Kind, buffer: &mut [u8]) {
        let message = Message {
            kind,
            sender: self.own,
            counter: self.clock() + 1,
        };
        self.insert(message);
        buffer[..frame::LENGTH].copy_from_slice(&frame::bytes(self.feeder, &message));
    }

    fn insert(&mut self, message: Message) {
        let place = self
            .messages
            .partition_point(|m| m.stamp() < message.stamp());
        self.messages.insert(place, message);
    }

    fn zeros() -> Queue {
        Queue {
            posts: 0,
            own: 0,
            feeder: 0,
            places: 0,
            messages: Vec::new(),
        }
    }

    fn sound(&self) -> Result<(), Refusal> {
        let in_range = (1..=MOST_POSTS).contains(&self.posts)
            && self.own < self.posts
            && (1..=MOST_PLACES).contains(&self.places);
        refuse(!in_range, Refusal::NotSound)
    }
}

/// The two inquiries.
impl Queue {
    /// Places + settled returns - settled takes.
    pub fn value(&self) -> Result<i64, Refusal> {
        self.sound()?;
        let returns = self.settled_of(Kind::Return) as i64;
        let takes = self.settled_of(Kind::Take) as i64;
        Ok(i64::from(self.places) + returns - takes)
    }

    /// The set of other posts whose last stamp is below the own unsettled take, bit r for post r,
    /// and how many they are.
    pub fn missing(&self) -> Result<(u16, u32), Refusal> {
        self.sound()?;
        let (mut set, mut count) = (0, 0);
        if let (Phase::Unsettled, Some(take)) = (self.phase(), self.open_take()) {
            for r in self.others() {
                if self.last_stamp(r) < take.stamp() {
                    set |= 1 << r;
                    count += 1;
                }
            }
        }
        Ok((set, count))
    }
}
