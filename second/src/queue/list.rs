//! What a post's list says, worked out anew each time it is asked.

use super::{Phase, Queue};
use crate::message::{Kind, Message, Stamp};

impl Queue {
    /// The greatest counter in the list: the own clock never stands above what it has sent or
    /// accepted, and never below.
    pub fn clock(&self) -> u32 {
        self.messages.last().map_or(0, |m| m.counter)
    }

    /// The greatest counter of one post in the list.
    pub fn last(&self, post: u8) -> u32 {
        let newest = self.messages.iter().rev().find(|m| m.sender == post);
        newest.map_or(0, |m| m.counter)
    }

    pub(super) fn last_stamp(&self, post: u8) -> Stamp {
        Stamp {
            counter: self.last(post),
            post,
        }
    }

    pub(super) fn others(&self) -> impl Iterator<Item = u8> + '_ {
        (0..self.posts).filter(|&r| r != self.own)
    }

    /// The least last stamp over the other posts; none if there are no others.
    pub fn floor(&self) -> Option<Stamp> {
        self.others().map(|r| self.last_stamp(r)).min()
    }

    /// Takes and returns at or below the floor, all of them if there are no others.
    pub fn settled(&self) -> impl Iterator<Item = &Message> {
        let floor = self.floor();
        self.counted().filter(move |m| is_at_or_below(m, floor))
    }

    /// Takes and returns above the floor.
    pub fn waiting(&self) -> impl Iterator<Item = &Message> {
        let floor = self.floor();
        self.counted().filter(move |m| !is_at_or_below(m, floor))
    }

    pub fn waiting_of(&self, sender: u8) -> usize {
        self.waiting().filter(|m| m.sender == sender).count()
    }

    fn counted(&self) -> impl Iterator<Item = &Message> {
        self.messages.iter().filter(|m| m.is_counted())
    }

    pub(super) fn settled_of(&self, kind: Kind) -> usize {
        self.settled().filter(|m| m.kind == kind).count()
    }

    /// The own take that no own return has followed.
    pub(super) fn open_take(&self) -> Option<&Message> {
        let own = |m: &&Message| m.sender == self.own && m.is_counted();
        let newest = self.messages.iter().rev().find(own);
        newest.filter(|m| m.kind == Kind::Take)
    }

    /// The settled takes up to and including the own open one; 0 if there is none or it is not
    /// settled.
    pub fn order(&self) -> usize {
        let Some(own) = self.open_take() else {
            return 0;
        };
        let is_settled = self.settled().any(|m| m == own);
        if !is_settled {
            return 0;
        }
        self.settled()
            .filter(|m| m.kind == Kind::Take && m.stamp() <= own.stamp())
            .count()
    }

    pub fn phase(&self) -> Phase {
        match (self.open_take(), self.order()) {
            (None, _) => Phase::Idle,
            (Some(_), 0) => Phase::Unsettled,
            (Some(_), order) if order <= self.room() => Phase::Holding,
            (Some(_), _) => Phase::Numbered,
        }
    }

    /// Order numbers up to this one hold a place or have held one.
    fn room(&self) -> usize {
        usize::from(self.places) + self.settled_of(Kind::Return)
    }
}

fn is_at_or_below(message: &Message, floor: Option<Stamp>) -> bool {
    floor.is_none_or(|floor| message.stamp() <= floor)
}
