//! Demand 3 as tests on what the posts of one feeder show, each saying what it found wrong.

use super::{ensure, Check};
use crate::message::{Kind, Message};

/// What one post shows after a call.
#[derive(Clone, Debug, Default)]
pub struct Seen {
    pub settled: Vec<Message>,
    /// Its own takes that its settled list grants, those given back since included.
    pub granted: Vec<Message>,
    /// Its own takes whose call gave the grant mark, in the order of the marks.
    pub marked: Vec<Message>,
    pub is_holding: bool,
}

/// Part 1: of any two posts' settled lists one begins the other. Only the post called last can
/// have changed, so it is held against each other one.
pub fn lists_agree(seen: &[Seen], called: usize) -> Check {
    for (post, other) in seen.iter().enumerate() {
        ensure(
            one_begins_the_other(&seen[called].settled, &other.settled),
            || format!("the settled lists of posts {called} and {post} differ"),
        )?;
    }
    Ok(())
}

pub fn one_begins_the_other(one: &[Message], other: &[Message]) -> bool {
    let shorter = one.len().min(other.len());
    one[..shorter] == other[..shorter]
}

/// Part 2: takes granted anywhere less returns sent never exceed the places, nor do the posts in
/// phase 3.
pub fn places_suffice(places: u8, seen: &[Seen], returns_sent: usize) -> Check {
    let places = usize::from(places);
    let granted: usize = seen.iter().map(|post| post.marked.len()).sum();
    ensure(granted <= places + returns_sent, || {
        format!("{granted} takes granted, {returns_sent} returns sent, {places} places")
    })?;
    let holding = seen.iter().filter(|post| post.is_holding).count();
    ensure(holding <= places, || {
        format!("{holding} posts hold, {places} places")
    })
}

/// Part 2, of one post: the takes granted are those whose call gave the mark, each once.
pub fn marks_are_grants(post: &Seen) -> Check {
    ensure(post.marked == post.granted, || {
        format!("marks for {:?}, granted {:?}", post.marked, post.granted)
    })
}

/// Part 3, where every message sent has been accepted by all others: all takes and returns sent
/// are settled everywhere, in one list by stamp.
pub fn all_is_settled(seen: &[Seen], sent: &[Message]) -> Check {
    let list = by_stamp(sent.iter().filter(|m| m.is_counted()));
    for (post, shown) in seen.iter().enumerate() {
        ensure(shown.settled == list, || {
            format!("all is accepted, but not all is settled at post {post}")
        })?;
    }
    Ok(())
}

/// Part 3, at the same moment: the takes granted are exactly those whose number among the takes is
/// at most places + returns sent.
pub fn grants_are_due(places: u8, seen: &[Seen], sent: &[Message]) -> Check {
    let returns_sent = sent.iter().filter(|m| m.kind == Kind::Return).count();
    let mut due = by_stamp(sent.iter().filter(|m| m.kind == Kind::Take));
    due.truncate(usize::from(places) + returns_sent);
    let granted = by_stamp(seen.iter().flat_map(|post| &post.marked));
    ensure(granted == due, || {
        format!("all is accepted, granted {granted:?}, due {due:?}")
    })
}

fn by_stamp<'a>(messages: impl Iterator<Item = &'a Message>) -> Vec<Message> {
    let mut list: Vec<Message> = messages.copied().collect();
    list.sort_by_key(Message::stamp);
    list
}

#[cfg(test)]
mod tests {
    use super::*;

    fn take(counter: u32, sender: u8) -> Message {
        message(Kind::Take, counter, sender)
    }

    fn give_back(counter: u32, sender: u8) -> Message {
        message(Kind::Return, counter, sender)
    }

    fn message(kind: Kind, counter: u32, sender: u8) -> Message {
        Message {
            kind,
            sender,
            counter,
        }
    }

    /// What is sent in a night of three posts and one place that has come to rest: post 0 has held
    /// and given back, post 1 holds, post 2 waits.
    fn sent() -> Vec<Message> {
        vec![
            give_back(4, 0),
            take(1, 2),
            take(1, 0),
            take(1, 1),
            message(Kind::Acknowledgment, 2, 2),
        ]
    }

    /// What its posts show.
    fn rest() -> Vec<Seen> {
        let settled = vec![take(1, 0), take(1, 1), take(1, 2), give_back(4, 0)];
        let post = |marked: Vec<Message>, is_holding| Seen {
            settled: settled.clone(),
            granted: marked.clone(),
            marked,
            is_holding,
        };
        vec![
            post(vec![take(1, 0)], false),
            post(vec![take(1, 1)], true),
            post(vec![], false),
        ]
    }

    fn all(seen: &[Seen]) -> [bool; 5] {
        [
            (0..seen.len()).all(|post| lists_agree(seen, post).is_ok()),
            places_suffice(1, seen, 1).is_ok(),
            seen.iter().all(|post| marks_are_grants(post).is_ok()),
            all_is_settled(seen, &sent()).is_ok(),
            grants_are_due(1, seen, &sent()).is_ok(),
        ]
    }

    #[test]
    fn a_good_night_passes() {
        assert_eq!(all(&rest()), [true; 5]);
    }

    #[test]
    fn a_shorter_list_agrees_but_is_not_all() {
        let mut seen = rest();
        seen[1].settled.pop();
        assert_eq!(all(&seen), [true, true, true, false, true]);
    }

    #[test]
    fn lists_of_another_order_are_found() {
        let mut seen = rest();
        seen[2].settled.swap(0, 1);
        assert_eq!(all(&seen), [false, true, true, false, true]);
        assert!(lists_agree(&seen, 2).is_err());
        assert!(lists_agree(&seen, 0).is_err());
    }

    #[test]
    fn lists_that_differ_in_the_kind_alone_are_found() {
        let mut seen = rest();
        seen[0].settled[3].kind = Kind::Take;
        assert_eq!(all(&seen), [false, true, true, false, true]);
    }

    #[test]
    fn a_list_with_a_gap_is_found() {
        let mut seen = rest();
        seen[1].settled.remove(1);
        assert_eq!(all(&seen), [false, true, true, false, true]);
    }

    #[test]
    fn one_grant_too_many_is_found() {
        let mut seen = rest();
        seen[2].marked.push(take(1, 2));
        seen[2].granted.push(take(1, 2));
        assert_eq!(all(&seen), [true, false, true, true, false]);
        // With another return sent it would not be one too many.
        assert!(places_suffice(1, &seen, 2).is_ok());
    }

    #[test]
    fn one_holder_too_many_is_found() {
        let mut seen = rest();
        seen[2].is_holding = true;
        assert_eq!(all(&seen), [true, false, true, true, true]);
        assert!(places_suffice(2, &seen, 1).is_ok());
    }

    #[test]
    fn a_missing_grant_is_found() {
        let mut seen = rest();
        seen[1].marked.clear();
        seen[1].granted.clear();
        seen[1].is_holding = false;
        assert_eq!(all(&seen), [true, true, true, true, false]);
    }

    #[test]
    fn a_missing_mark_is_found() {
        let mut seen = rest();
        seen[1].marked.clear();
        assert_eq!(all(&seen), [true, true, false, true, false]);
    }

    #[test]
    fn a_mark_given_twice_is_found() {
        let mut seen = rest();
        seen[0].marked.push(take(1, 0));
        assert_eq!(all(&seen), [true, false, false, true, false]);
    }

    #[test]
    fn a_grant_out_of_turn_is_found() {
        let mut seen = rest();
        seen[1].marked.clear();
        seen[1].granted.clear();
        seen[2].marked.push(take(1, 2));
        seen[2].granted.push(take(1, 2));
        assert_eq!(all(&seen), [true, true, true, true, false]);
    }

    #[test]
    fn a_return_not_counted_is_found() {
        let mut unreturned = sent();
        unreturned.remove(0);
        assert!(grants_are_due(1, &rest(), &unreturned).is_err());
        assert!(places_suffice(1, &rest(), 0).is_err());
    }
}
