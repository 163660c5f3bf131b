//! The table of refusals, each number at its edge and in its order.

mod common;

use common::*;
use second::queue::Queue;
use second::refusal::number;

const LAST: u32 = 4_294_967_295;

fn starting(posts: u8, own: u8, feeder: u8, places: u8) -> u8 {
    number(&Queue::start(posts, own, feeder, places).1)
}

/// The number for bytes offered with a buffer of so many bytes. A refusal has to leave the post
/// and the buffer as they were.
fn offered(post: &Queue, frame: &[u8], buffer: usize) -> u8 {
    let mut called = post.clone();
    let mut lent = vec![0xEE; buffer];
    let number = number(&called.receive(frame, &mut lent));
    if number != 0 {
        assert_eq!(&called, post);
        assert_eq!(lent, vec![0xEE; buffer]);
    }
    number
}

fn frame_with(post: &Queue, changes: &[(usize, u8)]) -> Vec<u8> {
    let mut bytes = frame(post.feeder(), TAKE, 1, 1).to_vec();
    for &(place, byte) in changes {
        bytes[place] = byte;
    }
    bytes
}

/// The number for a good take (1,1) with some bytes changed.
fn changed(post: &Queue, changes: &[(usize, u8)]) -> u8 {
    offered(post, &frame_with(post, changes), 12)
}

/// A post of three in which four messages of post 1 wait.
fn with_four_waiting() -> Queue {
    let mut post = start(3, 0, 9, 1);
    for counter in 1..=4 {
        assert_eq!(receive(&mut post, TAKE, 1, counter).0, 0);
    }
    post
}

#[test]
fn start_is_refused_out_of_range() {
    assert_eq!(starting(0, 0, 0, 1), 1);
    assert_eq!(starting(1, 0, 0, 1), 0);
    assert_eq!(starting(16, 15, 255, 16), 0);
    assert_eq!(starting(17, 0, 0, 1), 1);
    assert_eq!(starting(255, 254, 0, 1), 1);
    assert_eq!(starting(3, 2, 0, 1), 0);
    assert_eq!(starting(3, 3, 0, 1), 1);
    assert_eq!(starting(3, 255, 0, 1), 1);
    assert_eq!(starting(3, 0, 0, 0), 1);
    assert_eq!(starting(3, 0, 0, 17), 1);
}

#[test]
fn after_a_refused_start_all_is_refused() {
    let (mut post, answer) = Queue::start(3, 3, 7, 2);
    assert_eq!(number(&answer), 1);
    let numbers = (post.posts(), post.own(), post.feeder(), post.places());
    assert_eq!(numbers, (0, 0, 0, 0));
    let mut short = [0xEE; 11];
    assert_eq!(number(&post.take(&mut short)), 1);
    assert_eq!(number(&post.give_back(&mut short)), 1);
    assert_eq!(number(&post.receive(&[], &mut short)), 1);
    assert_eq!(number(&post.value()), 1);
    assert_eq!(number(&post.missing()), 1);
    assert_eq!(short, [0xEE; 11]);
    assert!(post.messages().is_empty());
}

#[test]
fn a_short_buffer_is_2_in_every_call() {
    let mut post = start(1, 0, 0, 1);
    let idle = post.clone();
    assert_eq!(number(&post.take(&mut [0; 11])), 2);
    assert_eq!(number(&post.give_back(&mut [0; 11])), 2);
    assert_eq!(post, idle);
    take(&mut post);
    assert_eq!(number(&post.take(&mut [])), 2);
    assert_eq!(number(&post.give_back(&mut [0; 11])), 2);
    assert_eq!(give_back(&mut post).0, 0);

    let two = start(2, 0, 0, 1);
    let acknowledgment = frame(0, ACK, 1, 1);
    assert_eq!(offered(&two, &acknowledgment, 11), 2);
    assert_eq!(offered(&two, &acknowledgment, 12), 0);
    assert_eq!(offered(&two, &[], 0), 2);
}

#[test]
fn a_longer_buffer_keeps_its_later_bytes() {
    let mut post = start(2, 0, 0, 1);
    let mut lent = [0xEE; 15];
    assert_eq!(number(&post.take(&mut lent)), 0);
    assert_eq!(lent[..12], frame(0, TAKE, 0, 1));
    assert_eq!(lent[12..], [0xEE; 3]);
    let mut lent = [0xEE; 15];
    assert_eq!(number(&post.receive(&frame(0, ACK, 1, 1), &mut lent)), 0);
    assert_eq!(lent, [0xEE; 15]);
}

#[test]
fn take_is_13_in_every_phase_but_0() {
    let mut post = start(2, 0, 0, 1);
    take(&mut post);
    assert_eq!((phase(&post), take(&mut post)), (1, refused(13)));
    receive(&mut post, ACK, 1, 1);
    assert_eq!((phase(&post), take(&mut post)), (3, refused(13)));

    let mut late = start(2, 1, 0, 1);
    receive(&mut late, TAKE, 0, 1);
    take(&mut late);
    receive(&mut late, ACK, 0, 9);
    assert_eq!((phase(&late), take(&mut late)), (2, refused(13)));
    assert_eq!(give_back(&mut late), refused(14));
}

#[test]
fn return_is_14_in_every_phase_but_3() {
    let mut post = start(2, 0, 0, 1);
    assert_eq!((phase(&post), give_back(&mut post)), (0, refused(14)));
    take(&mut post);
    assert_eq!((phase(&post), give_back(&mut post)), (1, refused(14)));
    receive(&mut post, ACK, 1, 1);
    assert_eq!(give_back(&mut post), wrote(RETURN, 0, 2));
    assert_eq!((phase(&post), give_back(&mut post)), (0, refused(14)));
}

#[test]
fn at_the_last_counter_take_and_return_are_11_after_13_and_14() {
    let mut post = start(2, 0, 0, 1);
    receive(&mut post, ACK, 1, LAST);
    assert_eq!(give_back(&mut post), refused(14));
    assert_eq!(take(&mut post), refused(11));

    let mut holder = start(2, 0, 0, 1);
    take(&mut holder);
    assert_eq!(receive(&mut holder, ACK, 1, LAST), (0, None, true));
    assert_eq!(take(&mut holder), refused(13));
    assert_eq!(give_back(&mut holder), refused(11));
}

#[test]
fn one_counter_below_the_last_is_enough() {
    let mut post = start(2, 0, 0, 1);
    receive(&mut post, ACK, 1, LAST - 1);
    assert_eq!(take(&mut post), wrote(TAKE, 0, LAST));
}

#[test]
fn receive_refuses_a_wrong_length_with_3() {
    let post = start(3, 0, 9, 1);
    let mut bytes = frame_with(&post, &[]);
    assert_eq!(offered(&post, &bytes, 12), 0);
    assert_eq!(offered(&post, &bytes[..11], 12), 3);
    assert_eq!(offered(&post, &[], 12), 3);
    bytes.push(0);
    assert_eq!(offered(&post, &bytes, 12), 3);
}

#[test]
fn receive_refuses_each_field_at_its_edge() {
    let post = start(3, 0, 9, 1);
    assert_eq!(changed(&post, &[(0, 0x47)]), 4);
    assert_eq!(changed(&post, &[(1, 0x51)]), 4);
    assert_eq!(changed(&post, &[(2, 0x6D)]), 4);
    assert_eq!(changed(&post, &[(3, 1)]), 5);
    assert_eq!(changed(&post, &[(4, 0)]), 5);
    assert_eq!(changed(&post, &[(4, 2)]), 5);
    assert_eq!(changed(&post, &[(5, 8)]), 6);
    assert_eq!(changed(&post, &[(5, 10)]), 6);
    assert_eq!(changed(&post, &[(6, 0)]), 7);
    assert_eq!(changed(&post, &[(6, 3)]), 0);
    assert_eq!(changed(&post, &[(6, 4)]), 7);
    assert_eq!(changed(&post, &[(6, 255)]), 7);
    assert_eq!(changed(&post, &[(7, 0)]), 8);
    assert_eq!(changed(&post, &[(7, 2)]), 0);
    assert_eq!(changed(&post, &[(7, 3)]), 8);
    assert_eq!(changed(&post, &[(7, 255)]), 8);
    assert_eq!(changed(&post, &[(11, 0)]), 9);
}

#[test]
fn the_highest_post_of_sixteen_is_a_sender() {
    let post = start(16, 0, 9, 1);
    assert_eq!(changed(&post, &[(7, 15)]), 0);
    assert_eq!(changed(&post, &[(7, 16)]), 8);
    let highest = start(16, 15, 9, 1);
    assert_eq!(changed(&highest, &[(7, 15)]), 8);
    assert_eq!(changed(&highest, &[(7, 14)]), 0);
}

#[test]
fn a_post_alone_has_no_senders() {
    let post = start(1, 0, 9, 1);
    for sender in 0..=255 {
        assert_eq!(changed(&post, &[(7, sender)]), 8);
    }
}

#[test]
fn receive_tests_in_table_order() {
    let post = start(3, 0, 9, 1);
    let mut changes = vec![(11, 0)];
    for (change, refusal) in [
        ((7, 3), 8),
        ((6, 0), 7),
        ((5, 1), 6),
        ((4, 2), 5),
        ((0, 0), 4),
    ] {
        changes.push(change);
        assert_eq!(changed(&post, &changes), refusal);
    }
    let bytes = frame_with(&post, &changes);
    assert_eq!(offered(&post, &bytes[..11], 12), 3);
    assert_eq!(offered(&post, &bytes[..11], 11), 2);
}

#[test]
fn counter_0_is_9_and_never_10() {
    let mut post = start(3, 0, 9, 1);
    assert_eq!(changed(&post, &[(11, 0)]), 9);
    receive(&mut post, ACK, 1, 7);
    assert_eq!(changed(&post, &[(11, 0)]), 9);
}

#[test]
fn a_counter_not_above_the_last_is_10() {
    let mut post = start(3, 0, 9, 1);
    receive(&mut post, ACK, 1, 7);
    for kind in [TAKE, RETURN, ACK] {
        assert_eq!(changed(&post, &[(6, kind), (11, 1)]), 10);
        assert_eq!(changed(&post, &[(6, kind), (11, 6)]), 10);
        assert_eq!(changed(&post, &[(6, kind), (11, 7)]), 10);
        assert_eq!(changed(&post, &[(6, kind), (11, 8)]), 0);
        // Another sender's counters are its own.
        assert_eq!(changed(&post, &[(6, kind), (7, 2), (11, 1)]), 0);
    }
}

#[test]
fn no_next_counter_is_11_but_not_for_acknowledgments() {
    let mut post = start(3, 0, 9, 1);
    let before = post.clone();
    assert_eq!(receive(&mut post, TAKE, 1, LAST), refused(11));
    assert_eq!(receive(&mut post, RETURN, 1, LAST), refused(11));
    assert_eq!(post, before);
    assert_eq!(receive(&mut post, TAKE, 1, LAST - 1), wrote(ACK, 0, LAST));
    // The clock is at its end now.
    assert_eq!(receive(&mut post, TAKE, 2, 1), refused(11));
    assert_eq!(receive(&mut post, ACK, 2, 1), QUIET);
    assert_eq!(receive(&mut post, ACK, 2, 1), refused(10));
    assert_eq!(receive(&mut post, ACK, 2, LAST), QUIET);
    assert_eq!(receive(&mut post, TAKE, 2, LAST), refused(10));
}

#[test]
fn eleven_comes_before_12() {
    let mut post = with_four_waiting();
    assert_eq!(receive(&mut post, TAKE, 1, LAST), refused(11));
    assert_eq!(receive(&mut post, TAKE, 1, LAST - 1), refused(12));
}

#[test]
fn twelve_counts_one_sender_only() {
    let mut post = start(4, 0, 9, 1);
    for counter in 1..=4 {
        assert_eq!(receive(&mut post, TAKE, 1, counter).0, 0);
        assert_eq!(receive(&mut post, TAKE, 2, counter).0, 0);
    }
    assert_eq!((post.waiting_of(1), post.waiting_of(2)), (4, 4));
    assert_eq!(receive(&mut post, TAKE, 1, 5), refused(12));
    assert_eq!(receive(&mut post, RETURN, 2, 5), refused(12));
    assert_eq!(receive(&mut post, TAKE, 1, 4), refused(10));
    // Post 3 stands lowest and settles what it brings.
    assert_eq!(receive(&mut post, TAKE, 3, 2).0, 0);
    // Takes 1 and 2 of both are settled now, so both have room.
    assert_eq!((post.waiting_of(1), post.waiting_of(2)), (2, 2));
    assert_eq!(receive(&mut post, TAKE, 1, 5).0, 0);
}

#[test]
fn twelve_looks_at_what_waits_before_the_call() {
    // Post 1's own fifth message would not raise the floor, which post 2 holds down; a message of
    // post 2 above it does, and only then the fifth is accepted.
    let mut post = with_four_waiting();
    assert_eq!(receive(&mut post, RETURN, 1, 5), refused(12));
    assert_eq!(receive(&mut post, ACK, 2, 1), QUIET);
    // Stamp (1,1) is below (1,2).
    assert_eq!(post.waiting_of(1), 3);
    assert_eq!(receive(&mut post, RETURN, 1, 5).0, 0);
    assert_eq!(receive(&mut post, TAKE, 1, 6), refused(12));
}

#[test]
fn with_two_posts_the_sender_stands_lowest_and_never_meets_12() {
    let mut post = start(2, 0, 9, 1);
    for counter in 1..=20 {
        assert_eq!(receive(&mut post, TAKE, 1, counter).0, 0);
        assert_eq!(post.waiting_of(1), 0);
    }
}
