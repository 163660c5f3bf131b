//! The nights P1 to P10 of 01, as reckoned there, and two more on missing posts.

mod common;

use common::*;
use second::queue::Queue;

#[test]
fn p1_a_frame_byte_for_byte() {
    let bytes = [
        0x46, 0x50, 0x4D, 0x00, 0x01, 0x07, 0x01, 0x00, 0x00, 0x00, 0x00, 0x01,
    ];
    let mut post = start(2, 0, 7, 1);
    let mut buffer = [0; 12];
    assert!(post.take(&mut buffer).unwrap().written);
    assert_eq!(buffer, bytes);
    let mut written = [0; 12];
    assert_eq!(second::frame::write(&mut written, 7, TAKE, 0, 1), Ok(()));
    assert_eq!(written, bytes);
}

#[test]
fn p2_a_post_alone_is_granted_at_once() {
    let mut post = start(1, 0, 0, 1);
    assert_eq!(take(&mut post), (0, Some((TAKE, 0, 1)), true));
    assert_eq!(phase(&post), 3);
    assert_eq!(post.order(), 1);
    assert_eq!(post.value(), Ok(0));
    assert_eq!(post.missing(), Ok((0, 0)));
}

/// P3: post 0 of three has taken with (1,0) and heard (2,1).
fn p3() -> Queue {
    let mut post = start(3, 0, 0, 1);
    assert_eq!(take(&mut post), wrote(TAKE, 0, 1));
    assert_eq!(post.missing(), Ok((6, 2)));
    assert_eq!(receive(&mut post, ACK, 1, 2), QUIET);
    post
}

#[test]
fn p3_one_post_is_missing() {
    let post = p3();
    assert_eq!(phase(&post), 1);
    assert_eq!(post.missing(), Ok((4, 1)));
}

#[test]
fn p4_both_others_heard_grants() {
    let mut post = p3();
    assert_eq!(receive(&mut post, ACK, 2, 2), (0, None, true));
    assert_eq!(phase(&post), 3);
    assert_eq!(post.missing(), Ok((0, 0)));
}

/// The run of P5 to P7: posts 0 and 1 both take with counter 1, post 2 acknowledges.
fn p5() -> (Queue, Queue, Queue) {
    let [mut post0, mut post1, mut post2] = [0, 1, 2].map(|own| start(3, own, 0, 1));
    assert_eq!(take(&mut post0), wrote(TAKE, 0, 1));
    assert_eq!(take(&mut post1), wrote(TAKE, 1, 1));
    assert_eq!(receive(&mut post2, TAKE, 0, 1), wrote(ACK, 2, 2));
    assert_eq!(receive(&mut post2, TAKE, 1, 1), wrote(ACK, 2, 3));
    assert_eq!(receive(&mut post0, TAKE, 1, 1), wrote(ACK, 0, 2));
    assert_eq!(phase(&post0), 1);
    assert_eq!(receive(&mut post0, ACK, 2, 2), (0, None, true));
    (post0, post1, post2)
}

#[test]
fn p5_a_tie_goes_to_the_lower_post() {
    let (post0, _, _) = p5();
    assert_eq!(floor(&post0), Some((1, 1)));
    let settled: Vec<(u32, u8)> = post0.settled().map(|m| (m.counter, m.sender)).collect();
    assert_eq!(settled, [(1, 0), (1, 1)]);
    assert_eq!((phase(&post0), post0.order()), (3, 1));
    assert_eq!(post0.value(), Ok(-1));
}

/// P6: post 1 waits with number 2 and has the return of post 0, but nothing of post 2 above it.
fn p6() -> (Queue, Queue) {
    let (mut post0, mut post1, mut post2) = p5();
    assert_eq!(receive(&mut post1, TAKE, 0, 1), wrote(ACK, 1, 2));
    assert_eq!(receive(&mut post1, ACK, 2, 2), QUIET);
    assert_eq!(phase(&post1), 1);
    assert_eq!(receive(&mut post1, ACK, 0, 2), QUIET);
    assert_eq!((phase(&post1), post1.order()), (2, 2));
    assert_eq!(receive(&mut post0, ACK, 2, 3), QUIET);
    assert_eq!(give_back(&mut post0), wrote(RETURN, 0, 4));
    assert_eq!((phase(&post0), post0.order()), (0, 0));
    assert_eq!(receive(&mut post1, ACK, 2, 3), QUIET);
    assert_eq!(receive(&mut post1, RETURN, 0, 4), wrote(ACK, 1, 5));
    assert_eq!(receive(&mut post2, ACK, 0, 2), QUIET);
    assert_eq!(receive(&mut post2, RETURN, 0, 4), wrote(ACK, 2, 5));
    (post1, post2)
}

#[test]
fn p6_a_return_not_settled_grants_nothing() {
    let (post1, _) = p6();
    assert_eq!((post1.last(0), post1.last(2)), (4, 3));
    assert_eq!((phase(&post1), post1.order()), (2, 2));
    assert_eq!(post1.value(), Ok(-1));
}

#[test]
fn p7_the_return_settled_grants() {
    let (mut post1, _) = p6();
    assert_eq!(receive(&mut post1, ACK, 2, 5), (0, None, true));
    assert_eq!((phase(&post1), post1.order()), (3, 2));
    assert_eq!(post1.value(), Ok(0));
}

#[test]
fn p8_four_wait_and_the_fifth_is_refused() {
    let mut post = start(3, 0, 0, 1);
    for counter in 1..=4 {
        let kind = if counter % 2 == 1 { TAKE } else { RETURN };
        let acknowledged = wrote(ACK, 0, counter + 1);
        assert_eq!(receive(&mut post, kind, 1, counter), acknowledged);
    }
    assert_eq!(post.waiting_of(1), 4);
    let before = post.clone();
    assert_eq!(receive(&mut post, TAKE, 1, 5), refused(12));
    assert_eq!(post, before);
    assert_eq!(receive(&mut post, ACK, 1, 5), QUIET);
    assert_eq!(post.last(1), 5);
}

#[test]
fn p9_the_same_frame_twice() {
    let mut post = start(3, 0, 0, 1);
    assert_eq!(receive(&mut post, TAKE, 1, 1), wrote(ACK, 0, 2));
    let before = post.clone();
    assert_eq!(receive(&mut post, TAKE, 1, 1), refused(10));
    assert_eq!(post, before);
}

#[test]
fn p10_the_counters_end() {
    let mut post = start(2, 0, 0, 1);
    assert_eq!(receive(&mut post, ACK, 1, 4_294_967_294), QUIET);
    assert_eq!(take(&mut post), wrote(TAKE, 0, 4_294_967_295));
    assert_eq!(phase(&post), 1);
    assert_eq!(receive(&mut post, ACK, 1, 4_294_967_295), (0, None, true));
    let before = post.clone();
    assert_eq!(give_back(&mut post), refused(11));
    assert_eq!(post, before);
}

#[test]
fn missing_posts_go_by_stamp_where_counters_tie() {
    let mut post = start(3, 1, 0, 1);
    assert_eq!(take(&mut post), wrote(TAKE, 1, 1));
    // (1,0) is below the take (1,1), and (1,2) above it.
    assert_eq!(receive(&mut post, ACK, 0, 1), QUIET);
    assert_eq!(post.missing(), Ok((0b101, 2)));
    assert_eq!(receive(&mut post, ACK, 2, 1), QUIET);
    assert_eq!(post.missing(), Ok((0b001, 1)));
    assert_eq!(receive(&mut post, ACK, 0, 2), (0, None, true));
}

#[test]
fn the_highest_post_can_be_missing() {
    let mut post = start(16, 0, 0, 16);
    take(&mut post);
    assert_eq!(post.missing(), Ok((0b1111_1111_1111_1110, 15)));
    for other in 1..15 {
        assert_eq!(receive(&mut post, ACK, other, 2), QUIET);
    }
    assert_eq!(post.missing(), Ok((0b1000_0000_0000_0000, 1)));
    assert_eq!(receive(&mut post, ACK, 15, 2), (0, None, true));
}
