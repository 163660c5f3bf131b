//! Frames of 12 bytes: mark, version, feeder, kind, sender, counter; numbers high byte first.

use crate::message::{Kind, Message};
use crate::refusal::{refuse, Refusal};

pub const LENGTH: usize = 12;
pub const MARK: [u8; 3] = *b"FPM";
pub const VERSION: u16 = 1;
/// The highest post number any feeder can have.
const HIGHEST_POST: u8 = 15;

/// The bytes of a frame by field, not yet tested.
pub struct Fields {
    pub mark: [u8; 3],
    pub version: u16,
    pub feeder: u8,
    pub kind: u8,
    pub sender: u8,
    pub counter: u32,
}

/// Takes a frame apart; only its length is tested here, since reading and receiving test the
/// fields in different orders.
pub fn split(frame: &[u8]) -> Result<Fields, Refusal> {
    let Ok([m0, m1, m2, v0, v1, feeder, kind, sender, c0, c1, c2, c3]) =
        <[u8; LENGTH]>::try_from(frame)
    else {
        return Err(Refusal::FrameLength);
    };
    Ok(Fields {
        mark: [m0, m1, m2],
        version: u16::from_be_bytes([v0, v1]),
        feeder,
        kind,
        sender,
        counter: u32::from_be_bytes([c0, c1, c2, c3]),
    })
}

/// Frame reading: feeder and message.
pub fn read(frame: &[u8]) -> Result<(u8, Message), Refusal> {
    let fields = split(frame)?;
    refuse(fields.mark != MARK, Refusal::Mark)?;
    refuse(fields.version != VERSION, Refusal::Version)?;
    let message = message(fields.kind, fields.sender, fields.counter)?;
    Ok((fields.feeder, message))
}

/// Frame writing: the first 12 bytes of the buffer; later bytes stay.
pub fn write(
    buffer: &mut [u8],
    feeder: u8,
    kind: u8,
    sender: u8,
    counter: u32,
) -> Result<(), Refusal> {
    refuse(buffer.len() < LENGTH, Refusal::ShortBuffer)?;
    let message = message(kind, sender, counter)?;
    buffer[..LENGTH].copy_from_slice(&bytes(feeder, &message));
    Ok(())
}

/// The frame of a message.
pub fn bytes(feeder: u8, message: &Message) -> [u8; LENGTH] {
    let [m0, m1, m2] = MARK;
    let [v0, v1] = VERSION.to_be_bytes();
    let [c0, c1, c2, c3] = message.counter.to_be_bytes();
    let kind = message.kind.number();
    [
        m0,
        m1,
        m2,
        v0,
        v1,
        feeder,
        kind,
        message.sender,
        c0,
        c1,
        c2,
        c3,
    ]
}

/// The rows 7, 8 and 9 as frame reading and writing have them.
fn message(kind: u8, sender: u8, counter: u32) -> Result<Message, Refusal> {
    let kind = Kind::from_number(kind).ok_or(Refusal::Kind)?;
    refuse(sender > HIGHEST_POST, Refusal::Sender)?;
    refuse(counter == 0, Refusal::CounterZero)?;
    Ok(Message {
        kind,
        sender,
        counter,
    })
}

#[cfg(test)]
mod tests {
    use super::*;
    use crate::refusal::number;

    const GOOD: [u8; 12] = [
        0x46, 0x50, 0x4D, 0x00, 0x01, 0x07, 0x02, 0x0F, 0x01, 0x02, 0x03, 0x04,
    ];

    fn with(changes: &[(usize, u8)]) -> [u8; 12] {
        let mut frame = GOOD;
        for &(place, byte) in changes {
            frame[place] = byte;
        }
        frame
    }

    fn reading(changes: &[(usize, u8)]) -> u8 {
        number(&read(&with(changes)))
    }

    #[test]
    fn reads_every_field_high_byte_first() {
        let message = Message {
            kind: Kind::Return,
            sender: 15,
            counter: 0x0102_0304,
        };
        assert_eq!(read(&GOOD), Ok((7, message)));
    }

    #[test]
    fn writes_what_reading_gives_back_and_leaves_later_bytes() {
        let mut buffer = [0xEE; 14];
        assert_eq!(write(&mut buffer, 7, 2, 15, 0x0102_0304), Ok(()));
        assert_eq!(buffer[..12], GOOD);
        assert_eq!(buffer[12..], [0xEE, 0xEE]);
    }

    #[test]
    fn reading_refuses_every_length_but_12() {
        for length in 0..12 {
            assert_eq!(number(&read(&GOOD[..length])), 3);
        }
        let mut longer = GOOD.to_vec();
        longer.push(0);
        assert_eq!(number(&read(&longer)), 3);
    }

    #[test]
    fn reading_refuses_each_field_at_its_edge() {
        assert_eq!(reading(&[]), 0);
        for place in 0..3 {
            assert_eq!(reading(&[(place, 0)]), 4);
        }
        assert_eq!(reading(&[(3, 1)]), 5);
        assert_eq!(reading(&[(4, 0)]), 5);
        assert_eq!(reading(&[(4, 2)]), 5);
        assert_eq!(reading(&[(5, 255)]), 0);
        assert_eq!(reading(&[(6, 0)]), 7);
        assert_eq!(reading(&[(6, 3)]), 0);
        assert_eq!(reading(&[(6, 4)]), 7);
        assert_eq!(reading(&[(7, 16)]), 8);
        assert_eq!(reading(&[(8, 0), (9, 0), (10, 0), (11, 0)]), 9);
        assert_eq!(reading(&[(8, 0), (9, 0), (10, 0), (11, 1)]), 0);
        assert_eq!(reading(&[(8, 255), (9, 255), (10, 255), (11, 255)]), 0);
    }

    #[test]
    fn reading_tests_in_table_order() {
        let mut changes = vec![(8, 0), (9, 0), (10, 0), (11, 0)];
        for (change, refusal) in [((7, 16), 8), ((6, 0), 7), ((4, 9), 5), ((0, 0), 4)] {
            changes.push(change);
            assert_eq!(reading(&changes), refusal);
        }
        assert_eq!(number(&read(&with(&changes)[..11])), 3);
    }

    #[test]
    fn writing_refuses_in_table_order_and_writes_nothing() {
        let cases = [
            (11, 0, 16, 0, 2),
            (12, 0, 16, 0, 7),
            (12, 4, 15, 1, 7),
            (12, 1, 16, 0, 8),
            (12, 1, 255, 1, 8),
            (12, 3, 15, 0, 9),
        ];
        for (length, kind, sender, counter, refusal) in cases {
            let mut buffer = vec![0xEE; length];
            let answer = write(&mut buffer, 7, kind, sender, counter);
            assert_eq!(number(&answer), refusal);
            assert_eq!(buffer, vec![0xEE; length]);
        }
    }

    #[test]
    fn writing_takes_the_edges() {
        for (kind, sender, counter) in [(1, 0, 1), (3, 15, u32::MAX)] {
            let mut buffer = [0; 12];
            assert_eq!(write(&mut buffer, 255, kind, sender, counter), Ok(()));
            let (feeder, message) = read(&buffer).unwrap();
            assert_eq!((feeder, message.kind.number()), (255, kind));
            assert_eq!((message.sender, message.counter), (sender, counter));
        }
    }
}
