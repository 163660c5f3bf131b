//! A message, its kind and its stamp.

#[derive(Clone, Copy, Debug, PartialEq, Eq)]
pub enum Kind {
    Take = 1,
    Return = 2,
    Acknowledgment = 3,
}

impl Kind {
    pub fn from_number(number: u8) -> Option<Kind> {
        match number {
            1 => Some(Kind::Take),
            2 => Some(Kind::Return),
            3 => Some(Kind::Acknowledgment),
            _ => None,
        }
    }

    pub fn number(self) -> u8 {
        self as u8
    }
}

/// Ordered by counter, then by post number: the derived order goes by the fields as they stand.
#[derive(Clone, Copy, Debug, PartialEq, Eq, PartialOrd, Ord)]
pub struct Stamp {
    pub counter: u32,
    pub post: u8,
}

#[derive(Clone, Copy, Debug, PartialEq, Eq)]
pub struct Message {
    pub kind: Kind,
    pub sender: u8,
    pub counter: u32,
}

impl Message {
    pub fn stamp(&self) -> Stamp {
        Stamp {
            counter: self.counter,
            post: self.sender,
        }
    }

    /// Takes and returns settle and are counted; acknowledgments only raise the floor.
    pub fn is_counted(&self) -> bool {
        self.kind != Kind::Acknowledgment
    }
}

#[cfg(test)]
mod tests {
    use super::*;

    fn stamp(counter: u32, post: u8) -> Stamp {
        Stamp { counter, post }
    }

    #[test]
    fn stamps_go_by_counter_first() {
        assert!(stamp(1, 15) < stamp(2, 0));
        assert!(stamp(256, 0) > stamp(255, 15));
    }

    #[test]
    fn equal_counters_go_by_post() {
        assert!(stamp(7, 0) < stamp(7, 1));
        assert!(stamp(u32::MAX, 14) < stamp(u32::MAX, 15));
    }

    #[test]
    fn kinds_are_1_to_3() {
        assert_eq!(Kind::from_number(0), None);
        assert_eq!(Kind::from_number(4), None);
        for number in 1..=3 {
            assert_eq!(Kind::from_number(number).map(Kind::number), Some(number));
        }
        assert_eq!(Kind::from_number(1), Some(Kind::Take));
        assert_eq!(Kind::from_number(2), Some(Kind::Return));
    }

    #[test]
    fn acknowledgments_are_not_counted() {
        let message = |kind| Message {
            kind,
            sender: 0,
            counter: 1,
        };
        assert!(message(Kind::Take).is_counted());
        assert!(message(Kind::Return).is_counted());
        assert!(!message(Kind::Acknowledgment).is_counted());
    }
}
