//! The numbers given back when a call is refused, in the order of 01's table.

#[derive(Clone, Copy, Debug, PartialEq, Eq)]
#[repr(u8)]
pub enum Refusal {
    NotSound = 1,
    ShortBuffer = 2,
    FrameLength = 3,
    Mark = 4,
    Version = 5,
    OtherFeeder = 6,
    Kind = 7,
    Sender = 8,
    CounterZero = 9,
    CounterNotAbove = 10,
    NoNextCounter = 11,
    FourWaiting = 12,
    TakeOutOfPhase = 13,
    ReturnOutOfPhase = 14,
    NothingOnTheWay = 15,
    NotACommand = 16,
    TooManyLines = 17,
}

/// One row of the table: refused with `refusal` when `given`, else on to the next row.
pub fn refuse(given: bool, refusal: Refusal) -> Result<(), Refusal> {
    if given {
        Err(refusal)
    } else {
        Ok(())
    }
}

/// The number of an answer: 0 when done, else the refusal's.
pub fn number<T>(answer: &Result<T, Refusal>) -> u8 {
    match answer {
        Ok(_) => 0,
        Err(refusal) => *refusal as u8,
    }
}
