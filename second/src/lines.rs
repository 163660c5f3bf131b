//! The lines of a night: cutting them from a stream of bytes, and reading header and commands.

use std::fmt;
use std::io;

pub const LONGEST_HEADER: usize = "16 16".len();
const LONGEST_COMMAND: usize = "D 15 14".len();

#[derive(Clone, Copy, Debug, PartialEq, Eq)]
pub enum Command {
    Take(u8),
    Return(u8),
    /// Offers the second post the next message of the first.
    Deliver(u8, u8),
}

impl Command {
    /// The post that is called; for a delivery, the one that the message is offered to.
    pub fn post(&self) -> u8 {
        match *self {
            Command::Take(p) | Command::Return(p) | Command::Deliver(_, p) => p,
        }
    }
}

impl fmt::Display for Command {
    fn fmt(&self, f: &mut fmt::Formatter) -> fmt::Result {
        match self {
            Command::Take(p) => write!(f, "T {p}"),
            Command::Return(p) => write!(f, "R {p}"),
            Command::Deliver(p, q) => write!(f, "D {p} {q}"),
        }
    }
}

/// The next line without its LF, none at the end of the input. Of a line longer than any command
/// one byte too many is kept, so that it is not taken for one.
pub fn next(bytes: &mut impl Iterator<Item = io::Result<u8>>) -> io::Result<Option<Vec<u8>>> {
    let mut line = Vec::new();
    let mut is_there = false;
    for byte in bytes {
        let byte = byte?;
        is_there = true;
        if byte == b'\n' {
            break;
        }
        if line.len() <= LONGEST_COMMAND {
            line.push(byte);
        }
    }
    Ok(is_there.then_some(line))
}

/// The posts and places of a header; whether they are in range is for start to say.
pub fn header(line: &[u8]) -> Option<(u8, u8)> {
    match words(line)[..] {
        [posts, places] => Some((decimal(posts)?, decimal(places)?)),
        _ => None,
    }
}

/// A line as a command for so many posts. What is none is refused with 16.
pub fn command(line: &[u8], posts: u8) -> Option<Command> {
    let post = |word| decimal(word).filter(|&post| post < posts);
    match words(line)[..] {
        [b"T", p] => Some(Command::Take(post(p)?)),
        [b"R", p] => Some(Command::Return(post(p)?)),
        [b"D", p, q] => {
            let (p, q) = (post(p)?, post(q)?);
            (p != q).then_some(Command::Deliver(p, q))
        }
        _ => None,
    }
}

/// What stands between single spaces; two spaces have an empty word between them.
fn words(line: &[u8]) -> Vec<&[u8]> {
    line.split(|&byte| byte == b' ').collect()
}

/// A decimal number without leading zeros. One too large for a byte stays at 255, which is out of
/// every range here.
fn decimal(word: &[u8]) -> Option<u8> {
    let is_number = !word.is_empty() && word.iter().all(u8::is_ascii_digit);
    let has_leading_zero = word.len() > 1 && word[0] == b'0';
    let append = |n: u8, digit: &u8| n.saturating_mul(10).saturating_add(digit - b'0');
    (is_number && !has_leading_zero).then(|| word.iter().fold(0, append))
}

#[cfg(test)]
mod tests {
    use super::*;

    #[test]
    fn decimals_do_not_wrap() {
        assert_eq!(decimal(b"0"), Some(0));
        assert_eq!(decimal(b"16"), Some(16));
        assert_eq!(decimal(b"254"), Some(254));
        for large in ["255", "256", "257", "1000", "2560", "99999999999999999999"] {
            assert_eq!(decimal(large.as_bytes()), Some(255));
        }
        for bad in ["", "00", "01", "+1", "-1", "1a", "0x1"] {
            assert_eq!(decimal(bad.as_bytes()), None);
        }
    }

    #[test]
    fn commands_print_as_they_are_read() {
        for text in ["T 0", "R 15", "D 0 1", "D 15 14"] {
            let command = command(text.as_bytes(), 16).unwrap();
            assert_eq!(command.to_string(), text);
        }
    }

    #[test]
    fn posts_end_where_the_feeder_does() {
        assert_eq!(command(b"T 2", 3), Some(Command::Take(2)));
        assert_eq!(command(b"T 3", 3), None);
        assert_eq!(command(b"D 2 3", 3), None);
        assert_eq!(command(b"D 3 2", 3), None);
        assert_eq!(command(b"D 2 2", 3), None);
    }

    fn cut(input: &[u8]) -> Vec<Vec<u8>> {
        let mut bytes = input.iter().map(|&byte| Ok(byte));
        let mut lines = Vec::new();
        while let Some(line) = next(&mut bytes).unwrap() {
            lines.push(line);
        }
        lines
    }

    #[test]
    fn lines_are_what_stands_between_lfs() {
        assert_eq!(cut(b""), Vec::<Vec<u8>>::new());
        assert_eq!(cut(b"\n"), [b""]);
        assert_eq!(cut(b"a\n\nb"), [&b"a"[..], b"", b"b"]);
        assert_eq!(cut(b"a\nb\n"), [b"a", b"b"]);
    }

    #[test]
    fn of_a_long_line_one_byte_too_many_is_kept() {
        assert_eq!(
            cut(b"D 15 14\nD 15 140000\nx"),
            [&b"D 15 14"[..], b"D 15 140", b"x"]
        );
    }
}
