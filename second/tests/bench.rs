//! The bench, by its bytes in and out.

use std::io::{self, BufReader, Read, Write};

use second::bench;

fn night(input: &[u8]) -> String {
    let mut output = Vec::new();
    bench::run(input, &mut output).unwrap();
    String::from_utf8(output).unwrap()
}

/// The answer to one line after a header for two posts and one place, without its line number.
fn line(line: &[u8]) -> String {
    let output = night(&[b"2 1\n", line, b"\n"].concat());
    let (answer, rest) = output.split_once('\n').unwrap();
    assert!(rest.starts_with("places 1 "));
    answer.strip_prefix("1 ").unwrap().to_string()
}

#[test]
fn the_example() {
    let input = b"2 1\nT 0\nD 0 1\nD 1 0\nT 0\nT 1\nD 1 0\nD 0 1\nR 0\nD 0 1\n";
    let output = "\
1 T 0 0 -
2 D 0 1 0 -
3 D 1 0 0 G
4 T 0 13 -
5 T 1 0 -
6 D 1 0 0 -
7 D 0 1 0 -
8 R 0 0 -
9 D 0 1 0 G
places 1 held 1 waiting 0
";
    assert_eq!(night(input), output);
    assert_eq!(night(&input[..input.len() - 1]), output);
}

#[test]
fn bad_headers() {
    let headers: &[&[u8]] = &[
        b"",
        b"\n",
        b"\n2 1\n",
        b"2",
        b"2 ",
        b" 1",
        b"2 1 ",
        b" 2 1",
        b"2  1",
        b"2 1 1",
        b"2\t1",
        b"2,1",
        b"2 1\r",
        b"\xef\xbb\xbf2 1",
        b"2 1\0",
        b"0 1",
        b"1 0",
        b"17 1",
        b"1 17",
        b"02 1",
        b"2 01",
        b"+2 1",
        b"2 -1",
        b"2 1.0",
        b"a b",
        b"T 0",
        b"257 1",
        b"2 257",
        b"65537 1",
        b"2 4294967297",
        b"18446744073709551617 1",
        b"2 18446744073709551617",
        b"340282366920938463463374607431768211457 1",
    ];
    for header in headers {
        for ending in [&b""[..], b"\n", b"\nT 0\n"] {
            let input = [header, ending].concat();
            assert_eq!(night(&input), "bad header\n", "{header:?} {ending:?}");
        }
    }
}

#[test]
fn good_headers_at_their_edges() {
    assert_eq!(night(b"1 1"), "places 1 held 0 waiting 0\n");
    assert_eq!(night(b"1 1\n"), "places 1 held 0 waiting 0\n");
    assert_eq!(night(b"16 16"), "places 16 held 0 waiting 0\n");
    assert_eq!(night(b"16 16\n"), "places 16 held 0 waiting 0\n");
    assert_eq!(
        night(b"16 16\nT 15"),
        "1 T 15 0 -\nplaces 16 held 0 waiting 1\n"
    );
}

#[test]
fn lines_that_are_no_commands() {
    let lines: &[&[u8]] = &[
        b"",
        b" ",
        b"T",
        b"T ",
        b"T0",
        b"t 0",
        b"r 0",
        b"d 0 1",
        b"X 0",
        b"TT 0",
        b" T 0",
        b"T 0 ",
        b"T  0",
        b"T\t0",
        b"T 0\r",
        b"T 0\0",
        b"\0",
        b"T \xb0",
        b"\xd4 0",
        b"T 00",
        b"T 01",
        b"T +0",
        b"T -1",
        b"T 0 1",
        b"R 0 1",
        b"D 0",
        b"D 0 1 ",
        b"D  0 1",
        b"D 0  1",
        b"D 0 1 0",
        b"D 0 01",
        b"T 2",
        b"T 256",
        b"T 4294967296",
        b"T 18446744073709551616",
        b"R 65536",
        b"D 0 257",
        b"D 256 1",
        b"D 0 4294967297",
        b"D 0 18446744073709551617",
        b"D 0 2",
        b"D 2 0",
        b"D 0 0",
        b"D 1 1",
        b"2 1",
    ];
    for bad in lines {
        assert_eq!(line(bad), "? 16 -", "{bad:?}");
    }
}

#[test]
fn sixteen_comes_before_15_and_15_before_the_call() {
    assert_eq!(line(b"D 0 0"), "? 16 -");
    assert_eq!(line(b"D 0 1"), "D 0 1 15 -");
    assert_eq!(
        night(b"1 1\nD 0 0"),
        "1 ? 16 -\nplaces 1 held 0 waiting 0\n"
    );
    assert_eq!(
        night(b"1 1\nD 0 1"),
        "1 ? 16 -\nplaces 1 held 0 waiting 0\n"
    );
}

#[test]
fn takes_and_returns_out_of_phase() {
    assert_eq!(line(b"R 1"), "R 1 14 -");
    let output = night(b"2 1\nT 1\nT 1\nR 1\n");
    assert_eq!(
        output,
        "1 T 1 0 -\n2 T 1 13 -\n3 R 1 14 -\nplaces 1 held 0 waiting 1\n"
    );
}

#[test]
fn acknowledgments_are_offered_in_the_order_sent() {
    // Post 1 sends (2,1) for the take (1,0) and then takes with (3,1).
    let output = night(b"2 1\nT 0\nD 0 1\nT 1\nD 1 0\nD 1 0\nD 1 0\n");
    assert_eq!(
        output,
        "\
1 T 0 0 -
2 D 0 1 0 -
3 T 1 0 -
4 D 1 0 0 G
5 D 1 0 0 -
6 D 1 0 15 -
places 1 held 1 waiting 1
"
    );
}

#[test]
fn a_refused_message_stays_next() {
    // Post 1 takes and returns while post 0 hears nothing of post 2.
    let mut input = b"3 1\n".to_vec();
    for call in ["T 1", "R 1"].repeat(2) {
        input.extend(format!("{call}\nD 1 0\nD 1 2\nD 0 1\nD 2 1\n").bytes());
    }
    input.extend(b"T 1\nD 1 0\nD 1 0\nD 2 0\nD 1 0\n");
    let output = night(&input);
    let answers: Vec<&str> = output.lines().collect();
    assert_eq!(answers[4], "5 D 2 1 0 G");
    assert_eq!(
        answers[20..],
        [
            "21 T 1 0 -",
            "22 D 1 0 12 -",
            "23 D 1 0 12 -",
            "24 D 2 0 0 -",
            "25 D 1 0 0 -",
            "places 1 held 0 waiting 1",
        ]
    );
}

fn with_lines(count: usize) -> Vec<u8> {
    [b"1 1\n".to_vec(), b"T 0\nR 0\n".repeat(count / 2)].concat()
}

#[test]
fn line_256_is_the_last_command() {
    let output = night(&with_lines(256));
    assert!(output.ends_with("\n255 T 0 0 G\n256 R 0 0 -\nplaces 1 held 0 waiting 0\n"));
    assert_eq!(output.lines().count(), 257);
}

#[test]
fn line_257_stops_the_bench_whatever_it_holds() {
    for more in [&b"T 0"[..], b"T 0\n", b"\n", b"\0", b"x\nT 0\n"] {
        let output = night(&[&with_lines(256), more].concat());
        assert!(output.ends_with("\n256 R 0 0 -\n257 ? 17 -\nplaces 1 held 0 waiting 0\n"));
        assert_eq!(output.lines().count(), 258);
    }
}

#[test]
fn empty_and_bad_lines_are_counted() {
    let output = night(&[&b"1 1\n"[..], &b"\nx\n".repeat(128), b"T 0\n"].concat());
    assert!(output.starts_with("1 ? 16 -\n2 ? 16 -\n"));
    assert!(output.ends_with("\n256 ? 16 -\n257 ? 17 -\nplaces 1 held 0 waiting 0\n"));
}

#[test]
fn input_without_end_is_left_at_line_257() {
    let mut output = Vec::new();
    let input = (&b"1 1\n"[..]).chain(io::repeat(b'\n'));
    bench::run(BufReader::new(input), &mut output).unwrap();
    assert!(output.ends_with(b"\n257 ? 17 -\nplaces 1 held 0 waiting 0\n"));
}

#[test]
fn a_first_line_without_end_is_a_bad_header() {
    let mut output = Vec::new();
    bench::run(BufReader::new(io::repeat(b'1')), &mut output).unwrap();
    assert_eq!(output, b"bad header\n");
}

#[test]
fn a_line_of_a_million_digits_is_one_line() {
    let digits = vec![b'0'; 1_000_000];
    assert_eq!(
        night(&[b"2 1\nT 1", &digits[..], b"\nT 0\n"].concat()),
        "1 ? 16 -\n2 T 0 0 -\nplaces 1 held 0 waiting 1\n"
    );
}

/// Gives its bytes one at a time and must not be asked for more.
struct NoFurther<'a>(&'a [u8]);

impl Read for NoFurther<'_> {
    fn read(&mut self, buffer: &mut [u8]) -> io::Result<usize> {
        assert!(!self.0.is_empty(), "read on after line 257");
        self.0.read(&mut buffer[..1])
    }
}

#[test]
fn nothing_is_read_after_the_first_byte_of_line_257() {
    let input = [&with_lines(256)[..], b"T"].concat();
    let mut output = Vec::new();
    bench::run(BufReader::new(NoFurther(&input)), &mut output).unwrap();
    assert!(output.ends_with(b"257 ? 17 -\nplaces 1 held 0 waiting 0\n"));
}

/// A reader or writer that fails.
struct Broken;

impl Read for Broken {
    fn read(&mut self, _: &mut [u8]) -> io::Result<usize> {
        Err(io::Error::other("broken"))
    }
}

impl Write for Broken {
    fn write(&mut self, _: &[u8]) -> io::Result<usize> {
        Err(io::Error::other("broken"))
    }

    fn flush(&mut self) -> io::Result<()> {
        Ok(())
    }
}

#[test]
fn a_write_that_fails_ends_the_night() {
    for input in [&b""[..], b"1 1\n", b"1 1\nT 0\n"] {
        assert!(bench::run(input, Broken).is_err());
    }
}

#[test]
fn a_read_that_fails_is_no_end_of_input() {
    let mut output = Vec::new();
    let input = (&b"1 1\nT 0\n"[..]).chain(Broken);
    assert!(bench::run(BufReader::new(input), &mut output).is_err());
    assert_eq!(output, b"1 T 0 0 G\n");
}
