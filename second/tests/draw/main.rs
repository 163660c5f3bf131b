//! Pictures of nights: that they are XML, and that they show what second's own posts do.

mod seen;
mod xml;

use std::fs;
use std::path::{Path, PathBuf};
use std::process::{Command as Process, Output};

use second::bench;
use second::draw::{draw, Misfit, Side};
use second::feeder::Feeder;
use second::lines::{self, Command};
use second::nights;
use second::queue::Phase;
use second::random::Random;

use seen::{commands, seen, Seen, Shown};
use xml::Node;

fn answered(input: &[u8]) -> Vec<u8> {
    let mut output = Vec::new();
    bench::run(input, &mut output).unwrap();
    output
}

fn drawn(input: &[u8]) -> Node {
    let text = draw("a night", input, &answered(input)).unwrap();
    xml::read(&text).unwrap()
}

/// What a picture has to show, by running the posts.
fn run(input: &[u8]) -> Seen {
    let mut bytes = input.iter().map(|&byte| Ok(byte));
    let mut night = std::iter::from_fn(|| lines::next(&mut bytes).unwrap());
    let (posts, places) = lines::header(&night.next().unwrap()).unwrap();
    let mut feeder = Feeder::start(posts, places).unwrap();
    let mut expected = Seen {
        rows: Vec::new(),
        holding: Vec::new(),
        grants: Vec::new(),
        heard: Vec::new(),
        refused: Vec::new(),
    };
    for (line_number, line) in (1..=257).zip(night) {
        let is_read = line_number <= 256;
        let command = lines::command(&line, posts).filter(|_| is_read);
        let answer = command.map(|command| bench::call(&mut feeder, command));
        match (command, answer) {
            (Some(command), Some(Ok(done))) => {
                let called = match command {
                    Command::Take(p) | Command::Return(p) => p,
                    Command::Deliver(_, q) => q,
                };
                let place = (line_number, usize::from(called));
                expected.grants.extend(done.granted.then_some(place));
                let is_heard = matches!(command, Command::Deliver(..));
                expected.heard.extend(is_heard.then_some(place));
            }
            _ => expected.refused.push(line_number),
        }
        let shown = |post| match feeder.phase(post) {
            Phase::Idle => Shown::Nothing,
            Phase::Unsettled | Phase::Numbered => Shown::Waiting,
            Phase::Holding => Shown::Holding,
        };
        expected.rows.push((0..posts).map(shown).collect());
        expected.holding.push(feeder.in_phase(Phase::Holding));
    }
    expected
}

fn places(input: &[u8]) -> usize {
    let header = input.split(|&byte| byte == b'\n').next().unwrap();
    usize::from(lines::header(header).unwrap().1)
}

fn shows_what_the_posts_do(input: &[u8], what: &dyn std::fmt::Debug) {
    let expected = run(input);
    let picture = drawn(input);
    let found = seen(&picture, expected.rows.len(), places(input));
    assert_eq!(found, expected, "{what:?}");
    stands_on_its_page(&picture);
}

/// Every rectangle and every text with a place of its own.
fn stands_on_its_page(picture: &Node) {
    let (width, height) = (picture.number("width"), picture.number("height"));
    let page = format!("0 0 {width} {height}");
    assert_eq!(picture.attribute("viewBox"), Some(page.as_str()));
    for node in picture.all().into_iter().skip(1) {
        if node.attribute("x").is_none() {
            continue;
        }
        let is_rect = node.name == "rect";
        let (w, h) = match is_rect {
            true => (node.number("width"), node.number("height")),
            false => (0, 0),
        };
        assert!(node.number("x") + w <= width, "{node:?}");
        assert!(node.number("y") + h <= height, "{node:?}");
        assert!(!is_rect || w * h > 0, "{node:?}");
    }
}

fn stored() -> Vec<PathBuf> {
    let folder = Path::new(env!("CARGO_MANIFEST_DIR")).join("../crates/nights_main/data");
    let files = fs::read_dir(folder)
        .unwrap()
        .map(|file| file.unwrap().path());
    let mut nights: Vec<PathBuf> = files
        .filter(|f| f.extension() == Some("in".as_ref()))
        .collect();
    nights.sort();
    nights
}

#[test]
fn stored_nights() {
    let (mut good, mut bad) = (0, 0);
    for night in stored() {
        let input = fs::read(&night).unwrap();
        let output = fs::read(night.with_extension("out")).unwrap();
        if output == b"bad header\n" {
            let Misfit { side, line, what } = draw("", &input, &output).unwrap_err();
            assert_eq!((side, line), (Side::Input, 1), "{night:?}");
            assert!(what.starts_with("expected a header, "), "{what}");
            bad += 1;
        } else {
            assert_eq!(output, answered(&input), "{night:?}");
            shows_what_the_posts_do(&input, &night);
            good += 1;
        }
    }
    assert!(good >= 60 && bad >= 20, "{good} good, {bad} bad");
}

#[test]
fn random_nights() {
    let mut random = Random::new(1);
    let mut good = 0;
    for number in 0..200 {
        let input = nights::night(&mut random);
        if answered(&input) != b"bad header\n" {
            shows_what_the_posts_do(&input, &number);
            good += 1;
        }
    }
    assert!(good >= 150, "{good} good");
}

/// A night in which every post takes and some give back, with so many lines.
fn night_of(posts: u8, places: u8, count: usize) -> Vec<u8> {
    let mut input = format!("{posts} {places}\n");
    for n in 0..count {
        let p = n % usize::from(posts);
        let q = (n / 3) % usize::from(posts);
        input += &match n % 3 {
            0 => format!("T {p}\n"),
            1 => format!("D {p} {q}\n"),
            _ => format!("R {p}\n"),
        };
    }
    input.into_bytes()
}

#[test]
fn every_size() {
    for posts in 1..=16 {
        for count in [
            0, 1, 2, 9, 13, 14, 18, 19, 80, 81, 176, 177, 219, 220, 221, 255, 256, 257,
        ] {
            let night = night_of(posts, 17 - posts, count);
            shows_what_the_posts_do(&night, &(posts, count));
            numbers_stand_apart(&drawn(&night));
        }
    }
}

/// Line numbers, and commands set level, leave room for each other.
fn numbers_stand_apart(picture: &Node) {
    for (class, apart) in [("number", 28), ("command", 48)] {
        let texts = picture.of_class("text", class);
        let texts = texts
            .into_iter()
            .filter(|text| text.attribute("x").is_some());
        let xs: Vec<usize> = texts.map(|text| text.number("x")).collect();
        assert!(
            xs.windows(2).all(|pair| pair[0] + apart <= pair[1]),
            "{xs:?}"
        );
    }
}

#[test]
fn commands_stand_below_their_lines() {
    for count in [1, 9, 13, 18, 19, 80] {
        let night = night_of(3, 1, count);
        let output = String::from_utf8(answered(&night)).unwrap();
        let answers = output.lines().take(count);
        let expected: Vec<(usize, bool, String)> = answers
            .map(|answer| {
                let words: Vec<&str> = answer.split(' ').collect();
                let (number, end) = (words[0].parse().unwrap(), words.len() - 2);
                (number, words[end] == "0", words[1..end].join(" "))
            })
            .collect();
        assert_eq!(commands(&drawn(&night), count), expected);
    }
    let narrow = drawn(&night_of(3, 1, 81));
    assert!(narrow.of_class("text", "command").is_empty());
}

#[test]
fn posts_beyond_the_places_are_shown() {
    let output = b"1 T 0 0 G\n2 T 1 0 G\nplaces 1 held 2 waiting 0\n";
    let picture = draw("", b"2 1\nT 0\nT 1\n", output).unwrap();
    let picture = xml::read(&picture).unwrap();
    assert_eq!(picture.of_class("rect", "over").len(), 1);
    assert_eq!(seen(&picture, 2, 1).holding, [1, 2]);
    assert!(drawn(b"2 1\nT 0\nT 1\n")
        .of_class("rect", "over")
        .is_empty());
}

#[test]
fn a_name_is_escaped_and_shortened() {
    for name in [
        "",
        "R&D <1> \"x\"",
        "tab\t",
        "\u{1}\u{7}",
        "é".repeat(48).as_str(),
    ] {
        let picture = draw(name, b"1 1", b"places 1 held 0 waiting 0\n").unwrap();
        let picture = xml::read(&picture).unwrap();
        let plain = |c: char| if c.is_control() { '\u{fffd}' } else { c };
        let name: String = name.chars().map(plain).collect();
        assert_eq!(picture.of_class("text", "name")[0].text, name);
        assert_eq!(picture.children[0].text, name);
    }
    let long = draw(&"é".repeat(49), b"1 1", b"places 1 held 0 waiting 0\n").unwrap();
    let long = xml::read(&long).unwrap();
    assert_eq!(
        long.of_class("text", "name")[0].text,
        format!("{}…", "é".repeat(48))
    );
}

#[test]
fn the_picture_is_told_in_words() {
    let picture = drawn(b"2 1\nT 0\nD 0 1\nD 1 0\nT 0\nT 1\nD 1 0\nD 0 1\nR 0\nD 0 1\n");
    let [title, desc] = &picture.children[..2] else {
        panic!("{:?}", picture.children)
    };
    assert_eq!((title.name.as_str(), desc.name.as_str()), ("title", "desc"));
    let ids = [title, desc].map(|node| node.attribute("id").unwrap());
    assert_eq!(
        picture.attribute("aria-labelledby"),
        Some(ids.join(" ").as_str())
    );
    assert_eq!(
        desc.text,
        "2 posts, 1 place, 9 lines: 2 grants, 1 line refused; at the end 1 holding and 0 waiting. \
         At most 1 holding at once. Post 0 waits from line 1 to line 2, holds from line 3 to line \
         7. Post 1 waits from line 5 to line 8, holds at line 9."
    );
}

#[test]
fn nothing_runs_and_nothing_is_fetched() {
    let picture = drawn(&night_of(16, 3, 80));
    let names = ["svg", "title", "desc", "style", "g", "rect", "path", "text"];
    for node in picture.all() {
        assert!(names.contains(&node.name.as_str()), "{}", node.name);
        for (name, value) in &node.attributes {
            assert!(!name.starts_with("on") && !name.contains("href"), "{name}");
            assert!(!value.contains("url"), "{value}");
        }
        assert!(!node.text.contains("url") && !node.text.contains('@'));
    }
    let [paper, ..] = picture.of_class("rect", "paper")[..] else {
        panic!("no paper")
    };
    for side in ["width", "height"] {
        assert_eq!(paper.number(side), picture.number(side));
    }
}

const INPUT: &[u8] = b"2 1\nT 0\nD 0 1\nD 1 0\nx\nR 0\n";
const OUTPUT: &str =
    "1 T 0 0 -\n2 D 0 1 0 -\n3 D 1 0 0 G\n4 ? 16 -\n5 R 0 0 -\nplaces 1 held 0 waiting 0\n";

fn misfit(input: &[u8], output: &[u8]) -> (Side, usize, String) {
    let misfit = draw("", input, output).unwrap_err();
    (misfit.side, misfit.line, misfit.what)
}

/// What is wrong with the output when one of its lines is another.
fn with_line(line: usize, text: &str) -> String {
    let mut lines: Vec<&str> = OUTPUT.lines().collect();
    assert_ne!(lines[line - 1], text);
    lines[line - 1] = text;
    let (side, at, what) = misfit(INPUT, (lines.join("\n") + "\n").as_bytes());
    assert_eq!((side, at), (Side::Output, line), "{what}");
    what
}

#[test]
fn an_output_may_lack_its_last_lf() {
    assert_eq!(OUTPUT.as_bytes(), answered(INPUT));
    let whole = draw("", INPUT, OUTPUT.as_bytes()).unwrap();
    assert_eq!(draw("", INPUT, OUTPUT.trim_end().as_bytes()), Ok(whole));
}

#[test]
fn headers_that_are_bad() {
    let found = |input: &[u8]| {
        let (side, line, what) = misfit(input, b"bad header\n");
        assert_eq!((side, line), (Side::Input, 1));
        let expected = "expected a header, posts and places with one space between, both from 1 \
                        to 16, found ";
        what.strip_prefix(expected).unwrap().to_string()
    };
    assert_eq!(found(b""), "the end of the file");
    assert_eq!(found(b"\n"), r#""""#);
    assert_eq!(found(b"17 1\nT 0\n"), r#""17 1""#);
    assert_eq!(found(b"2 0\n"), r#""2 0""#);
    assert_eq!(found(b"2 1\r\n"), r#""2 1\r""#);
    let long = vec![b'1'; 1000];
    assert_eq!(found(&long), format!("{:?} and more", "1".repeat(40)));
}

#[test]
fn answers_that_the_line_cannot_have() {
    let what = with_line(1, "1 T 1 0 -");
    let takes = r#""1 T 0 0 -" or "1 T 0 0 G" or "1 T 0 13 -""#;
    assert_eq!(what, format!(r#"expected {takes}, found "1 T 1 0 -""#));
    for other in [
        "2 T 0 0 -",
        "1 T 0 14 -",
        "1 T 0 13 G",
        "1 T 0 0",
        "1 T 0 0 - ",
        "",
        "bad header",
    ] {
        assert_eq!(
            with_line(1, other),
            format!("expected {takes}, found {other:?}")
        );
    }
    assert!(with_line(2, "2 D 1 0 0 -").contains("\"2 D 0 1 12 -\" or \"2 D 0 1 15 -\", found"));
    assert!(with_line(4, "4 ? 17 -").starts_with("expected \"4 ? 16 -\", found"));
    assert!(
        with_line(5, "5 R 0 0 G").starts_with("expected \"5 R 0 0 -\" or \"5 R 0 14 -\", found")
    );
}

#[test]
fn answers_that_do_not_follow() {
    let does_not_follow = |line: usize, text: &str, is: &str| {
        let expected = format!("{text:?} does not follow: by the lines before, post {is}");
        assert_eq!(with_line(line, text), expected);
    };
    does_not_follow(1, "1 T 0 13 -", "0 is idle");
    does_not_follow(2, "2 D 0 1 0 G", "1 is idle");
    does_not_follow(5, "5 R 0 14 -", "0 holds");
    // Without its grant post 0 still waits when it gives back.
    let output = OUTPUT.replace("0 G", "0 -");
    let (_, line, what) = misfit(INPUT, output.as_bytes());
    assert_eq!(line, 5);
    assert_eq!(
        what,
        r#""5 R 0 0 -" does not follow: by the lines before, post 0 waits"#
    );
    let twice = b"1 T 0 0 G\n2 T 0 0 -\nplaces 1 held 1 waiting 0\n";
    assert_eq!(misfit(b"1 1\nT 0\nT 0\n", twice).1, 2);
}

#[test]
fn outputs_of_another_length() {
    let lines: Vec<&str> = OUTPUT.split_inclusive('\n').collect();
    for count in 0..lines.len() {
        let (side, line, what) = misfit(INPUT, lines[..count].concat().as_bytes());
        assert_eq!((side, line), (Side::Output, count + 1));
        assert!(what.ends_with(", found the end of the file"), "{what}");
    }
    let (_, line, what) = misfit(INPUT, [OUTPUT, "\n"].concat().as_bytes());
    assert_eq!(
        (line, what.as_str()),
        (7, r#"expected the end of the file, found """#)
    );
    let (_, line, what) = misfit(&INPUT[..INPUT.len() - 4], OUTPUT.as_bytes());
    assert_eq!(line, 5);
    assert_eq!(
        what,
        r#"expected the last line, "places ..", as the input has no more lines, found "5 R 0 0 -""#
    );
}

#[test]
fn last_lines_that_do_not_follow() {
    for last in [
        "places 2 held 0 waiting 0",
        "places 1 held 1 waiting 0",
        "places 1 held 0",
    ] {
        let expected = "expected \"places 1 held 0 waiting 0\", as the lines before imply, found";
        assert_eq!(with_line(6, last), format!("{expected} {last:?}"));
    }
}

#[test]
fn line_257_is_the_last_that_counts() {
    let input = night_of(2, 1, 300);
    let output = String::from_utf8(answered(&input)).unwrap();
    assert!(draw("", &input, output.as_bytes()).is_ok());
    let other = output.replace("257 ? 17 -", "257 ? 16 -");
    let (_, line, what) = misfit(&input, other.as_bytes());
    assert_eq!(line, 257);
    assert_eq!(what, r#"expected "257 ? 17 -", found "257 ? 16 -""#);
}

fn second(words: &[&str]) -> Output {
    let program = env!("CARGO_BIN_EXE_second");
    Process::new(program).args(words).output().unwrap()
}

#[test]
fn the_command_names_the_file_that_is_wrong() {
    let folder = Path::new(env!("CARGO_TARGET_TMPDIR"));
    let place = |name: &str| folder.join(name).display().to_string();
    let (input, output) = (place("an evening.in"), place("an evening.out"));
    fs::write(&input, INPUT).unwrap();
    fs::write(&output, OUTPUT).unwrap();
    let drawn = second(&["draw", &input, &output]);
    assert_eq!(
        (drawn.status.code(), &drawn.stderr[..]),
        (Some(0), &b""[..])
    );
    let expected = draw("an evening", INPUT, OUTPUT.as_bytes()).unwrap();
    assert_eq!(drawn.stdout, expected.as_bytes());

    let says = |words: &[&str], status: i32| {
        let outcome = second(words);
        assert_eq!(outcome.status.code(), Some(status), "{words:?}");
        assert_eq!(outcome.stdout, b"");
        String::from_utf8(outcome.stderr).unwrap()
    };
    let exchanged = says(&["draw", &output, &input], 1);
    assert!(exchanged.starts_with(&format!("{output}, line 1: expected a header, ")));
    let twice = says(&["draw", &input, &input], 1);
    assert!(twice.starts_with(&format!("{input}, line 1: expected \"1 T 0 0 -\" or ")));
    let missing = place("no such night");
    assert!(says(&["draw", &input, &missing], 1).starts_with(&missing));
    assert!(says(&["draw", &missing, &output], 1).starts_with(&missing));
    assert!(says(&["draw", &input], 2).starts_with("usage: second bench | second draw "));
}
