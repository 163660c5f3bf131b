//! The commands: a bench, a drawer of its nights, a checker of random runs, a maker of random nights.

use std::fs;
use std::io::{self, Write};
use std::path::Path;
use std::process::ExitCode;

use second::draw::{self, Side};
use second::{bench, checker, nights, random::Random};

const USAGE: &str = "usage: second bench | second draw NIGHT.in NIGHT.out | \
    second check SEED CALLS | second nights SEED COUNT DIR";

fn main() -> ExitCode {
    let arguments: Vec<String> = std::env::args().skip(1).collect();
    let words: Vec<&str> = arguments.iter().map(String::as_str).collect();
    match words[..] {
        ["bench"] => run_bench(),
        ["draw", input, output] => draw_night(Path::new(input), Path::new(output)),
        ["check", seed, calls] => match (seed.parse(), calls.parse()) {
            (Ok(seed), Ok(calls)) => check(seed, calls),
            _ => usage(),
        },
        ["nights", seed, count, folder] => match (seed.parse(), count.parse()) {
            (Ok(seed), Ok(count)) => write_nights(seed, count, Path::new(folder)),
            _ => usage(),
        },
        _ => usage(),
    }
}

fn usage() -> ExitCode {
    eprintln!("{USAGE}");
    ExitCode::from(2)
}

fn run_bench() -> ExitCode {
    // Whoever reads the output may stop reading: no message, only the status.
    match bench::run(io::stdin().lock(), io::stdout().lock()) {
        Ok(()) => ExitCode::SUCCESS,
        Err(_) => ExitCode::FAILURE,
    }
}

fn draw_night(input: &Path, output: &Path) -> ExitCode {
    match picture(input, output) {
        // As with the bench, whoever reads may stop reading.
        Ok(picture) => match io::stdout().write_all(picture.as_bytes()) {
            Ok(()) => ExitCode::SUCCESS,
            Err(_) => ExitCode::FAILURE,
        },
        Err(what) => {
            eprintln!("{what}");
            ExitCode::FAILURE
        }
    }
}

/// The picture of a night, named as its input without folder and ending; else what is wrong.
fn picture(input: &Path, output: &Path) -> Result<String, String> {
    let read = |path: &Path| fs::read(path).map_err(|error| format!("{}: {error}", path.display()));
    let name = input.file_stem().unwrap_or_default().to_string_lossy();
    draw::draw(&name, &read(input)?, &read(output)?).map_err(|misfit| {
        let path = match misfit.side {
            Side::Input => input,
            Side::Output => output,
        };
        format!("{}, line {}: {}", path.display(), misfit.line, misfit.what)
    })
}

fn check(seed: u64, calls: u64) -> ExitCode {
    match checker::check(seed, calls) {
        Ok(summary) => {
            println!("seed {seed} {summary}");
            ExitCode::SUCCESS
        }
        Err(what) => {
            eprintln!("check failed: {what}");
            ExitCode::FAILURE
        }
    }
}

fn write_nights(seed: u64, count: usize, folder: &Path) -> ExitCode {
    let mut random = Random::new(seed);
    let written = fs::create_dir_all(folder).and_then(|()| {
        (1..=count).try_for_each(|n| {
            let night = nights::night(&mut random);
            fs::write(folder.join(format!("random-{n:04}.in")), night)
        })
    });
    match written {
        Ok(()) => ExitCode::SUCCESS,
        Err(error) => {
            eprintln!("{}: {error}", folder.display());
            ExitCode::FAILURE
        }
    }
}
