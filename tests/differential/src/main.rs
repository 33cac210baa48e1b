//! Holds libdialmoth.a to document 01. The last line is 'N passed, M failed'.

use differential::library::{Library, Reference};
use differential::model::Model;
use differential::suite::{run, Options};
use std::process::ExitCode;
use std::time::{Duration, Instant};

const USAGE: &str = "\
differential [--seed S] [--seconds T] [--only PART] [--against archive|model|reference]

  --seed S      random numbers from S; 1 where nothing is said
  --seconds T   let the random groups take T seconds in all, in place of a fixed number of rounds
  --only PART   only tests whose name has this part
  --against X   what is tested: libdialmoth.a (as by default), or to try the tests themselves a
                second, slow implementation of the paper, or the plain Rust one against itself";

fn arguments() -> Result<(Options, String), String> {
    let mut options = Options { seed: 1, time: None, only: String::new() };
    let mut against = String::from("archive");
    let mut arguments = std::env::args().skip(1);
    while let Some(option) = arguments.next() {
        let mut value = || arguments.next().ok_or(format!("{option} wants a value"));
        let number = |text: String| text.parse::<u64>().map_err(|_| format!("{text}: no number"));
        match option.as_str() {
            "--seed" => options.seed = number(value()?)?,
            "--seconds" => options.time = Some(Duration::from_secs(number(value()?)?)),
            "--only" => options.only = value()?,
            "--against" => against = value()?,
            _ => return Err(USAGE.into()),
        }
    }
    Ok((options, against))
}

#[cfg(linked)]
fn archive() -> Option<&'static dyn Library> {
    Some(&differential::library::Linked)
}

#[cfg(not(linked))]
fn archive() -> Option<&'static dyn Library> {
    None
}

fn main() -> ExitCode {
    let (options, against) = match arguments() {
        Ok(arguments) => arguments,
        Err(text) => {
            eprintln!("{text}");
            return ExitCode::from(2);
        }
    };
    let library: Option<&dyn Library> = match against.as_str() {
        "archive" => archive(),
        "model" => Some(&Model { fault: None }),
        "reference" => Some(&Reference),
        _ => None,
    };
    // Without the archive nothing was tested, so nothing has passed.
    let Some(library) = library else {
        println!("{against}: not there; `./build-archive` makes the archive");
        println!("0 passed, 1 failed");
        return ExitCode::FAILURE;
    };
    let start = Instant::now();
    let totals = run(library, &options);
    let seconds = start.elapsed().as_secs_f64();
    println!(
        "{} comparisons, {} appends accepted, {} moments of runs, {seconds:.1} s",
        totals.comparisons, totals.accepted, totals.moments
    );
    println!("{} passed, {} failed", totals.passed, totals.failed);
    if totals.failed == 0 && totals.passed > 0 {
        ExitCode::SUCCESS
    } else {
        ExitCode::FAILURE
    }
}
