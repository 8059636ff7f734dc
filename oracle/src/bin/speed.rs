//! Times the text call, and beside it the Rust, on a pack made by `make speed`: each output is a file
//! index and a name; a name that starts with `!` is of a set that the Rust isn't run on. Times are in
//! microseconds.

use std::fs::File;
use std::io::{self, BufReader};
use std::time::{Duration, Instant};

use oracle::answer::TEXT_LIMIT;
use oracle::library::{names, text, Outcome};
use oracle::pack::{read_case, read_magic, Case};
use oracle::timed::{generation, shortest, whole};

/// The text call into a cleared buffer, and its outcome.
fn ours(case: &Case, file: usize) -> (Duration, Outcome) {
    let mut buffer = vec![0; TEXT_LIMIT];
    let mut outcome = (0, 0);
    let time = shortest(|| {
        buffer.fill(0);
        let start = Instant::now();
        outcome = text(&case.set, &case.options, file, &mut buffer);
        start.elapsed()
    });
    (time, outcome)
}

/// The name check.
fn check(case: &Case) -> Duration {
    shortest(|| {
        let start = Instant::now();
        names(&case.set, &case.options);
        start.elapsed()
    })
}

fn micros(time: Duration) -> String {
    let micros = time.as_secs_f64() * 1e6;
    if micros < 10.0 {
        format!("{micros:.1}")
    } else {
        format!("{micros:.0}")
    }
}

/// No set has so many files: the call judges options and set, and stops.
const NO_FILE: usize = usize::MAX;

const BOTH: &str = "| Set | Bytes | Text | Rust, from the set's bytes | Rust, generation alone | Text call | of it judging | Name check | From the bytes | Generation | Whole call to generation |
|---|---|---|---|---|---|---|---|---|---|---|";
const OURS: &str = "| Set | Bytes | Text | Text call | of it judging | Name check |
|---|---|---|---|---|---|";

fn line(case: &Case, shared: &mut bool) {
    let output = std::str::from_utf8(&case.output).expect("a name");
    let (file, name) = output.split_once(' ').expect("file and name");
    let file: usize = file.parse().expect("a file index");
    let (time, outcome) = ours(case, file);
    let given = match outcome {
        (0, length) => format!("{length} bytes"),
        (number, place) => format!("refused {number} {place}"),
    };
    let size = case.set.len();
    let (judging, _) = ours(case, NO_FILE);
    let checking = check(case);
    if let Some(name) = name.strip_prefix('!') {
        if std::mem::replace(shared, false) {
            println!("\n{OURS}");
        }
        println!(
            "| {name} | {size} | {given} | {} | {} | {} |",
            micros(time),
            micros(judging),
            micros(checking)
        );
        return;
    }
    let alone = generation(&case.set, &case.options, file);
    let all = whole(&case.set, &case.options, file);
    let ratio = |a: Duration, b: Duration| a.as_secs_f64() / b.as_secs_f64();
    println!(
        "| {name} | {size} | {given} | {} | {} | {} | {} | {} | {:.1} | {:.1} | {:.1} |",
        micros(all),
        micros(alone),
        micros(time),
        micros(judging),
        micros(checking),
        ratio(time, all),
        ratio(time.saturating_sub(judging), alone),
        ratio(time, alone),
    );
}

fn main() -> io::Result<()> {
    let path = std::env::args().nth(1).expect("a pack");
    let mut from = BufReader::new(File::open(path)?);
    read_magic(&mut from)?;
    println!("{BOTH}");
    let mut shared = true;
    while let Some(case) = read_case(&mut from)? {
        line(&case, &mut shared);
    }
    Ok(())
}
