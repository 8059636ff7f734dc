//! The oracle's commands (docs/ORACLE.md).

use std::io::{self, BufRead, BufReader, BufWriter, Write};
use std::panic::{catch_unwind, set_hook};
use std::process::ExitCode;

use oracle::{answer, follow, graph, lines, pack};

const USAGE: &str = "usage: oracle text SET OPTIONS     the answer to one case
       oracle many < PACK            a pack of cases, each with its answer, to stdout
       oracle names < PACK           a pack of sets, each with yes, no, or - without a text, to stdout
       oracle graph SET OPTIONS      links, Box, Copy and Eq of a set's messages and fields
       oracle ident|unescape|escape|paths|extern|options < LINES";

fn main() -> ExitCode {
    set_hook(Box::new(|_| ()));
    let arguments: Vec<String> = std::env::args().skip(1).collect();
    let arguments: Vec<&str> = arguments.iter().map(String::as_str).collect();
    let done = match arguments[..] {
        ["text", set, options] => text(set, options),
        ["many"] => many(answer::answer),
        ["names"] => many(names),
        ["graph", set, options] => graph_of(set, options),
        ["ident"] => each_line(lines::ident),
        ["unescape"] => each_line(lines::unescape),
        ["escape"] => each_line(lines::escape),
        ["paths"] => each_line(lines::paths),
        ["extern"] => each_line(lines::external),
        ["options"] => each_line(lines::options),
        _ => Err(io::Error::new(io::ErrorKind::InvalidInput, USAGE)),
    };
    match done {
        Ok(()) => ExitCode::SUCCESS,
        Err(error) => {
            eprintln!("{error}");
            ExitCode::FAILURE
        }
    }
}

fn text(set: &str, options: &str) -> io::Result<()> {
    let answer = answer::answer(&std::fs::read(set)?, &std::fs::read(options)?);
    io::stdout().write_all(answer.as_bytes())
}

/// The plain name check's answer.
fn names(set: &[u8], options: &[u8]) -> String {
    let answer = match follow::check(set, options) {
        Some((true, _)) => "yes\n",
        Some((false, _)) => "no\n",
        None => "-\n",
    };
    answer.to_string()
}

fn many(answer: fn(&[u8], &[u8]) -> String) -> io::Result<()> {
    let mut from = BufReader::new(io::stdin().lock());
    let mut to = BufWriter::new(io::stdout().lock());
    pack::read_magic(&mut from)?;
    to.write_all(pack::MAGIC)?;
    while let Some(mut case) = pack::read_case(&mut from)? {
        case.output = answer(&case.set, &case.options).into_bytes();
        pack::write_case(&mut to, &case)?;
    }
    to.flush()
}

fn graph_of(set: &str, options: &str) -> io::Result<()> {
    let (set, options) = (std::fs::read(set)?, std::fs::read(options)?);
    let output = match catch_unwind(|| graph::graph(&set, &options)) {
        Ok(output) => output.unwrap_or("unreadable\n".to_string()),
        Err(_) => "panicked\n".to_string(),
    };
    io::stdout().write_all(output.as_bytes())
}

fn each_line(answer: fn(&str) -> String) -> io::Result<()> {
    let mut to = BufWriter::new(io::stdout().lock());
    for line in BufReader::new(io::stdin().lock()).lines() {
        writeln!(to, "{}", answer(&line?))?;
    }
    to.flush()
}
