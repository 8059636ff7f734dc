//! Runs the text call and the oracle on packs made by `make --told` and compares number, place,
//! length, text, and the bytes that may not change. `convert` runs the convert call.

use std::collections::BTreeMap;
use std::fs::File;
use std::io::{self, BufReader};
use std::panic::set_hook;
use std::process::ExitCode;

use oracle::answer::{texts, Failed, Written, TEXT_LIMIT};
use oracle::config::Config;
use oracle::follow::check;
use oracle::library::{convert, guarded, names, Outcome};
use oracle::pack::{read_case, read_magic, Case};

/// What document 01 refuses: the whole set, or files of it.
enum Told {
    Set(Outcome),
    Files(Vec<Option<Outcome>>),
}

fn told(output: &[u8]) -> Told {
    let text = std::str::from_utf8(output).expect("a pack of `make --told`");
    let outcome = |rest: &str| {
        let (number, place) = rest.split_once(' ').expect("number and place");
        (number.parse().unwrap(), place.parse().unwrap())
    };
    if let Some(rest) = text.strip_prefix("set ") {
        return Told::Set(outcome(rest.trim_end()));
    }
    let own = |line: &str| line.strip_prefix("file ").map(outcome);
    Told::Files(text.lines().map(own).collect())
}

/// What was found, by name, and the first findings that are none of the expected ones.
#[derive(Default)]
struct Counts {
    cases: usize,
    calls: usize,
    found: BTreeMap<String, usize>,
    wrong: Vec<String>,
    wrong_count: usize,
}

impl Counts {
    fn add(&mut self, name: &str, count: usize) {
        *self.found.entry(name.to_string()).or_default() += count;
    }

    fn wrong(&mut self, what: String) {
        self.wrong_count += 1;
        if self.wrong.len() < 5 {
            self.wrong.push(format!("case {}: {what}", self.cases - 1));
        }
    }

    /// One call with a buffer of this size.
    fn call(
        &mut self,
        case: &Case,
        file: usize,
        size: usize,
        wanted: Outcome,
        text: &[u8],
    ) -> bool {
        self.calls += 1;
        let (outcome, written) = guarded(&case.set, &case.options, file, size);
        if outcome != wanted {
            self.wrong(format!(
                "file {file}, buffer {size}: {outcome:?}, not {wanted:?}"
            ));
            return false;
        }
        let Some(written) = written else {
            self.wrong(format!("file {file}, buffer {size}: other bytes changed"));
            return false;
        };
        if wanted.0 == 0 && written != text {
            let at = written.iter().zip(text).position(|(a, b)| a != b);
            self.wrong(format!(
                "file {file}, buffer {size}: texts differ at {at:?}"
            ));
            return false;
        }
        true
    }

    /// One of the sizes, another for each case.
    fn one(&self, sizes: &[usize]) -> usize {
        sizes[self.cases % sizes.len()]
    }

    /// Calls that are refused, whatever the buffer's size.
    fn refused(&mut self, case: &Case, file: usize, wanted: Outcome) -> bool {
        let other = self.one(&[0, 1, TEXT_LIMIT + 1000]);
        [TEXT_LIMIT, other]
            .into_iter()
            .all(|size| self.call(case, file, size, wanted, b""))
    }

    /// Calls that give a text, or 10: a buffer with room for any text, one that the text just fills,
    /// one a byte shorter, and an empty, half, larger, or much larger one.
    fn written(&mut self, case: &Case, file: usize, text: &[u8]) -> bool {
        let length = text.len();
        let other = self.one(&[0, length / 2, length + 1, TEXT_LIMIT + 1000]);
        let sizes = [TEXT_LIMIT, length, length.saturating_sub(1), other];
        sizes.into_iter().all(|size| {
            let fits = length <= size && length <= TEXT_LIMIT;
            let number = if fits { 0 } else { 10 };
            self.call(case, file, size, (number, length), text)
        })
    }

    fn compare(&mut self, case: &Case) {
        self.cases += 1;
        match told(&case.output) {
            Told::Set(wanted) => self.compare_refused(case, wanted),
            Told::Files(own) => self.compare_files(case, &own),
        }
    }

    fn compare_refused(&mut self, case: &Case, wanted: Outcome) {
        self.names(case, wanted);
        let mut equal = self.refused(case, 0, wanted);
        // Refusal 5 comes before 6 and 7, and after the others.
        let last = match wanted.0 {
            6 | 7 => (5, file_count(&case.set)),
            _ => wanted,
        };
        equal &= self.call(case, usize::MAX, 100, last, b"");
        if equal {
            self.add(&format!("refused {}", wanted.0), 1);
        }
    }

    fn compare_files(&mut self, case: &Case, own: &[Option<Outcome>]) {
        let count = own.len();
        let past = if self.cases % 2 == 0 {
            count
        } else {
            usize::MAX
        };
        self.call(case, past, 100, (5, count), b"");
        self.compare_names(case);
        let config = Config::read(&case.options).expect("accepted options");
        match texts(&case.set, config) {
            Ok(files) => {
                for (at, (file, own)) in files.iter().zip(own).enumerate() {
                    self.compare_file(case, at, file, *own);
                }
            }
            Err(Failed::Undecodable) => {
                self.add("undecodable sets, not compared", 1);
                for (at, own) in own.iter().enumerate() {
                    match own {
                        Some(own) => drop(self.refused(case, at, *own)),
                        None => self.undecodable(case, at),
                    }
                }
            }
            Err(_) => self.wrong("accepted, but the Rust refuses the options or the set".into()),
        }
    }

    /// The name check's answer.
    fn names(&mut self, case: &Case, wanted: Outcome) {
        if let Some(found) = names(&case.set, &case.options) {
            if found == wanted {
                self.add("names: equal answers of the name check", 1);
            } else {
                self.wrong(format!("name check: {found:?}, not {wanted:?}"));
            }
        }
    }

    /// The name check, and where it says yes the written paths, walks and boxes.
    fn compare_names(&mut self, case: &Case) {
        let (yes, followed) = match check(&case.set, &case.options) {
            None => return self.add("names: not compared, a text is missing", 1),
            Some(found) => found,
        };
        self.names(case, (0, usize::from(yes)));
        self.add(if yes { "names: yes" } else { "names: no" }, 1);
        let Some(found) = followed else { return };
        self.add("paths: reach what the descriptor names", found.reached);
        self.add("paths: extern", found.external);
        self.add("Box: all and no others", found.boxes);
        if found.walk_back && found.groups {
            self.add("walks: come back, with groups", 1);
        } else if found.walk_back {
            self.wrong("a walk comes back".into());
        } else {
            self.add("walks: all end", 1);
        }
        for what in found.wrong {
            self.wrong(what);
        }
    }

    /// A text that has nothing to be compared with: it is written, and the same into a full buffer.
    fn undecodable(&mut self, case: &Case, file: usize) {
        let (outcome, written) = guarded(&case.set, &case.options, file, TEXT_LIMIT);
        match (outcome.0, written) {
            (0, Some(text)) => drop(self.written(case, file, &text)),
            (10, Some(_)) => (),
            _ => self.wrong(format!("file {file}: {outcome:?} for an undecodable set")),
        }
    }

    fn compare_file(&mut self, case: &Case, at: usize, file: &Written, own: Option<Outcome>) {
        let (equal, name) = match (&file.text, own) {
            (Some(text), None) if text.len() > TEXT_LIMIT => {
                (self.written(case, at, text.as_bytes()), "refused 10")
            }
            (Some(text), None) => (self.written(case, at, text.as_bytes()), "equal texts"),
            (None, Some((8, _))) => (self.refused(case, at, own.unwrap()), "refused 8"),
            (None, Some(own)) => (self.refused(case, at, own), "refused 9"),
            (Some(_), Some((9, 0))) if escapes_differ(&case.set) => {
                let name = "documented differences (9, but the Rust writes)";
                (self.refused(case, at, (9, 0)), name)
            }
            (None, None) => return self.wrong(format!("file {at}: the Rust panics")),
            (Some(_), Some(own)) => {
                return self.wrong(format!("file {at}: told {own:?}, but the Rust writes"))
            }
        };
        if equal {
            self.add(name, 1);
        }
    }

    fn print(&self, name: &str) {
        println!("{name}: {} cases, {} calls", self.cases, self.calls);
        for (found, count) in &self.found {
            println!("  {found}: {count}");
        }
        println!("  anything else: {}", self.wrong_count);
        for what in &self.wrong {
            println!("    {what}");
        }
    }
}

/// The files of a set that is read without refusal 3.
fn file_count(set: &[u8]) -> usize {
    let (mut at, mut count) = (0, 0);
    let varint = |at: &mut usize| {
        let (mut value, mut shift) = (0u64, 0);
        loop {
            let byte = set[*at];
            *at += 1;
            value |= u64::from(byte & 0x7F) << shift;
            shift += 7;
            if byte < 0x80 {
                return value;
            }
        }
    };
    while at < set.len() {
        let key = varint(&mut at);
        match key & 7 {
            0 => drop(varint(&mut at)),
            1 => at += 8,
            5 => at += 4,
            _ => at += varint(&mut at) as usize,
        }
        count += usize::from(key >> 3 == 1);
    }
    count
}

/// Does a default hold an escape that document 01 refuses and the Rust reads: `\x+5`, `\400`?
fn escapes_differ(set: &[u8]) -> bool {
    let octal = |byte: u8| (b'0'..=b'7').contains(&byte);
    set.windows(4).any(|four| match four {
        [b'\\', b'x' | b'X', b'+', digit] => digit.is_ascii_hexdigit(),
        [b'\\', b'4'..=b'7', second, third] => octal(*second) && octal(*third),
        _ => false,
    })
}

/// All texts of up to so many letters out of these.
fn over(letters: &[u8], most: usize) -> Vec<Vec<u8>> {
    let mut found = vec![Vec::new()];
    let mut from = 0;
    for _ in 0..most {
        let end = found.len();
        for at in from..end {
            for letter in letters {
                let mut longer = found[at].clone();
                longer.push(*letter);
                found.push(longer);
            }
        }
        from = end;
    }
    found
}

/// The convert call on many names, beside ident.rs.
fn run_convert() -> bool {
    let mut names = over(b"aA1_", 9);
    names.extend(over(b"aZ0_ -.$\xC3\xA9\0", 4));
    let lines = include_str!("../../recorded/ident.txt").lines();
    names.extend(lines.filter_map(|line| Some(line.split(' ').next()?.as_bytes().to_vec())));
    for length in 60..70 {
        names.extend([b"a", b"A"].map(|letter| letter.repeat(length)));
        names.push(b"AAa".iter().copied().cycle().take(length).collect());
    }
    let (mut equal, mut refused, mut wrong) = (0, 0, Vec::new());
    for name in names {
        let wanted = is_name(&name).map(|name| oracle::lines::ident(name));
        let both = convert(&name).map(|(snake, camel)| {
            let text = |bytes| String::from_utf8(bytes).expect("a name");
            format!("{}\t{}", text(snake), text(camel))
        });
        match (both == wanted, both.is_some()) {
            (true, true) => equal += 1,
            (true, false) => refused += 1,
            _ => wrong.push(name),
        }
    }
    println!("convert: {} names", equal + refused + wrong.len());
    println!(
        "  equal names: {equal}\n  refused 6: {refused}\n  anything else: {}",
        wrong.len()
    );
    for name in wrong.iter().take(5) {
        println!("    {:?}", String::from_utf8_lossy(name));
    }
    wrong.is_empty()
}

/// What convert takes: an identifier of at most 64 bytes with a letter or digit.
fn is_name(name: &[u8]) -> Option<&str> {
    let word = |byte: &u8| byte.is_ascii_alphanumeric() || *byte == b'_';
    let good = name.iter().all(word)
        && name.iter().any(u8::is_ascii_alphanumeric)
        && !name[0].is_ascii_digit()
        && name.len() <= 64;
    std::str::from_utf8(name).ok().filter(|_| good)
}

fn run(path: &str) -> io::Result<bool> {
    if path == "convert" {
        return Ok(run_convert());
    }
    let mut from = BufReader::new(File::open(path)?);
    read_magic(&mut from)?;
    let mut counts = Counts::default();
    while let Some(case) = read_case(&mut from)? {
        counts.compare(&case);
    }
    counts.print(path);
    Ok(counts.wrong_count == 0)
}

fn main() -> ExitCode {
    set_hook(Box::new(|_| ()));
    let mut good = true;
    for path in std::env::args().skip(1) {
        match run(&path) {
            Ok(equal) => good &= equal,
            Err(error) => {
                eprintln!("{path}: {error}");
                good = false;
            }
        }
    }
    if good {
        ExitCode::SUCCESS
    } else {
        ExitCode::FAILURE
    }
}
