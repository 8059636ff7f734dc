//! The smaller answers: one line in, one line out.

use std::panic::catch_unwind;

use crate::config::Config;
use crate::extern_paths::ExternPaths;
use crate::ident::{strip_enum_prefix, to_snake, to_upper_camel};
use crate::path::PathMap;

include!(concat!(env!("OUT_DIR"), "/c_escaping_module.rs"));

fn hex(bytes: &[u8]) -> String {
    bytes.iter().map(|b| format!("{b:02x}")).collect()
}

fn unhex(line: &str) -> Option<Vec<u8>> {
    if !line.is_ascii() || line.len() % 2 != 0 {
        return None;
    }
    (0..line.len())
        .step_by(2)
        .map(|at| u8::from_str_radix(&line[at..at + 2], 16).ok())
        .collect()
}

/// A name: its snake and camel names. `prefix<TAB>name`: what `strip_enum_prefix` leaves of it.
pub fn ident(line: &str) -> String {
    match line.split_once('\t') {
        Some((prefix, name)) => strip_enum_prefix(prefix, name),
        None => format!("{}\t{}", to_snake(line), to_upper_camel(line)),
    }
}

/// Hex of a bytes default: hex of its bytes, or `panicked`.
pub fn unescape(line: &str) -> String {
    let Some(text) = unhex(line).and_then(|bytes| String::from_utf8(bytes).ok()) else {
        return "not UTF-8".to_string();
    };
    match catch_unwind(|| c_escaping::unescape_c_escape_string(&text)) {
        Ok(bytes) => hex(&bytes),
        Err(_) => "panicked".to_string(),
    }
}

/// Hex of a UTF-8 text: its `str::escape_default`.
/// `b` and hex of bytes: these as code_generator.rs writes the bytes of a default.
pub fn escape(line: &str) -> String {
    if let Some(bytes) = line
        .strip_prefix('b')
        .filter(|rest| rest.len() % 2 == 0)
        .and_then(unhex)
    {
        return bytes
            .into_iter()
            .flat_map(std::ascii::escape_default)
            .flat_map(|c| (c as char).escape_default())
            .collect();
    }
    match unhex(line).and_then(|bytes| String::from_utf8(bytes).ok()) {
        Some(text) => text.escape_default().to_string(),
        None => "not UTF-8".to_string(),
    }
}

/// `path row row ..`: the index of the best row, then those of all matching rows (`-` for none).
pub fn paths(line: &str) -> String {
    let mut words = line.split(' ');
    let path = words.next().unwrap_or("");
    let mut map = PathMap::default();
    for (index, row) in words.enumerate() {
        map.insert(row.to_string(), index);
    }
    let best = map
        .get_first(path)
        .map_or("-".to_string(), |index| index.to_string());
    let all: Vec<String> = map.get(path).map(|index| index.to_string()).collect();
    format!(
        "{best} {}",
        if all.is_empty() {
            "-".to_string()
        } else {
            all.join(",")
        }
    )
}

/// `identifier<TAB>prost path<TAB>prost types' path (or `-`)<TAB>path=value<TAB>..`: what the
/// identifier resolves to, `-` for nothing, `refused` if the extern paths are.
pub fn external(line: &str) -> String {
    let mut parts = line.split('\t');
    let identifier = parts.next().unwrap_or("");
    let prost = parts.next().unwrap_or("::prost");
    let types = parts.next().unwrap_or("-");
    let rows: Vec<(String, String)> = parts
        .filter_map(|row| row.split_once('='))
        .map(|(path, value)| (path.to_string(), value.to_string()))
        .collect();
    let Ok(paths) = ExternPaths::new(&rows, prost, types, types != "-") else {
        return "refused".to_string();
    };
    match catch_unwind(|| paths.resolve_ident(identifier)) {
        Ok(found) => found.unwrap_or("-".to_string()),
        Err(_) => "panicked".to_string(),
    }
}

/// Whether an options file can be read and its extern paths are taken.
pub fn options(line: &str) -> String {
    let config = unhex(line).and_then(|bytes| Config::read(&bytes));
    match config.map(|config| config.extern_paths().is_ok()) {
        Some(true) => "accepted".to_string(),
        Some(false) => "extern".to_string(),
        None => "options".to_string(),
    }
}
