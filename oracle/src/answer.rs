//! The answer to one case: what document 01's program prints for an accepted set.

use std::panic::{catch_unwind, AssertUnwindSafe};

use prost::Message;
use prost_types::FileDescriptorSet;

use crate::code_generator::CodeGenerator;
use crate::config::Config;
use crate::context::Context;
use crate::message_graph::MessageGraph;

/// Decodes a set and takes source info and services out of it.
pub fn decode(set: &[u8]) -> Option<FileDescriptorSet> {
    let mut set = FileDescriptorSet::decode(set).ok()?;
    for file in &mut set.file {
        file.source_code_info = None;
        file.service.clear();
    }
    Some(set)
}

/// Document 01's longest text.
pub const TEXT_LIMIT: usize = 65_536;

/// A file's package and text; no text where the Rust panics on it.
pub struct Written {
    pub package: Option<String>,
    pub text: Option<String>,
}

/// Why a set has no texts.
pub enum Failed {
    Options,
    Extern,
    Undecodable,
    Panicked,
}

/// The texts of all files of a set.
pub fn texts(set: &[u8], mut config: Config) -> Result<Vec<Written>, Failed> {
    let extern_paths = config.extern_paths().map_err(|_| Failed::Extern)?;
    let set = decode(set).ok_or(Failed::Undecodable)?;
    let graph =
        catch_unwind(|| MessageGraph::new(set.file.iter())).map_err(|_| Failed::Panicked)?;
    let mut context = Context::new(&mut config, graph, extern_paths);
    let mut found = Vec::new();
    for file in set.file {
        let package = file.package.clone();
        let mut text = String::new();
        let generate = || CodeGenerator::generate(&mut context, file, &mut text);
        let done = catch_unwind(AssertUnwindSafe(generate));
        found.push(Written {
            package,
            text: done.is_ok().then_some(text),
        });
    }
    Ok(found)
}

/// `//@ ` line and text of each file. Where that ends early, the last line says why: `undecodable`,
/// `options` (layout), `extern` (extern paths), and in place of a file's `//@ ` line `panicked`, or
/// `refused 10 LENGTH` for a text that is too long.
pub fn answer(set: &[u8], options: &[u8]) -> String {
    let found = match Config::read(options).ok_or(Failed::Options) {
        Ok(config) => texts(set, config),
        Err(failed) => Err(failed),
    };
    let mut output = String::new();
    match found {
        Ok(files) => print(files, &mut output),
        Err(Failed::Options) => output.push_str("options\n"),
        Err(Failed::Extern) => output.push_str("extern\n"),
        Err(Failed::Undecodable) => output.push_str("undecodable\n"),
        Err(Failed::Panicked) => output.push_str("panicked\n"),
    }
    output
}

fn print(files: Vec<Written>, output: &mut String) {
    for file in files {
        let package = file.package.as_deref().unwrap_or("-");
        match file.text {
            None => return output.push_str("panicked\n"),
            Some(text) if text.len() > TEXT_LIMIT => {
                return output.push_str(&format!("refused 10 {}\n", text.len()));
            }
            Some(text) => output.push_str(&format!("//@ {package}\n{text}")),
        }
    }
}
