//! Times of the Rust: generation alone, and with what comes before it.

use std::time::{Duration, Instant};

use crate::answer::decode;
use crate::code_generator::CodeGenerator;
use crate::config::Config;
use crate::context::Context;
use crate::message_graph::MessageGraph;

/// The shortest of several times, each over so many rounds.
pub fn shortest(mut round: impl FnMut() -> Duration) -> Duration {
    let mut best = Duration::MAX;
    let start = Instant::now();
    let mut rounds = 0;
    while rounds < 5 || (rounds < 2000 && start.elapsed() < Duration::from_millis(300)) {
        best = best.min(round());
        rounds += 1;
    }
    best
}

/// `CodeGenerator::generate` of one file alone: the set is decoded, the graph and the context are
/// made, and the text's buffer is cleared and has room before the clock starts.
pub fn generation(set: &[u8], options: &[u8], file: usize) -> Duration {
    let mut config = Config::read(options).expect("options");
    let extern_paths = config.extern_paths().expect("extern paths");
    let set = decode(set).expect("a set");
    let graph = MessageGraph::new(set.file.iter());
    let mut context = Context::new(&mut config, graph, extern_paths);
    let mut text = String::with_capacity(1 << 20);
    shortest(|| {
        let descriptor = set.file[file].clone();
        text.clear();
        let start = Instant::now();
        CodeGenerator::generate(&mut context, descriptor, &mut text);
        start.elapsed()
    })
}

/// The same with decoding, the graph and the context: what the text call does too.
pub fn whole(set: &[u8], options: &[u8], file: usize) -> Duration {
    let mut text = String::with_capacity(1 << 20);
    shortest(|| {
        text.clear();
        let start = Instant::now();
        let mut config = Config::read(options).expect("options");
        let extern_paths = config.extern_paths().expect("extern paths");
        let mut set = decode(set).expect("a set");
        let graph = MessageGraph::new(set.file.iter());
        let mut context = Context::new(&mut config, graph, extern_paths);
        let descriptor = set.file.swap_remove(file);
        CodeGenerator::generate(&mut context, descriptor, &mut text);
        start.elapsed()
    })
}
