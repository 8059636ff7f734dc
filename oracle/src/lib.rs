//! The generator of prost-build 0.14.4 as the oracle. Its nine files are compiled unchanged; what
//! they call but don't hold is named in docs/ORACLE.md.

pub mod answer;
mod ast;
pub mod config;
pub mod follow;
pub mod graph;
#[cfg(feature = "compare")]
pub mod library;
pub mod lines;
mod names;
pub mod pack;
pub mod timed;
mod written;

// code_generator, collections, context, extern_paths, ident, message_graph, path
include!(concat!(env!("OUT_DIR"), "/modules.rs"));

// The names that the generator's files expect at the crate's root.
pub(crate) use collections::{BytesType, MapType};
pub use config::Config;

/// Stand-in for prost-build's trait of this name. No service generator is ever set.
pub trait ServiceGenerator {
    fn generate(&mut self, service: ast::Service, buf: &mut String);
    fn finalize(&mut self, buf: &mut String);
}
