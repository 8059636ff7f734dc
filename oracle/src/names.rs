//! The name check of document 01, plainly: whether names differ within each module, each struct
//! and each oneof. The names are read out of the Rust's texts.

use std::collections::HashSet;

use crate::answer::Written;
use crate::ident::to_snake;
use crate::written::{items, Item, Type};

/// A module: the root, a package segment's or a message's.
#[derive(Default)]
pub struct Module {
    pub name: String,
    /// A package's last segment: such modules are told apart by it, and not by their names.
    segment: Option<String>,
    pub parent: Option<usize>,
    pub types: Vec<Type>,
    pub modules: Vec<usize>,
}

/// All modules of a set, the root first.
pub struct Modules {
    pub all: Vec<Module>,
}

impl Modules {
    /// The modules that the files' packages and texts open; none where a text is missing or can't
    /// be read.
    pub fn read(files: &[Written]) -> Option<Modules> {
        let mut modules = Modules {
            all: vec![Module::default()],
        };
        for file in files {
            let mut at = 0;
            for segment in file.package.iter().flat_map(|package| package.split('.')) {
                at = modules.package(at, segment);
            }
            modules.add(at, items(file.text.as_ref()?)?);
        }
        Some(modules)
    }

    fn package(&mut self, parent: usize, segment: &str) -> usize {
        let same = |at: &usize| self.all[*at].segment.as_deref() == Some(segment);
        match self.all[parent].modules.iter().copied().find(same) {
            Some(at) => at,
            None => self.open(parent, to_snake(segment), Some(segment.to_string())),
        }
    }

    fn open(&mut self, parent: usize, name: String, segment: Option<String>) -> usize {
        let at = self.all.len();
        self.all.push(Module {
            name,
            segment,
            parent: Some(parent),
            ..Module::default()
        });
        self.all[parent].modules.push(at);
        at
    }

    fn add(&mut self, at: usize, items: Vec<Item>) {
        for item in items {
            match item {
                Item::Type(found) => self.all[at].types.push(found),
                Item::Module(name, inside) => {
                    let inner = self.open(at, name, None);
                    self.add(inner, inside);
                }
            }
        }
    }

    /// The name check's answer.
    pub fn names_differ(&self) -> bool {
        self.all.iter().all(|module| {
            let types = module.types.iter().map(|found| &found.name);
            let inner = module.modules.iter().map(|at| &self.all[*at].name);
            differ(types.chain(inner))
                && module
                    .types
                    .iter()
                    .all(|found| differ(found.members.iter().map(|member| &member.name)))
        })
    }
}

fn differ<'a>(names: impl Iterator<Item = &'a String>) -> bool {
    let mut seen = HashSet::new();
    names.into_iter().all(|name| seen.insert(name))
}
