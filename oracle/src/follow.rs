//! Follows every written path of a set's texts by its names alone, and sees whether it reaches what
//! the descriptor names; then the walks without Box, Vec and map, and where Box stands.
//! For sets whose name check says yes.

use std::collections::{HashMap, HashSet};

use prost_types::field_descriptor_proto::{Label, Type as Kind};
use prost_types::{DescriptorProto, FieldDescriptorProto, FileDescriptorSet};

use crate::answer::{decode, texts};
use crate::config::Config;
use crate::extern_paths::ExternPaths;
use crate::ident::{to_snake, to_upper_camel};
use crate::names::Modules;
use crate::written::Member;

/// A declaration: its module and its name there.
type Place = (usize, String);

/// What was found in a set's texts.
#[derive(Default)]
pub struct Followed {
    pub reached: usize,
    pub external: usize,
    pub boxes: usize,
    /// Whether the set has groups, with which walks may come back.
    pub groups: bool,
    /// Whether a walk comes back to its struct.
    pub walk_back: bool,
    pub wrong: Vec<String>,
}

struct Follower<'a> {
    modules: &'a Modules,
    extern_paths: &'a ExternPaths,
    /// Whether no option sets a Box.
    plain_boxes: bool,
    declared: HashMap<String, Place>,
    messages: HashMap<String, &'a DescriptorProto>,
    /// Structs and oneofs to those that they hold without Box, Vec and map.
    holds: HashMap<Place, Vec<Place>>,
    found: Followed,
}

/// The name check's answer for a set, and where that is yes what its paths reach; none where a text
/// is missing.
pub fn check(set: &[u8], options: &[u8]) -> Option<(bool, Option<Followed>)> {
    let files = texts(set, Config::plain(options)?).ok()?;
    let modules = Modules::read(&files)?;
    if !modules.names_differ() {
        return Some((false, None));
    }
    let config = Config::plain(options)?;
    let extern_paths = config.extern_paths().ok()?;
    let found = follow(&decode(set)?, &extern_paths, config.sets_box, &modules);
    Some((true, Some(found)))
}

/// Follows the paths of a set. `boxed` tells whether an option sets a Box.
fn follow(
    set: &FileDescriptorSet,
    extern_paths: &ExternPaths,
    boxed: bool,
    modules: &Modules,
) -> Followed {
    let mut follower = Follower {
        modules,
        extern_paths,
        plain_boxes: !boxed,
        declared: HashMap::new(),
        messages: HashMap::new(),
        holds: HashMap::new(),
        found: Followed::default(),
    };
    let mut scopes = Vec::new();
    for file in &set.file {
        let package = file.package();
        let mut scope = (0, String::new());
        for segment in package.split('.').filter(|segment| !segment.is_empty()) {
            let inner = follower
                .inner(scope.0, segment)
                .expect("a package's module");
            scope = (inner, format!("{}.{segment}", scope.1));
        }
        for message in &file.message_type {
            follower.declare(&scope, message);
        }
        for declared in &file.enum_type {
            follower.declare_type(&scope, declared.name());
        }
        scopes.push(scope);
    }
    for (file, scope) in set.file.iter().zip(&scopes) {
        for message in &file.message_type {
            follower.see_message(scope, message);
        }
    }
    follower.found.walk_back = follower.walks_back();
    follower.found
}

fn is_entry(message: &DescriptorProto) -> bool {
    message
        .options
        .as_ref()
        .is_some_and(|options| options.map_entry())
}

fn in_oneof(field: &FieldDescriptorProto) -> Option<i32> {
    field.oneof_index.filter(|_| !field.proto3_optional())
}

impl<'a> Follower<'a> {
    /// The module in another that a protobuf name gives.
    fn inner(&self, module: usize, name: &str) -> Option<usize> {
        self.module_called(module, &to_snake(name))
    }

    fn module_called(&self, module: usize, name: &str) -> Option<usize> {
        let mut called = self.modules.all[module]
            .modules
            .iter()
            .copied()
            .filter(|at| self.modules.all[*at].name == name);
        let first = called.next()?;
        called.next().is_none().then_some(first)
    }

    fn taken(&self, full_name: &str) -> bool {
        self.extern_paths.resolve_ident(full_name).is_some()
    }

    // What is written for each full name.

    fn declare_type(&mut self, scope: &(usize, String), name: &str) {
        let full_name = format!("{}.{name}", scope.1);
        if !self.taken(&full_name) {
            self.declared
                .insert(full_name, (scope.0, to_upper_camel(name)));
        }
    }

    fn declare(&mut self, scope: &(usize, String), message: &'a DescriptorProto) {
        let full_name = format!("{}.{}", scope.1, message.name());
        self.messages.insert(full_name.clone(), message);
        let group = |field: &FieldDescriptorProto| field.r#type() == Kind::Group;
        self.found.groups |= message.field.iter().any(group);
        if !is_entry(message) {
            self.declare_type(scope, message.name());
        }
        // Where nothing is written, no module is either, and all below is taken too.
        let inner = self.inner(scope.0, message.name()).unwrap_or(0);
        let scope = (inner, full_name);
        for nested in &message.nested_type {
            self.declare(&scope, nested);
        }
        for declared in &message.enum_type {
            self.declare_type(&scope, declared.name());
        }
    }

    // Messages, their fields and variants.

    fn see_message(&mut self, scope: &(usize, String), message: &'a DescriptorProto) {
        let full_name = format!("{}.{}", scope.1, message.name());
        if is_entry(message) || self.taken(&full_name) {
            return;
        }
        let plain = message
            .field
            .iter()
            .filter(|field| in_oneof(field).is_none());
        let mut wanted: Vec<Wanted> = plain.map(|field| self.wanted(&full_name, field)).collect();
        let inner = self.inner(scope.0, message.name());
        for (at, oneof) in message.oneof_decl.iter().enumerate() {
            let its = |field: &&FieldDescriptorProto| in_oneof(field) == Some(at as i32);
            let fields: Vec<_> = message.field.iter().filter(its).collect();
            if fields.is_empty() {
                continue;
            }
            let place = (
                inner.expect("the message's module"),
                self.oneof_name(message, oneof.name()),
            );
            let variants: Vec<Wanted> = fields
                .into_iter()
                .map(|field| self.wanted(&full_name, field))
                .collect();
            self.see_members(&full_name, &place, &variants);
            wanted.push(Wanted {
                target: Target::Declared(place),
                paths: 2,
                boxed: false,
            });
        }
        let place = (scope.0, to_upper_camel(message.name()));
        self.see_members(&full_name, &place, &wanted);
        if let Some(inner) = inner {
            let scope = (inner, full_name);
            for nested in &message.nested_type {
                self.see_message(&scope, nested);
            }
        }
    }

    fn oneof_name(&self, message: &DescriptorProto, name: &str) -> String {
        let camel = to_upper_camel(name);
        let nested = message.nested_type.iter().map(|nested| nested.name());
        let enums = message.enum_type.iter().map(|declared| declared.name());
        if nested
            .chain(enums)
            .any(|other| to_upper_camel(other) == camel)
        {
            return camel + "OneOf";
        }
        camel
    }

    /// What the descriptor wants of a field.
    fn wanted(&mut self, owner: &str, field: &FieldDescriptorProto) -> Wanted {
        let entry = self
            .messages
            .get(field.type_name())
            .filter(|named| is_entry(named));
        let value = entry.map(|entry| entry.field[1].clone());
        let boxed = value.is_none()
            && field.r#type() == Kind::Message
            && field.label() != Label::Repeated
            && self.leads(field.type_name(), owner);
        let typed = value.as_ref().unwrap_or(field);
        let target = match typed.r#type() {
            Kind::Message | Kind::Group | Kind::Enum => self
                .declared
                .get(typed.type_name())
                .cloned()
                .map_or(Target::External, Target::Declared),
            _ => Target::Scalar,
        };
        Wanted {
            target,
            paths: 1,
            boxed,
        }
    }

    /// Does a message lead to another by links?
    fn leads(&self, from: &str, to: &str) -> bool {
        let (mut seen, mut left) = (HashSet::from([from.to_string()]), vec![from.to_string()]);
        while let Some(name) = left.pop() {
            if name == to {
                return true;
            }
            let fields = self.messages.get(&name).map(|message| &message.field[..]);
            for field in fields.unwrap_or_default() {
                let link = field.r#type() == Kind::Message && field.label() != Label::Repeated;
                if link && seen.insert(field.type_name().to_string()) {
                    left.push(field.type_name().to_string());
                }
            }
        }
        false
    }

    fn see_members(&mut self, owner: &str, place: &Place, wanted: &[Wanted]) {
        let modules = self.modules;
        let types = &modules.all[place.0].types;
        let Some(found) = types.iter().find(|each| each.name == place.1) else {
            return self.wrong(owner, "isn't written");
        };
        if found.members.len() != wanted.len() {
            return self.wrong(owner, "has another count of members");
        }
        for (member, wanted) in found.members.iter().zip(wanted) {
            self.see_member(owner, place, member, wanted);
        }
    }

    fn see_member(&mut self, owner: &str, place: &Place, member: &Member, wanted: &Wanted) {
        let around = around(&member.ty);
        if self.plain_boxes && around.boxed != wanted.boxed && !self.found.groups {
            self.wrong(owner, &format!("{}: Box is {}", member.name, around.boxed));
        }
        self.found.boxes += usize::from(around.boxed);
        let in_tag = tag_path(&member.tag);
        let paths: Vec<&str> = in_tag.into_iter().chain(around.path).collect();
        match &wanted.target {
            Target::Scalar if paths.is_empty() => (),
            Target::External if paths.iter().all(|path| path.starts_with("::opaque")) => {
                self.found.external += 1;
            }
            Target::Declared(target) if paths.len() == wanted.paths => {
                for path in &paths {
                    if self.reached(place.0, path).as_ref() == Some(target) {
                        self.found.reached += 1;
                    } else {
                        self.wrong(owner, &format!("{}: {path} goes astray", member.name));
                    }
                }
                if around.held() {
                    self.holds
                        .entry(place.clone())
                        .or_default()
                        .push(target.clone());
                }
            }
            _ => self.wrong(owner, &format!("{}: paths {paths:?}", member.name)),
        }
    }

    /// The one declaration that a path reaches from a module.
    fn reached(&self, from: usize, path: &str) -> Option<Place> {
        let (before, last) = match path.rsplit_once("::") {
            Some((before, last)) => (Some(before), last),
            None => (None, path),
        };
        let mut at = from;
        for name in before.into_iter().flat_map(|names| names.split("::")) {
            at = match name {
                "super" => self.modules.all[at].parent?,
                name => self.module_called(at, name)?,
            };
        }
        let types = self.modules.all[at].types.iter();
        let count = types.filter(|found| found.name == last).count();
        (count == 1).then(|| (at, last.to_string()))
    }

    /// Does a walk come back to where it started?
    fn walks_back(&self) -> bool {
        self.holds.keys().any(|start| {
            let (mut seen, mut left) = (HashSet::new(), vec![start]);
            while let Some(place) = left.pop() {
                for next in self.holds.get(place).into_iter().flatten() {
                    if next == start {
                        return true;
                    }
                    if seen.insert(next) {
                        left.push(next);
                    }
                }
            }
            false
        })
    }

    fn wrong(&mut self, owner: &str, what: &str) {
        self.found.wrong.push(format!("{owner} {what}"));
    }
}

enum Target {
    Scalar,
    External,
    Declared(Place),
}

/// What the descriptor says of a member: where its paths go, how many it has, whether it is boxed.
struct Wanted {
    target: Target,
    paths: usize,
    boxed: bool,
}

/// A type with what the text puts around it.
#[derive(Default)]
struct Around<'a> {
    boxed: bool,
    repeated: bool,
    map: bool,
    path: Option<&'a str>,
}

impl Around<'_> {
    fn held(&self) -> bool {
        self.path.is_some() && !self.boxed && !self.repeated && !self.map
    }
}

const SCALARS: [&str; 11] = [
    "f32",
    "f64",
    "u32",
    "u64",
    "i32",
    "i64",
    "bool",
    "u8",
    "()",
    "::prost::alloc::string::String",
    "::prost::bytes::Bytes",
];

fn around(ty: &str) -> Around<'_> {
    let mut found = Around::default();
    let mut rest = ty;
    let wrapped = |rest: &'_ str, name: &str| -> Option<usize> {
        rest.strip_suffix('>')?.strip_prefix(name)?;
        Some(name.len())
    };
    loop {
        if let Some(at) = wrapped(rest, "::core::option::Option<") {
            rest = &rest[at..rest.len() - 1];
        } else if let Some(at) = wrapped(rest, "::prost::alloc::vec::Vec<") {
            found.repeated = true;
            rest = &rest[at..rest.len() - 1];
        } else if let Some(at) = wrapped(rest, "::prost::alloc::boxed::Box<") {
            found.boxed = true;
            rest = &rest[at..rest.len() - 1];
        } else if let Some(at) = wrapped(rest, "::std::collections::HashMap<")
            .or_else(|| wrapped(rest, "::prost::alloc::collections::BTreeMap<"))
        {
            found.map = true;
            let both = &rest[at..rest.len() - 1];
            rest = both.split_once(", ").map_or(both, |(_, value)| value);
        } else {
            break;
        }
    }
    found.path = (!SCALARS.contains(&rest) && !rest.is_empty()).then_some(rest);
    found
}

/// The path in an `enumeration` or `oneof` tag, a map's too.
fn tag_path(tag: &str) -> Option<&str> {
    let tag = tag.strip_prefix("#[prost(")?;
    let quoted = |name: &str| tag.strip_prefix(name)?.split('"').next();
    let single = quoted("enumeration = \"").or_else(|| quoted("oneof = \""));
    single.or_else(|| {
        let map = quoted("map = \"").or_else(|| quoted("btree_map = \""))?;
        let (_, value) = map.split_once(", ")?;
        value.strip_prefix("enumeration(")?.strip_suffix(')')
    })
}
