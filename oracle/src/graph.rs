//! What message_graph.rs and context.rs say of each message and field of a set.

use std::fmt::Write;

use prost_types::DescriptorProto;

use crate::answer::decode;
use crate::config::Config;
use crate::context::Context;
use crate::message_graph::MessageGraph;

/// One line for each message, `message NAME copy=B eq=B`, and for each of its fields,
/// `field NAME leads=B boxed=B copy=B eq=B`; `leads` is whether the field's type leads to the
/// message.
pub fn graph(set: &[u8], options: &[u8]) -> Option<String> {
    let set = decode(set)?;
    let mut config = Config::read(options)?;
    let extern_paths = config.extern_paths().ok()?;
    let links = MessageGraph::new(set.file.iter());
    let context = Context::new(
        &mut config,
        MessageGraph::new(set.file.iter()),
        extern_paths,
    );
    let mut output = String::new();
    for file in &set.file {
        let scope = file
            .package
            .as_ref()
            .map_or(String::new(), |package| format!(".{package}"));
        for message in &file.message_type {
            describe(&links, &context, &scope, message, &mut output);
        }
    }
    Some(output)
}

fn describe(
    links: &MessageGraph,
    context: &Context,
    scope: &str,
    message: &DescriptorProto,
    output: &mut String,
) {
    let name = format!("{scope}.{}", message.name());
    let copy = context.can_message_derive_copy(&name);
    let eq = context.can_message_derive_eq(&name);
    writeln!(output, "message {name} copy={copy} eq={eq}").unwrap();
    for field in &message.field {
        let oneof = field.oneof_index.filter(|_| !field.proto3_optional());
        let boxed = match oneof.and_then(|index| message.oneof_decl.get(index as usize)) {
            Some(oneof) => context.should_box_oneof_field(&name, oneof.name(), field),
            None => context.should_box_message_field(&name, field),
        };
        writeln!(
            output,
            "field {} leads={} boxed={boxed} copy={} eq={}",
            field.name(),
            links.is_nested(field.type_name(), &name),
            context.can_field_derive_copy(&name, field),
            context.can_field_derive_eq(&name, field),
        )
        .unwrap();
    }
    for nested in &message.nested_type {
        describe(links, context, &name, nested, output);
    }
}
