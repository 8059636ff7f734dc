//! Stand-in for prost-build's `ast`. Source info and services are taken out of every set, so none
//! of this is ever reached.

use prost_types::source_code_info::Location;
use prost_types::{MethodOptions, ServiceOptions};

#[derive(Default)]
pub struct Comments;

impl Comments {
    pub fn from_location(_: &Location) -> Comments {
        unreachable!("source info is removed")
    }

    pub fn append_with_indent(&self, _depth: u8, _buf: &mut String) {
        unreachable!("source info is removed")
    }
}

pub struct Service {
    pub name: String,
    pub proto_name: String,
    pub package: String,
    pub comments: Comments,
    pub methods: Vec<Method>,
    pub options: ServiceOptions,
}

pub struct Method {
    pub name: String,
    pub proto_name: String,
    pub comments: Comments,
    pub input_type: String,
    pub output_type: String,
    pub input_proto_type: String,
    pub output_proto_type: String,
    pub options: MethodOptions,
    pub client_streaming: bool,
    pub server_streaming: bool,
}
