//! Stand-in for prost-build's `Config`: the settings that the generator's files read, filled from
//! an options file of document 01.

use crate::collections::{BytesType, MapType};
use crate::extern_paths::ExternPaths;
use crate::path::PathMap;
use crate::ServiceGenerator;

pub struct Config {
    pub(crate) service_generator: Option<Box<dyn ServiceGenerator>>,
    pub(crate) map_type: PathMap<MapType>,
    pub(crate) bytes_type: PathMap<BytesType>,
    pub(crate) type_attributes: PathMap<String>,
    pub(crate) message_attributes: PathMap<String>,
    pub(crate) enum_attributes: PathMap<String>,
    pub(crate) field_attributes: PathMap<String>,
    pub(crate) boxed: PathMap<()>,
    pub(crate) strip_enum_prefix: bool,
    pub(crate) enable_type_names: bool,
    pub(crate) type_name_domains: PathMap<String>,
    pub(crate) disable_comments: PathMap<()>,
    pub(crate) skip_debug: PathMap<()>,
    pub(crate) prost_path: Option<String>,
    // Not read by the generator's files, but given to `ExternPaths::new`.
    extern_paths: Vec<(String, String)>,
    prost_types: Option<String>,
    /// Whether a row of kind 4 is there.
    pub(crate) sets_box: bool,
}

impl Config {
    fn new() -> Config {
        Config {
            service_generator: None,
            map_type: PathMap::default(),
            bytes_type: PathMap::default(),
            type_attributes: PathMap::default(),
            message_attributes: PathMap::default(),
            enum_attributes: PathMap::default(),
            field_attributes: PathMap::default(),
            boxed: PathMap::default(),
            strip_enum_prefix: true,
            enable_type_names: false,
            type_name_domains: PathMap::default(),
            disable_comments: PathMap::default(),
            skip_debug: PathMap::default(),
            prost_path: None,
            extern_paths: Vec::new(),
            prost_types: None,
            sets_box: false,
        }
    }

    pub fn prost_path_or_default(&self) -> &str {
        self.prost_path.as_deref().unwrap_or("::prost")
    }

    pub fn extern_paths(&self) -> Result<ExternPaths, String> {
        ExternPaths::new(
            &self.extern_paths,
            self.prost_path_or_default(),
            self.prost_types.as_deref().unwrap_or(""),
            self.prost_types.is_some(),
        )
    }

    /// Reads an options file. Its layout is judged only as far as reading needs it.
    pub fn read(options: &[u8]) -> Option<Config> {
        Config::read_with(options, |_, value| value)
    }

    /// The same with every value replaced by a short one, so that what is written besides the
    /// values can be read out of a text.
    pub fn plain(options: &[u8]) -> Option<Config> {
        Config::read_with(options, |kind, _| {
            let value = match kind {
                1 => "::opaque",
                10 => "::prost",
                12 => "::opaque_types",
                _ => "#[v]",
            };
            value.to_string()
        })
    }

    fn read_with(options: &[u8], value_of: fn(u16, String) -> String) -> Option<Config> {
        let number = |at: usize| {
            Some(u16::from_le_bytes(
                options.get(at..at + 2)?.try_into().ok()?,
            ))
        };
        let rows = usize::from(number(0)?);
        if rows > 64 {
            return None;
        }
        let mut config = Config::new();
        let mut body = 2 + 8 * rows;
        for row in 0..rows {
            let at = 2 + 8 * row;
            let kind = number(at)?;
            let mut part = |length: u16| {
                let end = body + usize::from(length);
                let bytes = options.get(body..end)?;
                body = end;
                String::from_utf8(bytes.to_vec()).ok()
            };
            let path = part(number(at + 2)?)?;
            let value = value_of(kind, part(number(at + 4)?)?);
            config.add(kind, path, value)?;
        }
        (body == options.len()).then_some(config)
    }

    fn add(&mut self, kind: u16, path: String, value: String) -> Option<()> {
        match kind {
            1 => self.extern_paths.push((path, value)),
            2 => self.bytes_type.insert(path, BytesType::Bytes),
            3 => self.map_type.insert(path, MapType::BTreeMap),
            4 => {
                self.sets_box = true;
                self.boxed.insert(path, ());
            }
            5 => self.type_attributes.insert(path, value),
            6 => self.field_attributes.insert(path, value),
            7 => self.message_attributes.insert(path, value),
            8 => self.enum_attributes.insert(path, value),
            9 => self.skip_debug.insert(path, ()),
            10 => self.prost_path = Some(value),
            11 => self.strip_enum_prefix = false,
            12 => self.prost_types = Some(value),
            _ => return None,
        }
        Some(())
    }
}
