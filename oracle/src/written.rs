//! The declarations that texts show, read by lines, brackets and words.
//!
//! The values of options aren't read: the texts are those of `Config::plain`, in which every value
//! is replaced by a short one.

/// A field or a variant: its name, the line of its `prost` attribute, its type.
pub struct Member {
    pub name: String,
    pub tag: String,
    pub ty: String,
}

/// A struct or a oneof's enum with its members, or an enum, whose variants aren't read.
pub struct Type {
    pub name: String,
    pub members: Vec<Member>,
}

pub enum Item {
    Type(Type),
    Module(String, Vec<Item>),
}

/// The declarations of a text; none where it can't be read.
pub fn items(text: &str) -> Option<Vec<Item>> {
    let mut lines = text.lines().map(str::trim_start);
    let (found, closed) = scope(&mut lines)?;
    (!closed).then_some(found)
}

fn between<'a>(line: &'a str, before: &str, after: &str) -> Option<&'a str> {
    line.strip_prefix(before)?.strip_suffix(after)
}

/// The declarations up to a closing bracket, or to the end.
fn scope<'a>(lines: &mut impl Iterator<Item = &'a str>) -> Option<(Vec<Item>, bool)> {
    let mut found = Vec::new();
    let mut oneof = false;
    while let Some(line) = lines.next() {
        if line == "}" {
            return Some((found, true));
        } else if let Some(name) = between(line, "pub struct ", " {") {
            found.push(Item::Type(a_type(name, members(lines)?)));
        } else if let Some(name) = between(line, "pub enum ", " {") {
            let inside = members(lines)?;
            found.push(Item::Type(a_type(
                name,
                if oneof { inside } else { Vec::new() },
            )));
        } else if let Some(name) = between(line, "pub mod ", " {") {
            let (inside, closed) = scope(lines)?;
            if !closed {
                return None;
            }
            found.push(Item::Module(name.to_string(), inside));
        } else if line.starts_with("impl ") {
            skip(lines)?;
        } else if line.starts_with("#[derive(") {
            oneof = line.ends_with("::Oneof)]");
        } else if !line.starts_with("#[") && !line.starts_with("///") {
            return None;
        }
    }
    Some((found, false))
}

fn a_type(name: &str, members: Vec<Member>) -> Type {
    Type {
        name: name.to_string(),
        members,
    }
}

/// The rest of a block, its closing bracket too.
fn skip<'a>(lines: &mut impl Iterator<Item = &'a str>) -> Option<()> {
    let mut open = 1;
    while open > 0 {
        let line = lines.next()?;
        open += usize::from(line.ends_with('{'));
        open -= usize::from(line == "}");
    }
    Some(())
}

/// Fields or variants up to the closing bracket.
fn members<'a>(lines: &mut impl Iterator<Item = &'a str>) -> Option<Vec<Member>> {
    let mut found = Vec::new();
    let mut tag = "";
    loop {
        let line = lines.next()?;
        if line == "}" {
            return Some(found);
        } else if line.starts_with("#[") {
            tag = if line.starts_with("#[prost(") {
                line
            } else {
                tag
            };
            continue;
        }
        let line = line.strip_suffix(',')?;
        let (name, ty) = if let Some(field) = line.strip_prefix("pub ") {
            field.split_once(": ")?
        } else if let Some(variant) = line.strip_suffix(')') {
            variant.split_once('(')?
        } else {
            (line.split_once(" = ")?.0, "")
        };
        found.push(Member {
            name: name.to_string(),
            tag: tag.to_string(),
            ty: ty.to_string(),
        });
        tag = "";
    }
}
