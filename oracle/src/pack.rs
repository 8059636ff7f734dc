//! Many cases in one file: the eight bytes `CEMICASE`, then for each case three little-endian
//! 32-bit lengths (set, options, output) and the bytes of the three.

use std::io::{self, ErrorKind, Read, Write};

pub const MAGIC: &[u8; 8] = b"CEMICASE";

pub struct Case {
    pub set: Vec<u8>,
    pub options: Vec<u8>,
    pub output: Vec<u8>,
}

pub fn read_magic(from: &mut impl Read) -> io::Result<()> {
    let mut magic = [0; 8];
    from.read_exact(&mut magic)?;
    if &magic != MAGIC {
        return Err(io::Error::new(ErrorKind::InvalidData, "no pack of cases"));
    }
    Ok(())
}

/// The next case, or none at the end.
pub fn read_case(from: &mut impl Read) -> io::Result<Option<Case>> {
    let mut first = [0];
    if from.read(&mut first)? == 0 {
        return Ok(None);
    }
    let mut lengths = [0; 12];
    lengths[0] = first[0];
    from.read_exact(&mut lengths[1..])?;
    let mut part = |at: usize| {
        let length = u32::from_le_bytes(lengths[at..at + 4].try_into().unwrap());
        let mut bytes = vec![0; length as usize];
        from.read_exact(&mut bytes)?;
        io::Result::Ok(bytes)
    };
    Ok(Some(Case {
        set: part(0)?,
        options: part(4)?,
        output: part(8)?,
    }))
}

pub fn write_case(to: &mut impl Write, case: &Case) -> io::Result<()> {
    let parts = [&case.set, &case.options, &case.output];
    for part in parts {
        to.write_all(&(part.len() as u32).to_le_bytes())?;
    }
    for part in parts {
        to.write_all(part)?;
    }
    Ok(())
}
