//! A packed row with the fields that it was packed for. `docs/formats.md` has the file.

use crate::build::row_of;
use crate::layout::{Layout, Slot};
use crate::parser::parse;
use std::error::Error;
use std::fmt;

/// What a row file begins with, whatever its version.
const NAME: &[u8] = b"wivulameno row ";
const VERSION: &[u8] = b"1 ";

/// Why a row file is not taken.
#[derive(Clone, Debug, PartialEq, Eq)]
pub enum RowFault {
    /// Its version is another one.
    Version,
    /// Its first line does not have fields in the form in which they are written there.
    Damaged,
    /// It was packed for other fields.
    Fields(FieldDifference),
    /// It has so many bytes behind its first line, and its fields ask for so many.
    Length { found: usize, asked: usize },
}

/// The first field that two rows do not have in common.
#[derive(Clone, Debug, PartialEq, Eq)]
pub struct FieldDifference {
    /// Its number, from 1.
    pub number: usize,
    /// As the row file has it, if it has so many.
    pub packed: Option<String>,
    /// As it is asked for, if so many are.
    pub asked: Option<String>,
}

impl fmt::Display for RowFault {
    fn fmt(&self, f: &mut fmt::Formatter) -> fmt::Result {
        match self {
            RowFault::Version => f.write_str("it is a packed row of another version"),
            RowFault::Damaged => f.write_str("its first line, which names the fields, is damaged"),
            RowFault::Fields(difference) => difference.fmt(f),
            RowFault::Length { found, asked } => write!(
                f,
                "it has {found} of {asked} bytes behind its first line: it was cut off or changed"
            ),
        }
    }
}

impl fmt::Display for FieldDifference {
    fn fmt(&self, f: &mut fmt::Formatter) -> fmt::Result {
        let FieldDifference {
            number,
            packed,
            asked,
        } = self;
        let [packed, asked] = [packed, asked].map(|field| match field {
            Some(field) => format!("`{field}`"),
            None => "none".into(),
        });
        write!(
            f,
            "its field {number} is {packed}, and the statement's is {asked}"
        )
    }
}

impl Error for RowFault {}

/// Is this a row file, of whatever version? Bare bits are taken for one if they begin so.
pub fn is_row_file(bytes: &[u8]) -> bool {
    bytes.starts_with(NAME)
}

/// The file of a row with these fields and bits.
pub fn row_file(fields: &Layout, bits: &[u8]) -> Vec<u8> {
    [NAME, VERSION, fields.declaration().as_bytes(), b"\n", bits].concat()
}

/// The bits of a row file, if it was packed for these fields.
pub fn bits_of_row_file<'a>(bytes: &'a [u8], fields: &Layout) -> Result<&'a [u8], RowFault> {
    let rest = bytes.strip_prefix(NAME).ok_or(RowFault::Damaged)?;
    let rest = rest.strip_prefix(VERSION).ok_or(RowFault::Version)?;
    let end = rest.iter().position(|&byte| byte == b'\n');
    let (line, bits) = rest.split_at(end.ok_or(RowFault::Damaged)?);
    let packed = declared(line).ok_or(RowFault::Damaged)?;
    if let Some(difference) = difference(&packed, fields) {
        return Err(RowFault::Fields(difference));
    }
    let (found, asked) = (bits.len() - 1, fields.bits().div_ceil(8) as usize);
    match found == asked {
        true => Ok(&bits[1..]),
        false => Err(RowFault::Length { found, asked }),
    }
}

/// The fields of a row file's first line, if it is written as `row_file` does it.
fn declared(line: &[u8]) -> Option<Layout> {
    let (parts, _) = parse(&[b"row ".as_slice(), line].concat()).ok()?;
    let fields = row_of(&parts).ok()?;
    (fields.declaration().as_bytes() == line).then_some(fields)
}

fn difference(packed: &Layout, asked: &Layout) -> Option<FieldDifference> {
    let [packed, asked] = [packed, asked].map(Layout::slots);
    let most = packed.len().max(asked.len());
    let place = (0..most).find(|&place| packed.get(place) != asked.get(place))?;
    let field = |slots: &[Slot]| slots.get(place).map(Slot::declaration);
    Some(FieldDifference {
        number: place + 1,
        packed: field(packed),
        asked: field(asked),
    })
}
