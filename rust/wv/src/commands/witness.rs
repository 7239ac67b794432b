//! The witness of a command: a row file, which names the fields that it was packed for, or
//! bare bits.

use super::asked::Asked;
use crate::args::Args;
use crate::failure::Failure;
use crate::input::Input;
use statement::{bits_of_row_file, is_row_file, RowFault};
use std::ffi::OsStr;

/// The bits, and whether they came without the names of their fields.
pub struct Witness {
    pub input: Input,
    pub is_bare: bool,
}

/// The witness at an argument. A row file is taken for its own fields only, so there has to
/// be a statement with it.
pub fn read(args: &Args, value: &OsStr, asked: Option<&Asked>) -> Result<Witness, Failure> {
    let mut input = args.input(value)?;
    let is_bare = !is_row_file(&input.bytes);
    if !is_bare {
        input.bytes = bits(&input, asked)?;
    }
    Ok(Witness { input, is_bare })
}

/// The bits of a row file.
fn bits(input: &Input, asked: Option<&Asked>) -> Result<Vec<u8>, Failure> {
    let name = input.name_or("the typed witness");
    let Some(asked) = asked else {
        return Err(Failure::Usage(format!(
            "{name} is a packed row, which goes with a statement: add `--statement STATEMENT`; for \
             a circuit of another source `wv row --bare` packs the bits alone"
        )));
    };
    let wrong = |fault| not_taken(name, asked.name(), fault);
    let bits = bits_of_row_file(&input.bytes, &asked.built.row);
    bits.map(<[u8]>::to_vec).map_err(wrong)
}

fn not_taken(name: &str, statement: &str, fault: RowFault) -> Failure {
    match fault {
        RowFault::Fields(difference) => Failure::Unwanted(format!(
            "{name} is not a row of {statement}: {difference}: `wv row {statement} VALUES` packs \
             one"
        )),
        _ => Failure::File(format!("{name}: {fault}: `wv row` packs it again")),
    }
}
