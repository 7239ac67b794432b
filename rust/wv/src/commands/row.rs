//! Rows and claims from named values.

use super::asked::{faulty, Asked, VALUES};
use super::Command;
use crate::args::Args;
use crate::failure::Failure;
use crate::names::counted;
use crate::output::Target;
use crate::report::Report;
use statement::{row_file, Layout};

pub const ROW: Command = Command {
    name: "row",
    usage: "STATEMENT VALUES --out ROW [--bare]",
    about: "Pack the values of a row for proofs about it.",
    help: "\
The values are a text with `name=number` for each field of the statement's row,
once, in any order, with white space or a comma between two. `#` begins a
comment, up to the line's end. A fault is told with its line and column.

  --out ROW  where the packed row goes: a line that names the fields with their
             bits, and the row's bits as the circuit of the statement takes them
  --bare     write the bits alone, for a host, or for a circuit that no
             statement gives, as that of `wv join`

`wv evaluate` and `wv prove` take the packed row together with a statement about
these fields, in this order: with any other it is refused. Several statements
can be about one row. Bare bits do not say what they are: those of another row
may be taken, and what that hides may be shown.

Values that are typed on the command line are seen by other users in the process
list, and kept in the shell's history: give a row that they may not read as a
file, as `-` or as `fd:N`.
The packed row holds the whole row: it is for those who may read the row.
",
    example: "  wv row covers16.statement values.txt --out covers16.row\n",
    places: 2,
    times: 1,
    options: &["out"],
    repeated: &[],
    flags: &["bare"],
    run: |args, report| {
        pack(
            args,
            report,
            |asked| &asked.built.row,
            |asked, bits| match args.flag("bare") {
                true => bits,
                false => row_file(&asked.built.row, &bits),
            },
        )
    },
};

pub const CLAIM: Command = Command {
    name: "claim",
    usage: "STATEMENT VALUES --out Y",
    about: "Pack what a statement is to show into a y.",
    help: "\
The values are a text with `name=value` for each part that the statement shows,
once, in any order, with white space or a comma between two: a number, or `yes`
or `no` for a condition. `#` begins a comment, up to the line's end. A fault is
told with its line and column. `wv check` takes the y.

  --out Y  where the y goes
",
    example: "  wv claim covers16.statement 'text:covered=yes order=250' --out order.y\n",
    places: 2,
    times: 1,
    options: &["out"],
    repeated: &[],
    flags: &[],
    run: |args, report| pack(args, report, |asked| &asked.built.y, |_, bits| bits),
};

/// Packs values for a part of what is asked, and writes the file that is made of the bits.
fn pack(
    args: &Args,
    report: &mut Report,
    of: fn(&Asked) -> &Layout,
    file: impl Fn(&Asked, Vec<u8>) -> Vec<u8>,
) -> Result<(), Failure> {
    let out = args.needed("out")?;
    let asked = Asked::read(args, args.place(0))?;
    let values = args.input(args.place(1))?;
    let mut taken = asked.taken();
    taken.push((values.titled("the values"), values.place.clone()));
    let target = Target::find(out, &taken)?;
    let layout = of(&asked);
    let packed = layout.pack(&values.bytes);
    let packed = packed.map_err(|fault| faulty(&values, &VALUES, &fault))?;
    let packed = file(&asked, packed);
    let leaves_standard_output = target.leaves_standard_output();
    target.write(&packed)?;
    if leaves_standard_output {
        let count = counted(layout.slots().len() as u64, "value");
        let bytes = counted(packed.len() as u64, "byte");
        report.line(&format!("packed {count} into {bytes}"));
    }
    Ok(())
}
