//! Circuits from statements.

use super::asked::Asked;
use super::Command;
use crate::args::Args;
use crate::failure::{tell, Failure};
use crate::names::counted;
use crate::output::Target;
use crate::report::Report;
use wivulameno::circuit::{sizes, Sizes};

pub const BUILD: Command = Command {
    name: "build",
    usage: "STATEMENT --out CIRCUIT",
    about: "Build the circuit of a statement about a row.",
    help: "\
A statement is a text: the fields of a row with their bits, and what is shown of
them. `docs/statements.md` has its form.

  # Does the stock on hand cover the order?
  row on_hand: 16, order: 16
  show covered = on_hand >= order
  show order

What is shown are fields, sums, and conditions with `==`, `!=`, `<`, `<=`, `>`,
`>=`, `in (21, 30 to 33)`, `not`, `and`, `or` and brackets. All else stays
hidden. `let name = ..` gives a part a name. Numbers are not negative, and a sum
is exact: it has as many bits as its greatest value.

  --out CIRCUIT  where the circuit goes

The same statement always gives the same file. A fault is told with its line and
column. A comparison whose answer is the same for every row is built, and told
on standard error: a field may have too few bits.
",
    example: "  wv build covers16.statement --out built.circuit\n",
    places: 1,
    times: 1,
    options: &["out"],
    repeated: &[],
    flags: &[],
    run: build,
};

fn build(args: &Args, report: &mut Report) -> Result<(), Failure> {
    let out = args.needed("out")?;
    let asked = Asked::read(args, args.place(0))?;
    let target = Target::find(out, &asked.taken())?;
    let circuit = &asked.built.circuit;
    for note in &asked.built.notes {
        tell(&format!("note: {}: {note}", asked.name()));
    }
    let leaves_standard_output = target.leaves_standard_output();
    target.write(circuit)?;
    if leaves_standard_output {
        let sizes = sizes(circuit).expect("a legal circuit");
        report.line(&format!("built a circuit with {}", told(sizes)));
    }
    Ok(())
}

fn told(sizes: Sizes) -> String {
    format!(
        "{}, {} and {}, {} of them AND",
        counted(sizes.inputs, "input"),
        counted(sizes.outputs, "output"),
        counted(sizes.gates, "gate"),
        sizes.ands
    )
}
