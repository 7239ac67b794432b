//! Two circuits over one row, joined.

use super::circuit::Circuit;
use super::Command;
use crate::args::Args;
use crate::failure::Failure;
use crate::names::counted;
use crate::output::Target;
use crate::report::Report;
use wivulameno::circuit::{join_to_vec, Sizes};
use wivulameno::limits::{MAX_GATES, MAX_OUTPUTS};
use wivulameno::Refusal;

pub const JOIN: Command = Command {
    name: "join",
    usage: "FIRST SECOND --out CIRCUIT",
    about: "Join two circuits over one row to one.",
    help: "\
Both circuits take the same inputs. The joined one gives the outputs of the
first and then those of the second, so that one proof holds for both: its y is
the bits of the first's y, and the bits of the second's right behind them.

  --out CIRCUIT  where the joined circuit goes

Refused with 1, 2, 3, 5, 19, 20 or 21 for the first circuit, then for the
second, then:

  25  the two take different numbers of inputs
   2  together they have more than 256 outputs or more than 100000 gates
",
    example: "  wv join enough.circuit indate.circuit --out both.circuit\n",
    places: 2,
    times: 1,
    options: &["out"],
    repeated: &[],
    flags: &[],
    run: join,
};

fn join(args: &Args, report: &mut Report) -> Result<(), Failure> {
    let out = args.needed("out")?;
    let first = Circuit::read(args, args.place(0))?;
    let second = Circuit::read(args, args.place(1))?;
    let taken = [first.taken(), second.taken()].concat();
    let target = Target::find(out, &taken)?;
    let failure = |refusal| Failure::Refused(refusal, cause(refusal, first.sizes, second.sizes));
    let circuit = join_to_vec(first.bytes(), second.bytes()).map_err(failure)?;
    let leaves_standard_output = target.leaves_standard_output();
    target.write(&circuit)?;
    if leaves_standard_output {
        let bytes = counted(circuit.len() as u64, "byte");
        report.line(&format!("joined to a circuit of {bytes}"));
    }
    Ok(())
}

/// Which numbers are in the way.
fn cause(refusal: Refusal, first: Sizes, second: Sizes) -> String {
    let together = |what, one: u32, other: u32, most| {
        let text = format!("together they have {} {what}, at most {most}", one + other);
        (one + other > most).then_some(text)
    };
    let outputs = together("outputs", first.outputs, second.outputs, MAX_OUTPUTS);
    let gates = || together("gates", first.gates, second.gates, MAX_GATES);
    match refusal {
        Refusal::InputCounts => format!(
            "the first has {}, the second {}: both must take the same row",
            counted(first.inputs, "input"),
            second.inputs
        ),
        _ => outputs.or_else(gates).unwrap_or_default(),
    }
}
