//! Circuits of the old form, converted.

use super::chain;
use super::Command;
use crate::args::Args;
use crate::failure::Failure;
use crate::input::Input;
use crate::kind::Kind;
use crate::names::counted;
use crate::output::Target;
use crate::report::Report;
use wivulameno::circuit::{upgrade_slot, upgrade_to_vec};
use wivulameno::Refusal;

pub const UPGRADE: Command = Command {
    name: "upgrade",
    usage: "OLD --out CIRCUIT",
    about: "Make a circuit of a file of the old form.",
    help: "\
Circuit files had numbers of 16 bits and 4096 gates at most; now they have
numbers of 32 bits, and up to 100000 gates. The circuit stays the same, with its
slots and its chain; the file is twice as long. A proof is bound to the circuit
file: those for the old file are not accepted for the new one.

  --out CIRCUIT  where the circuit goes

Refused with 1, 2, 3, 5, 19, 20 or 21, as the old file was. The last three tell
the slot that holds the wrong link.
",
    example: "  wv upgrade old.circuit --out new.circuit\n",
    places: 1,
    times: 1,
    options: &["out"],
    repeated: &[],
    flags: &[],
    run: upgrade,
};

fn upgrade(args: &Args, report: &mut Report) -> Result<(), Failure> {
    let out = args.needed("out")?;
    let input = args.input(args.place(0))?;
    let taken = vec![(input.titled("the old circuit"), input.place.clone())];
    let target = Target::find(out, &taken)?;
    let failure = |refusal| Failure::Refused(refusal, cause(&input, refusal));
    let circuit = upgrade_to_vec(&input.bytes).map_err(failure)?;
    let leaves_standard_output = target.leaves_standard_output();
    target.write(&circuit)?;
    if leaves_standard_output {
        let bytes = counted(circuit.len() as u64, "byte");
        report.line(&format!("upgraded to a circuit of {bytes}"));
    }
    Ok(())
}

fn cause(input: &Input, refusal: Refusal) -> String {
    let name = input.name_or("the typed circuit");
    if wivulameno::circuit::read(&input.bytes).is_ok() {
        return format!("{name} is no file of the old form, but a circuit as it is");
    }
    let slot = upgrade_slot(&input.bytes);
    if let Some(advice) = chain::advice(refusal, slot) {
        return format!("{name}: {advice}");
    }
    let done = match Kind::of(&input.bytes) {
        Kind::Statement => ": `wv build` makes a circuit of it",
        Kind::Bristol => ": `wv convert` makes a circuit of it",
        Kind::Other => ", or it was cut off or changed: copy it anew",
        _ => ": name the circuit",
    };
    let what = Kind::of(&input.bytes).instead_of("circuit of the old form");
    format!("{name}: {what}{done}")
}
