//! A circuit that asks for one of several outputs.

use super::circuit::Circuit;
use super::Command;
use crate::args::Args;
use crate::failure::Failure;
use crate::input::Input;
use crate::names::counted;
use crate::output::Target;
use crate::report::Report;
use wivulameno::circuit::{one_of_to_vec, Sizes};
use wivulameno::limits::{MAX_GATES, MAX_LISTED};
use wivulameno::Refusal;

pub const ONE_OF: Command = Command {
    name: "one-of",
    usage: "CIRCUIT --outputs LIST --out BUILT",
    about: "Make a circuit that asks for one of several outputs.",
    help: "\
The built circuit takes the same inputs and has a single output, which is 1
exactly if the output of the circuit is in the list. A proof of it, with the y
`hex:01`, shows that a row matches one of the listed outputs, and not which.

  --outputs LIST  1 to 16 outputs, one after the other, each packed as a y of
                  the circuit; one may be listed twice
  --out BUILT     where the built circuit goes

Refused with 1, 2, 3, 5, 19, 20 or 21 for the circuit, then:

  30  the list is empty, or has more than 16 outputs
   6  the list has a part of an output at its end
   7  unused bits in the last byte of a listed output
   2  too many gates: for O outputs and N listed ones O + N (O + 1) are counted
      on top of the circuit's, and 100000 are allowed
",
    example: "  wv one-of grade.circuit --outputs hex:151e21 --out graded.circuit\n",
    places: 1,
    times: 1,
    options: &["outputs", "out"],
    repeated: &[],
    flags: &[],
    run: one_of,
};

fn one_of(args: &Args, report: &mut Report) -> Result<(), Failure> {
    let out = args.needed("out")?;
    let list = args.needed("outputs")?;
    let circuit = Circuit::read(args, args.place(0))?;
    let list = args.input(list)?;
    let mut taken = circuit.taken();
    taken.push((list.titled("the list"), list.place.clone()));
    let target = Target::find(out, &taken)?;
    let failure = |refusal| Failure::Refused(refusal, cause(refusal, &circuit, &list));
    let built = one_of_to_vec(circuit.bytes(), &list.bytes).map_err(failure)?;
    let leaves_standard_output = target.leaves_standard_output();
    target.write(&built)?;
    if leaves_standard_output {
        let listed = list.bytes.len() / circuit.sizes.y_len();
        let bytes = counted(built.len() as u64, "byte");
        let listed = counted(listed as u64, "listed output");
        report.line(&format!("asks for {listed}, in a circuit of {bytes}"));
    }
    Ok(())
}

/// What is in the way.
fn cause(refusal: Refusal, circuit: &Circuit, list: &Input) -> String {
    let (len, y_len) = (list.bytes.len(), circuit.sizes.y_len());
    let name = list.titled("the list");
    let has = format!("{name} has {}", counted(len as u64, "byte"));
    let each = format!("an output of the circuit has {y_len}");
    match refusal {
        Refusal::OutputList => format!("{has}, {each}: 1 to {MAX_LISTED} are listed"),
        Refusal::Length => format!("{has}, {each}: list whole ones"),
        Refusal::UnusedBits => {
            let outputs = (1..).zip(list.bytes.chunks(y_len));
            let mut unused = outputs.filter_map(|(place, output)| {
                let name = format!("output {place} of {name}");
                circuit.output(name, output).unused()
            });
            unused.next().unwrap_or_default()
        }
        _ => {
            let Sizes { outputs, gates, .. } = circuit.sizes;
            let counted = gates + outputs + (len / y_len) as u32 * (outputs + 1);
            format!("{counted} gates are counted, at most {MAX_GATES}: list fewer outputs")
        }
    }
}
