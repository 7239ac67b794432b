//! Every small circuit in turn.

use super::Command;
use crate::args::Args;
use crate::failure::Failure;
use crate::input::to_hex;
use crate::names::counted;
use crate::output::Target;
use crate::report::Report;
use wivulameno::circuit::small_to_vec;
use wivulameno::limits::{MAX_SMALL_GATES, MAX_SMALL_INPUTS};

pub const SMALL: Command = Command {
    name: "small",
    usage: "--inputs I --gates G [--count | --place K [--out CIRCUIT]]",
    about: "List every small circuit of one output.",
    help: "\
For test benches. All legal circuits with these inputs and gates and one output
come in ascending order of their files, each exactly once, as a line of
hexadecimal digits each: `hex:` and the line is a circuit for every command.

  --inputs I     1 or 2
  --gates G      0, 1 or 2
  --count        print only how many there are
  --place K      print only the one at place K, from 0
  --out CIRCUIT  write the one at place K there, as a circuit file

Refused with 29 for other sizes, and without a number for a place behind the
last circuit.
",
    example: "  wv small --inputs 2 --gates 1 --place 4 --out small.circuit\n",
    places: 0,
    times: 1,
    options: &["inputs", "gates", "place", "out"],
    repeated: &[],
    flags: &["count"],
    run: small,
};

fn small(args: &Args, report: &mut Report) -> Result<(), Failure> {
    let sizes = Sizes::of(args)?;
    let place = args.number("place")?;
    match (place, args.option("out"), args.flag("count")) {
        (Some(_), _, true) => {
            let text = "one of `--count` and `--place`";
            return Err(Failure::Usage(text.into()));
        }
        (None, Some(_), _) => {
            let text = "`--out` takes one circuit: `--place` says which";
            return Err(Failure::Usage(text.into()));
        }
        (None, None, true) => report.line(&sizes.all()?.len().to_string()),
        (None, None, false) => {
            let all = sizes.all()?;
            all.iter().for_each(|circuit| report.line(&to_hex(circuit)));
        }
        (Some(place), None, _) => report.line(&to_hex(&sizes.at(place)?)),
        (Some(place), Some(out), _) => {
            let target = Target::find(out, &vec![])?;
            let circuit = sizes.at(place)?;
            let leaves_standard_output = target.leaves_standard_output();
            target.write(&circuit)?;
            if leaves_standard_output {
                let bytes = counted(circuit.len() as u64, "byte");
                report.line(&format!("wrote a circuit of {bytes}"));
            }
        }
    }
    Ok(())
}

/// The sizes that were asked for.
struct Sizes {
    inputs: u32,
    gates: u32,
}

impl Sizes {
    fn of(args: &Args) -> Result<Sizes, Failure> {
        for name in ["inputs", "gates"] {
            args.needed(name)?;
        }
        Ok(Sizes {
            inputs: args.number("inputs")?.expect("it is there"),
            gates: args.number("gates")?.expect("it is there"),
        })
    }

    /// The circuit at a place, if the last has not passed.
    fn get(&self, place: u64) -> Result<Option<Vec<u8>>, Failure> {
        let Sizes { inputs, gates } = *self;
        let cause = match (1..=MAX_SMALL_INPUTS).contains(&inputs) {
            false => format!("--inputs {inputs}: 1 or {MAX_SMALL_INPUTS}"),
            true => format!("--gates {gates}: 0 to {MAX_SMALL_GATES}"),
        };
        small_to_vec(inputs, 1, gates, place).map_err(|refusal| Failure::Refused(refusal, cause))
    }

    fn all(&self) -> Result<Vec<Vec<u8>>, Failure> {
        let places = 0..;
        places
            .map_while(|place| self.get(place).transpose())
            .collect()
    }

    fn at(&self, place: u64) -> Result<Vec<u8>, Failure> {
        if let Some(circuit) = self.get(place)? {
            return Ok(circuit);
        }
        let last = self.all()?.len() - 1;
        let text = format!("the last has passed: --place {place} is behind place {last}");
        Err(Failure::Unwanted(text))
    }
}
