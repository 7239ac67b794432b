//! Circuits: what they are, and what they give.

use super::asked::Asked;
use super::causes::Packed;
use super::chain;
use super::witness;
use super::Command;
use crate::args::Args;
use crate::failure::Failure;
use crate::input::{to_hex, Input};
use crate::kind::Kind;
use crate::names::{counted, shown};
use crate::output::{Taken, Target};
use crate::report::Report;
use std::ffi::OsStr;
use std::fs;
use std::path::Path;
use wivulameno::circuit::{self, Sizes};
use wivulameno::limits::{MAX_GATES, MAX_INPUTS, MAX_OUTPUTS};
use wivulameno::Refusal;

pub const CIRCUIT: Command = Command {
    name: "circuit",
    usage: "CIRCUIT [--json]",
    about: "Read a circuit and print its sizes.",
    help: "\
Prints the number of inputs, outputs, gates and AND gates, a line each. A
circuit is refused with 1, 2, 3, 5, 19, 20 or 21. The last three are about the
chain, and tell the slot that holds the wrong link:

  19  a link leads beyond the last slot
  20  a link is 0, and not every slot was visited
  21  a link is not 0 after as many slots as there are

A file of the old form is refused with 1 or 2: `wv upgrade` converts it.

  --json  print an object with the keys inputs, outputs, gates, ands, refused
          and message; the last two are null when all is well. A circuit that is
          refused has the last two alone, and with 19, 20 and 21 the key slot,
          which is 0 for the head
",
    example: "  wv circuit covers16.circuit\n",
    places: 1,
    times: 1,
    options: &[],
    repeated: &[],
    flags: &["json"],
    run: sizes,
};

fn sizes(args: &Args, report: &mut Report) -> Result<(), Failure> {
    let input = args.input(args.place(0))?;
    let refusal = circuit::read(&input.bytes).err();
    if let Some(slot) = refusal.and_then(|refusal| chain::fault_slot(refusal, &input.bytes)) {
        report.set("slot", slot);
    }
    let sizes = Circuit::of(input)?.sizes;
    report.number("inputs", "inputs", sizes.inputs);
    report.number("outputs", "outputs", sizes.outputs);
    report.number("gates", "gates", sizes.gates);
    report.number("AND gates", "ands", sizes.ands);
    Ok(())
}

/// How a circuit is made.
const MADE: &str =
    "`wv build` makes one from a statement, `wv convert` from a Bristol Fashion text";

/// What a file is that is refused, and what to do.
fn advice(refusal: Refusal, bytes: &[u8]) -> String {
    let may_be_other = matches!(refusal, Refusal::CircuitLength | Refusal::CircuitSizes);
    if let Some(advice) = chain::advice(refusal, circuit::fault_slot(bytes)) {
        return advice;
    }
    if !may_be_other {
        return format!("it was changed: copy it anew, or make it again: {MADE}");
    }
    let kind = Kind::of(bytes);
    match kind {
        Kind::OldCircuit => {
            "it is a circuit of the old form: `wv upgrade` makes it a new one".into()
        }
        Kind::Statement => "it is a statement, no circuit: `wv build` makes one from it".into(),
        Kind::Bristol => {
            "it is a Bristol Fashion text, no circuit: `wv convert` makes one from it".into()
        }
        Kind::Other => {
            let torn = torn(bytes);
            torn.unwrap_or_else(|| format!("this is no circuit file: {MADE}"))
        }
        _ => format!("{}: {MADE}", kind.instead_of("circuit")),
    }
}

/// What is wrong with a file that has the header of a circuit.
fn torn(bytes: &[u8]) -> Option<String> {
    let field = |place: usize| {
        let field = bytes.get(4 * place..)?.first_chunk()?;
        Some(u32::from_le_bytes(*field))
    };
    let sizes = Sizes {
        inputs: field(0)?,
        outputs: field(1)?,
        gates: field(2)?,
        ands: 0,
    };
    let Sizes {
        inputs,
        outputs,
        gates,
        ..
    } = sizes;
    let asked = 16 + 4 * u64::from(outputs) + 16 * u64::from(gates);
    let len = bytes.len() as u64;
    let is_within = (1..=MAX_INPUTS).contains(&inputs)
        && (1..=MAX_OUTPUTS).contains(&outputs)
        && gates <= MAX_GATES;
    if is_within && asked != len {
        let found = counted(len, "byte");
        return Some(format!(
            "its header asks for {asked} bytes, and it has {found}: it was cut off or changed; \
             copy it anew, or make it again: {MADE}"
        ));
    }
    (!is_within && asked == len).then(|| {
        let [inputs, outputs, gates] = [
            counted(inputs, "input"),
            counted(outputs, "output"),
            counted(gates, "gate"),
        ];
        format!(
            "it has {inputs}, {outputs} and {gates}, and a circuit has 1 to {MAX_INPUTS}, 1 to \
             {MAX_OUTPUTS} and at most {MAX_GATES}: what has more is proved in parts"
        )
    })
}

/// Does this name lead to a file that is a circuit?
fn is_circuit_file(value: &OsStr) -> bool {
    let is_file = Path::new(value).is_file();
    is_file && fs::read(value).is_ok_and(|bytes| circuit::read(&bytes).is_ok())
}

/// A circuit that the library reads.
pub struct Circuit {
    input: Input,
    /// How large it is.
    pub sizes: Sizes,
}

impl Circuit {
    /// Refused with 1, 2, 3, 5, 19, 20 or 21.
    pub fn read(args: &Args, value: &OsStr) -> Result<Circuit, Failure> {
        Circuit::of(args.input(value)?)
    }

    /// The circuit at the first place. One that stands at the second is told.
    pub fn first(args: &Args) -> Result<Circuit, Failure> {
        let first = args.input(args.place(0))?;
        let name = first.name_or("the typed circuit").to_string();
        let is = Kind::of(&first.bytes).instead_of("circuit");
        Circuit::of(first).map_err(|failure| match failure {
            Failure::Refused(refusal, _) if is_circuit_file(args.place(1)) => {
                let second = shown(args.place(1));
                let cause = format!("{name}: {is}, and {second} is one: the circuit stands first");
                Failure::Refused(refusal, cause)
            }
            other => other,
        })
    }

    fn of(input: Input) -> Result<Circuit, Failure> {
        let failure = |refusal| {
            let name = input.name_or("the typed circuit");
            let advice = advice(refusal, &input.bytes);
            Failure::Refused(refusal, format!("{name}: {advice}"))
        };
        let sizes = circuit::sizes(&input.bytes).map_err(failure)?;
        Ok(Circuit { input, sizes })
    }

    /// For a message: its name.
    pub fn name(&self) -> &str {
        self.input.name_or("the typed circuit")
    }

    /// The circuit file.
    pub fn bytes(&self) -> &[u8] {
        &self.input.bytes
    }

    /// A witness, or what should be one.
    pub fn witness<'a>(&self, input: &'a Input) -> Packed<'a> {
        Packed {
            name: input.titled("the witness"),
            bytes: &input.bytes,
            bits: self.sizes.inputs,
            made: input
                .can_be_other()
                .then_some("packed row: `wv row` packs one from values"),
        }
    }

    /// A claimed output, or what should be one.
    pub fn output<'a>(&self, name: String, bytes: &'a [u8]) -> Packed<'a> {
        Packed {
            name,
            bytes,
            bits: self.sizes.outputs,
            made: None,
        }
    }

    /// A y that was given, or what should be one.
    pub fn given_output<'a>(&self, input: &'a Input) -> Packed<'a> {
        let made = "packed y: `wv claim` packs one, `wv evaluate --raw` writes one, and digits \
                    are typed behind `hex:`";
        Packed {
            made: input.can_be_other().then_some(made),
            ..self.output(input.titled("--y"), &input.bytes)
        }
    }

    /// What the circuit gives for a witness.
    pub fn outputs(&self, witness: &Input) -> Result<Vec<u8>, Failure> {
        let mut y = vec![0; self.sizes.y_len()];
        let cause = |refusal| {
            let witness = self.witness(witness);
            let cause = match refusal {
                Refusal::Length => witness.length(),
                _ => witness.unused(),
            };
            Failure::Refused(refusal, cause.unwrap_or_default())
        };
        circuit::evaluate(self.bytes(), &witness.bytes, &mut y).map_err(cause)?;
        Ok(y)
    }

    /// The file, which no output replaces.
    pub fn taken(&self) -> Taken {
        vec![(self.input.titled("the circuit"), self.input.place.clone())]
    }
}

pub const EVALUATE: Command = Command {
    name: "evaluate",
    usage: "CIRCUIT WITNESS [--out FILE] [--raw] [--statement STATEMENT]",
    about: "Print the outputs of a circuit for a witness.",
    help: "\
The outputs are printed as a line of hexadecimal digits. The witness is a row
that `wv row` has packed, together with its statement, or bare bits.

  --out FILE             write them there
  --raw                  write the bytes themselves, without a line's end
  --statement STATEMENT  write what the statement shows, a line `name=value`
                         each, without --raw; the circuit has to be the
                         statement's, and a packed row has to have its fields

A witness that is typed on the command line is seen by other users in the
process list, and kept in the shell's history: give a row that they may not read
as a file, as `-` or as `fd:N`.

Refused with 1, 2, 3, 5, 19, 20 or 21 for the circuit, without a number if it is
not the statement's or the row has other fields, 6 for a witness of another
length, 7 for unused bits in its last byte.
",
    example: "  \
  wv evaluate covers16.circuit covers16.row --statement covers16.statement
",
    places: 2,
    times: 1,
    options: &["out", "statement"],
    repeated: &[],
    flags: &["raw"],
    run: evaluate,
};

fn evaluate(args: &Args, _: &mut Report) -> Result<(), Failure> {
    let circuit = Circuit::first(args)?;
    let asked = Asked::of_circuit(args, &circuit)?;
    let witness = witness::read(args, args.place(1), asked.as_ref())?.input;
    let mut taken = circuit.taken();
    taken.push((witness.titled("the witness"), witness.place.clone()));
    taken.extend(asked.iter().flat_map(Asked::taken));
    let out = args.option("out").unwrap_or(OsStr::new("-"));
    let target = Target::find(out, &taken)?;
    let y = circuit.outputs(&witness)?;
    let written = match asked {
        _ if args.flag("raw") => y,
        Some(asked) => asked.lines(&y).into(),
        None => (to_hex(&y) + "\n").into(),
    };
    target.write(&written)
}
