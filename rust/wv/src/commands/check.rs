//! The check of a proof, at the buyer's end.

use super::asked::Asked;
use super::causes;
use super::circuit::Circuit;
use super::several;
use super::Command;
use crate::args::Args;
use crate::failure::Failure;
use crate::input::Input;
use crate::json::{Object, Value};
use crate::kind::Kind;
use crate::progress::Progress;
use crate::report::Report;
use wivulameno::limits::MAX_CALLERS;
use wivulameno::proof::{self, Counts, Statement};
use wivulameno::{Refusal, Work};

/// The soundness that is asked for when nothing else is said.
pub const BITS: f64 = 128.0;

pub const CHECK: Command = Command {
    name: "check",
    usage: "CIRCUIT PROOF [CIRCUIT PROOF ..] --y Y .. --message MESSAGE ..
         [--statement STATEMENT] [--quota Q] [--bits B] [--json]",
    about: "Check a proof, or up to 16 side by side.",
    help: "\
Accepts a proof that its maker has a witness for which the circuit gives y,
bound to this message. Prints `accepted` with the numbers M, tau and n of the
proof, and its soundness in bits. The circuit file, y and the message have to be
the prover's, byte for byte.

Several proofs, each behind its circuit, are checked side by side, one instance
of each in turn, so that a long one does not hold up the rest. For each proof a
line with its name and its verdict is printed as soon as there is one. `--y` and
`--message` are given once for all, or once for each in the order of the proofs.

  --y Y              the claimed output, as `wv claim` packs it
  --message MESSAGE  the message that the proof is bound to
  --statement STATEMENT
                     print what the statement shows, a line `name=value` each;
                     the circuit has to be the statement's
  --bits B           refuse a proof whose soundness is below B bits, usually
                     128. The maker chooses M, tau and n: with small ones a
                     proof can be guessed. 0 accepts any
  --quota Q          check side by side, also a single proof, Q instances in a
                     call: 1 to 512, usually 512. Verdicts are told between two
                     calls, and every call reads the circuits again
  --json             print an object with the keys accepted, refused and
                     message; the last two are null when all is well. If the
                     proof holds there are the keys m, tau, n and bits, and if
                     it is accepted with a statement the key y, an object (side
                     by side: a list of these, each with the key proof too,
                     under the key proofs)

Refused with 1, 2, 3, 5, 19, 20 or 21 for the circuit, without a number if it is
not the statement's, 6 or 7 for y and the message, 11 for a proof that is none,
12, 7, 10 or 13 for one that does not hold for this circuit, y and message, and
without a number for too few bits. Side by side the exit status is 1 if one of
the proofs is refused.
",
    example: "  \
  wv check covers16.circuit order.proof --y hex:f50100 \\
      --message 'text:order 4711'
",
    places: 2,
    times: MAX_CALLERS,
    options: &["y", "message", "statement", "bits", "quota"],
    repeated: &["y", "message"],
    flags: &["json"],
    run: check,
};

fn check(args: &Args, report: &mut Report) -> Result<(), Failure> {
    report.set("accepted", false);
    let [y, message] = [args.needed("y")?, args.needed("message")?];
    let asked = args.decimal("bits")?.unwrap_or(BITS);
    if args.places().len() > 2 || args.option("quota").is_some() {
        if args.option("statement").is_some() {
            let text = "`--statement` is for a single proof, without `--quota`";
            return Err(Failure::Usage(text.into()));
        }
        return several::check(args, asked, report);
    }
    for name in ["y", "message"] {
        if args.values(name).len() > 1 {
            let text = format!("`--{name}` stands there twice, for one proof");
            return Err(Failure::Usage(text));
        }
    }
    let claim = Claim {
        circuit: Circuit::first(args)?,
        proof: args.input(args.place(1))?,
        y: args.input(y)?,
        message: args.input(message)?,
    };
    let statement = Asked::of_circuit(args, &claim.circuit)?;
    let progress = Progress::start("checking");
    let answer = claim.check();
    drop(progress);
    let done = claim.accept(answer, asked, report.object())?;
    if let Some(statement) = statement {
        statement.report(&claim.y.bytes, report);
    }
    report.line(&done);
    Ok(())
}

/// What the maker of a proof claims.
pub struct Claim {
    pub circuit: Circuit,
    pub proof: Input,
    pub y: Input,
    pub message: Input,
}

impl Claim {
    /// What is claimed, for the library.
    pub fn statement(&self) -> Statement<'_> {
        Statement {
            circuit: self.circuit.bytes(),
            y: &self.y.bytes,
            message: &self.message.bytes,
        }
    }

    /// Asks the library.
    fn check(&self) -> Result<(), Refusal> {
        let mut work = Work::for_sizes(self.circuit.sizes);
        proof::check(self.statement(), &self.proof.bytes, &mut work)
    }

    /// What is told of the library's answer, if so many bits are asked for.
    pub fn accept(
        &self,
        answer: Result<(), Refusal>,
        asked: f64,
        told: &mut Object,
    ) -> Result<String, Failure> {
        answer.map_err(|refusal| Failure::Refused(refusal, self.cause(refusal)))?;
        let counts = Counts::of_proof(&self.proof.bytes).expect("an accepted proof has a header");
        let Counts { m, tau, n } = counts;
        let bits = counts.soundness_bits().expect("legal counts");
        let shown = shown_bits(bits);
        for (key, number) in [("m", m), ("tau", tau), ("n", n)] {
            told.set(key, number);
        }
        told.set("bits", Value::Number(shown.clone()));
        if bits < asked {
            return Err(Failure::Unwanted(format!(
                "{}: the proof holds, but its M {m}, tau {tau}, n {n} have {shown} bits of \
                 soundness, and {asked} are asked for: `--bits {shown}` asks for less",
                self.proof.name_or("the typed proof")
            )));
        }
        told.set("accepted", true);
        Ok(format!(
            "accepted, M {m}, tau {tau}, n {n}, soundness {shown} bits"
        ))
    }

    /// What is likely to be the reason.
    fn cause(&self, refusal: Refusal) -> String {
        let y = self.circuit.given_output(&self.y);
        let message = self.message.titled("--message");
        let known = match refusal {
            Refusal::Length => {
                let long = || causes::message(&message, &self.message.bytes);
                y.length().or_else(long)
            }
            Refusal::UnusedBits => y.unused(),
            _ => None,
        };
        let proof = self.proof.name_or("the typed proof");
        let kind = Kind::of(&self.proof.bytes);
        known.unwrap_or_else(|| match refusal {
            _ if !matches!(kind, Kind::Proof | Kind::Other) => {
                let what = kind.instead_of("proof");
                format!(
                    "{proof}: {what}: `wv prove` makes one; the proof stands behind its circuit"
                )
            }
            Refusal::ProofHeader => format!(
                "{proof} is no proof, or was cut or changed at its start: `wv prove` makes one; \
                 the proof stands behind its circuit"
            ),
            _ => format!(
                "{proof}: it does not hold: y is not what the prover's row gives, or message or \
                 circuit are not the prover's, byte for byte, or the proof was cut or changed"
            ),
        })
    }
}

/// Bits with one digit after the point, rounded down.
pub fn shown_bits(bits: f64) -> String {
    format!("{:.1}", (bits * 10.0).floor() / 10.0)
}
