//! Proofs, made with a root from a shelf.

use super::asked::Asked;
use super::causes;
use super::check::{shown_bits, BITS};
use super::circuit::Circuit;
use super::files::ShelfFiles;
use super::witness::{self, Witness};
use super::Command;
use crate::args::Args;
use crate::cost::USUAL;
use crate::failure::{tell, Failure};
use crate::fresh;
use crate::input::{to_hex, Input};
use crate::output::{Taken, Target};
use crate::progress::Progress;
use crate::report::Report;
use wivulameno::proof::{self, longest_proof, Counts, Statement};
use wivulameno::{Refusal, Work};

pub const PROVE: Command = Command {
    name: "prove",
    usage: "CIRCUIT WITNESS --shelf PAGE --log LOG --message MESSAGE --out PROOF
         [--y Y] [--statement STATEMENT] [--salt SALT] [--instances M]
         [--chosen TAU] [--parties N] [--wait SECONDS]",
    about: "Make a proof with a root from a shelf.",
    help: "\
Proves that the circuit gives y for the witness, without showing more of it.
One root is drawn from the shelf for the proof. A call that would be refused
draws none. The proof is bound to the circuit file, y and the message: whoever
checks it needs the same bytes of all three. The salt stands in the proof. The
witness is a row that `wv row` has packed, together with its statement, or bare
bits.

  --shelf PAGE       the page of the shelf
  --log LOG          the file that counts its draws
  --message MESSAGE  up to 4096 bytes, as 'text:order 4711' or a file
  --out PROOF        where the proof goes
  --y Y              the claimed output, as `wv claim` packs it; without it,
                     what the circuit gives
  --statement STATEMENT
                     print what the proof shows, a line `name=value` each; the
                     circuit has to be the statement's, and a packed row has to
                     have its fields. A condition that is no is told on standard
                     error, if there is no --y; so are bare bits, which may be
                     those of another row
  --salt SALT        32 bytes, which the hashes of trees, tapes and commitments
                     take and the proof shows; without it, new ones from
                     /dev/urandom, as it should be
  --instances M      2 to 512, usually 145
  --chosen TAU       1 to M - 1, usually 66
  --parties N        2, 4, 8, 16, 32 or 64, usually 8
  --wait SECONDS     how long to wait for a shelf that another process has open

The usual numbers have 128 bits of soundness, which `wv check` asks for.

A witness that is typed on the command line is seen by other users in the
process list, and kept in the shell's history: give a row that they may not read
as a file, as `-` or as `fd:N`.

Refused with 1, 2, 3, 5, 19, 20 or 21 for the circuit, without a number if it is
not the statement's or the row has other fields, 8 for the three numbers, 6 for
a length, 7 for unused bits, 10 if the witness does not give y, 14 to 18 by the
shelf.

15 has two causes. Behind: the page has fewer draws than the log counts, so it
is old; put the present page back. Ahead: it has more, so the log was set back;
no page of this shelf can be trusted: make a new shelf with a new log. The first
stocking or proof that meets a page ahead writes that into the log, for good.
",
    example: "  \
  wv prove covers16.circuit covers16.row --shelf shelf.page \\
      --log /var/lib/depot/shelf.log --message 'text:order 4711' \\
      --out order.proof --statement covers16.statement
",
    places: 2,
    times: 1,
    options: &[
        "shelf",
        "log",
        "message",
        "out",
        "y",
        "statement",
        "salt",
        "instances",
        "chosen",
        "parties",
        "wait",
    ],
    repeated: &[],
    flags: &[],
    run: prove,
};

fn prove(args: &Args, report: &mut Report) -> Result<(), Failure> {
    let files = ShelfFiles::of(args, args.needed("shelf")?)?;
    let [_, out] = [args.needed("message")?, args.needed("out")?];
    let wish = Wish::read(args)?;
    let mut taken = wish.taken();
    files.spare(&taken)?;
    taken.extend(files.taken());
    let target = Target::find(out, &taken)?;
    let mut work = Work::for_sizes(wish.circuit.sizes);
    wish.rehearse(&mut work)?;
    wish.warn();
    wish.note();
    let root = draw(&files)?;
    let proof = wish.proof(&root, &mut work)?;
    let leaves_standard_output = target.leaves_standard_output();
    target.write(&proof)?;
    if leaves_standard_output {
        if let Some(asked) = &wish.asked {
            asked.report(&wish.y, report);
        }
        let told = format!("proved {} in {} bytes", to_hex(&wish.y), proof.len());
        report.line(&told);
    }
    Ok(())
}

fn draw(files: &ShelfFiles) -> Result<[u8; 16], Failure> {
    let failure = |trouble| files.failure(trouble);
    let mut shelf = files.open()?;
    files.note_stockings(shelf.status().map_err(failure)?);
    shelf.draw().map_err(failure)
}

/// What is to be proved.
struct Wish {
    circuit: Circuit,
    asked: Option<Asked>,
    witness: Input,
    is_bare: bool,
    message: Input,
    claimed: Option<Input>,
    y: Vec<u8>,
    given_salt: Option<Input>,
    salt: Vec<u8>,
    counts: Counts,
}

impl Wish {
    fn read(args: &Args) -> Result<Wish, Failure> {
        let counts = Counts {
            m: args.number("instances")?.unwrap_or(USUAL.m),
            tau: args.number("chosen")?.unwrap_or(USUAL.tau),
            n: args.number("parties")?.unwrap_or(USUAL.n),
        };
        let circuit = Circuit::first(args)?;
        let asked = Asked::of_circuit(args, &circuit)?;
        let witness = witness::read(args, args.place(1), asked.as_ref())?;
        let Witness {
            input: witness,
            is_bare,
        } = witness;
        let claimed = args.option("y").map(|y| args.input(y)).transpose()?;
        let message = args.input(args.needed("message")?)?;
        let given_salt = args
            .option("salt")
            .map(|salt| args.input(salt))
            .transpose()?;
        let y = match &claimed {
            Some(claimed) => claimed.bytes.clone(),
            None => circuit.outputs(&witness)?,
        };
        let salt = match &given_salt {
            Some(given) => given.bytes.clone(),
            None => fresh::salt()?,
        };
        Ok(Wish {
            circuit,
            asked,
            witness,
            is_bare,
            message,
            claimed,
            y,
            given_salt,
            salt,
            counts,
        })
    }

    /// The files that the proof must not replace.
    fn taken(&self) -> Taken {
        let mut taken = self.circuit.taken();
        taken.extend(self.asked.iter().flat_map(Asked::taken));
        let mut take = |what, input: &Input| taken.push((input.titled(what), input.place.clone()));
        take("the witness", &self.witness);
        take("the message", &self.message);
        if let Some(claimed) = &self.claimed {
            take("the claimed output", claimed);
        }
        if let Some(salt) = &self.given_salt {
            take("the salt", salt);
        }
        taken
    }

    fn statement(&self) -> Statement<'_> {
        Statement {
            circuit: self.circuit.bytes(),
            y: &self.y,
            message: &self.message.bytes,
        }
    }

    fn proved(
        &self,
        root: &[u8; 16],
        counts: Counts,
        proof: &mut [u8],
        work: &mut Work,
    ) -> Result<usize, Refusal> {
        let (witness, salt) = (&self.witness.bytes, &self.salt);
        proof::prove(self.statement(), witness, root, salt, counts, proof, work)
    }

    /// Room for a proof; none for counts that are out of the limits.
    fn room(&self, counts: Counts) -> Vec<u8> {
        let len = longest_proof(self.circuit.sizes, counts);
        vec![0; len.unwrap_or(0)]
    }

    /// Is this refused with any root? Asks the library twice, with a root of
    /// zeros and nothing kept: once with no room for a proof, which is refused
    /// with 6 when all that is tested before is good, and once with the least
    /// counts.
    fn rehearse(&self, work: &mut Work) -> Result<(), Failure> {
        let root = [0; 16];
        let failure = |refusal| Failure::Refused(refusal, self.cause(refusal));
        match self.proved(&root, self.counts, &mut [], work) {
            Err(Refusal::Length) => {}
            answer => return answer.map(|_| ()).map_err(failure),
        }
        let least = Counts { m: 2, tau: 1, n: 2 };
        let answer = self.proved(&root, least, &mut self.room(least), work);
        answer.map(|_| ()).map_err(failure)
    }

    /// Which argument the refusal is about.
    fn cause(&self, refusal: Refusal) -> String {
        let witness = self.circuit.witness(&self.witness);
        let y = match &self.claimed {
            Some(claimed) => self.circuit.given_output(claimed),
            None => self.circuit.output("--y".into(), &self.y),
        };
        let cause = match refusal {
            Refusal::Counts => causes::counts(self.counts),
            Refusal::Length => {
                let lengths = witness.length().or_else(|| y.length());
                let name = self.message.titled("--message");
                let message = || causes::message(&name, &self.message.bytes);
                lengths.or_else(message).or_else(|| self.salt_cause())
            }
            Refusal::UnusedBits => witness.unused().or_else(|| y.unused()),
            Refusal::Output => self.circuit.outputs(&self.witness).ok().map(|outputs| {
                let (given, claimed, advice) = self.contrasted(&outputs);
                format!(
                    "{} gives {given}, and --y is {claimed}{advice}",
                    witness.name
                )
            }),
            _ => None,
        };
        cause.unwrap_or_default()
    }

    /// What the circuit gives, what is claimed, and how to see more. By name, if there
    /// is a statement.
    fn contrasted(&self, outputs: &[u8]) -> (String, String, &str) {
        match &self.asked {
            Some(asked) => {
                let [given, claimed] = asked.differences(outputs, &self.y);
                (given, claimed, "")
            }
            None => (
                to_hex(outputs),
                to_hex(&self.y),
                ": `--statement` tells them by name",
            ),
        }
    }

    /// Says, if there is a statement, that bare bits may be those of another row, and if
    /// nobody said what the conditions should be, which of them the row does not meet.
    fn note(&self) {
        let Some(asked) = &self.asked else {
            return;
        };
        if self.is_bare {
            tell(&format!(
                "note: {} has bare bits, which may be those of another row: `wv row` packs a row \
                 that is refused unless its fields are those of the statement",
                self.witness.titled("the witness")
            ));
        }
        if self.claimed.is_some() {
            return;
        }
        for name in asked.unmet(&self.y) {
            tell(&format!(
                "note: {name} is no for this row, and the proof shows it: with --y a row that \
                 does not give what is asked for is refused"
            ));
        }
    }

    /// What is wrong with the salt that was given.
    fn salt_cause(&self) -> Option<String> {
        let given = self.given_salt.as_ref()?;
        causes::salt(&given.titled("--salt"), &given.bytes)
    }

    /// Says so if a buyer will not be content with these counts.
    fn warn(&self) {
        let Counts { m, tau, n } = self.counts;
        let bits = self.counts.soundness_bits();
        if let Some(bits) = bits.filter(|bits| *bits < BITS) {
            let bits = shown_bits(bits);
            tell(&format!(
                "warning: M {m}, tau {tau}, n {n} have {bits} bits of soundness: a buyer's \
                 `wv check` refuses them unless told `--bits {bits}`"
            ));
        }
    }

    fn proof(&self, root: &[u8; 16], work: &mut Work) -> Result<Vec<u8>, Failure> {
        let Counts { m, tau, n } = self.counts;
        let _progress = Progress::start(&format!("proving, M {m}, tau {tau}, n {n}"));
        let mut proof = self.room(self.counts);
        let len = self.proved(root, self.counts, &mut proof, work);
        let failure = |refusal| Failure::Refused(refusal, self.cause(refusal));
        proof.truncate(len.map_err(failure)?);
        Ok(proof)
    }
}
