//! What a proof of a circuit costs, for good counts.

use super::check::{shown_bits, BITS};
use super::circuit::Circuit;
use super::Command;
use crate::args::Args;
use crate::cost::{longest, room, PAPER};
use crate::failure::Failure;
use crate::names::counted;
use crate::progress::Progress;
use crate::report::Report;
use crate::soundness::good_counts;
use std::time::{Duration, Instant};
use wivulameno::circuit::{evaluate, Sizes};
use wivulameno::limits::MAX_INSTANCES;
use wivulameno::proof::{check, prove, Counts, Statement};
use wivulameno::Work;

pub const COST: Command = Command {
    name: "cost",
    usage: "CIRCUIT [--bits B]",
    about: "Print what a proof costs, for good M, tau and n.",
    help: "\
For each number of parties n, prints the M and tau that make the shortest proofs
and those with the fewest instances, with the soundness in bits, the most bytes
that a proof can have, and the milliseconds to prove and to check. The row with
the fewest bytes is marked `shortest`; the one with the least time to prove and
check, taken together, `fastest`; and for 128 bits the rows of table 1 in Katz,
Kolesnikov and Wang (2018), as far as a proof can have them, `paper`. `wv prove`
takes the numbers of a row as --instances, --chosen and --parties.

  --bits B  the soundness that is asked for, usually 128

The times are measured on this machine, the best of a few rounds, with a witness
of zeros: a proof takes as long for every witness. No root is drawn.

Refused with 1, 2, 3, 5, 19, 20 or 21 for the circuit, and without a number if
no M up to 512 has so many bits.
",
    example: "  wv cost covers16.circuit --bits 128\n",
    places: 1,
    times: 1,
    options: &["bits"],
    repeated: &[],
    flags: &[],
    run: cost,
};

fn cost(args: &Args, report: &mut Report) -> Result<(), Failure> {
    let goal = args.decimal("bits")?.unwrap_or(BITS);
    let circuit = Circuit::read(args, args.place(0))?;
    let counts = good_counts(goal, |counts| longest(circuit.sizes, counts));
    if counts.is_empty() {
        let text = format!(
            "no M up to {MAX_INSTANCES} has {goal} bits of soundness: ask for fewer with --bits"
        );
        return Err(Failure::Unwanted(text));
    }
    let counts = with_paper(counts, goal);
    let rows: Vec<Row> = counts
        .into_iter()
        .map(|counts| Row::measured(&circuit, counts))
        .collect();
    report.line(&title(circuit.sizes));
    for line in table(&rows, goal) {
        report.line(&line);
    }
    Ok(())
}

/// The same with those of the paper, if so many bits are asked for; by rising n.
fn with_paper(mut counts: Vec<Counts>, goal: f64) -> Vec<Counts> {
    let others = PAPER
        .iter()
        .filter(|paper| goal == BITS && !counts.contains(paper));
    counts.extend(others.copied().collect::<Vec<_>>());
    counts.sort_by_key(|counts| counts.n);
    counts
}

fn title(sizes: Sizes) -> String {
    let [inputs, outputs, ands] = [
        counted(sizes.inputs, "input"),
        counted(sizes.outputs, "output"),
        counted(sizes.ands, "AND gate"),
    ];
    format!("{inputs}, {outputs}, {ands}")
}

/// Counts with what they cost; times in milliseconds.
struct Row {
    counts: Counts,
    bytes: usize,
    prove: f64,
    check: f64,
}

impl Row {
    fn measured(circuit: &Circuit, counts: Counts) -> Row {
        let Counts { m, tau, n } = counts;
        let _progress = Progress::start(&format!("measuring, M {m}, tau {tau}, n {n}"));
        let sizes = circuit.sizes;
        let witness = vec![0; sizes.witness_len()];
        let mut y = vec![0; sizes.y_len()];
        evaluate(circuit.bytes(), &witness, &mut y).expect("a legal circuit");
        let statement = Statement {
            circuit: circuit.bytes(),
            y: &y,
            message: b"",
        };
        let mut proof = vec![0; room(sizes, counts)];
        let mut work = Work::for_sizes(sizes);
        let mut len = 0;
        let prove_time = best(|| {
            let (root, salt, out) = (&[0; 16], &[0; 32], &mut proof);
            let made = prove(statement, &witness, root, salt, counts, out, &mut work);
            len = made.expect("no refusal");
        });
        let proof = &proof[..len];
        let check_time = best(|| check(statement, proof, &mut work).expect("accepted"));
        Row {
            counts,
            bytes: longest(sizes, counts),
            prove: prove_time,
            check: check_time,
        }
    }

    fn time(&self) -> f64 {
        self.prove + self.check
    }
}

/// The best time of some rounds, in milliseconds.
fn best(mut call: impl FnMut()) -> f64 {
    const ROUNDS: usize = 10;
    const LONGEST: Duration = Duration::from_millis(300);
    let begin = Instant::now();
    let mut best = Duration::MAX;
    for _ in 0..ROUNDS {
        let start = Instant::now();
        call();
        best = best.min(start.elapsed());
        if begin.elapsed() > LONGEST {
            break;
        }
    }
    best.as_secs_f64() * 1e3
}

/// The lines of the table, with the marks.
fn table(rows: &[Row], goal: f64) -> Vec<String> {
    let shortest = rows.iter().map(|row| row.bytes).min();
    let fastest = rows.iter().map(Row::time).fold(f64::MAX, f64::min);
    let mut lines = vec![format!(
        "{:>3} {:>4} {:>4} {:>6} {:>13} {:>9} {:>9}",
        "n", "M", "tau", "bits", "bytes at most", "prove ms", "check ms"
    )];
    let [mut short, mut fast] = [false; 2];
    for row in rows {
        let Counts { m, tau, n } = row.counts;
        let bits = shown_bits(row.counts.soundness_bits().expect("legal counts"));
        let mut line = format!(
            "{n:>3} {m:>4} {tau:>4} {bits:>6} {:>13} {:>9.2} {:>9.2}",
            row.bytes, row.prove, row.check
        );
        if Some(row.bytes) == shortest && !short {
            line += "  shortest";
            short = true;
        }
        if row.time() == fastest && !fast {
            line += "  fastest";
            fast = true;
        }
        if goal == BITS && PAPER.contains(&row.counts) {
            line += "  paper";
        }
        lines.push(line);
    }
    lines
}
