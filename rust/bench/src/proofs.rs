//! Prove and check of the example circuits and of the worst one, beside the
//! time that their hash calls alone need.

use crate::hash_calls::{call_of, of_check, of_prove};
use crate::openssl::OpenSsl;
use crate::price;
use crate::published;
use crate::rows::{best_times, call, cell, nanoseconds_each, print_line, Row};
use reference::circuit::Sizes;
use reference::proof::{longest, Counts, Statement};
use reference::work::work_len;
use std::hint::black_box;
use wivulameno::Work;

pub const MESSAGE: &[u8] = b"order 17 of depot 4, 2026-03-01.";
const ROOT: [u8; 16] = [0x5a; 16];
const SALT: [u8; 32] = [0xa5; 32];
const INSTANCES: [u32; 3] = [64, 256, 512];

/// The numbers of parties in the table of the examples, and in that of the worst
/// circuit.
const SOME_PARTIES: &[u32] = &[4, 16];
const UP_TO_16: &[u32] = &[2, 4, 8, 16];

/// Error 2^-128; the tau for it follows from M and n.
const SOUNDNESS: f64 = 128.0;

macro_rules! example {
    ($name:literal) => {
        (
            $name,
            include_bytes!(concat!("../../../examples/", $name, ".circuit")).to_vec(),
            include_bytes!(concat!("../../../examples/", $name, ".row")).to_vec(),
        )
    };
}

/// A circuit with a witness, and a proof for each M and n.
pub struct Example {
    pub name: &'static str,
    pub circuit: Vec<u8>,
    witness: Vec<u8>,
    pub y: Vec<u8>,
    sizes: Sizes,
}

impl Example {
    fn of((name, circuit, witness): (&'static str, Vec<u8>, Vec<u8>)) -> Example {
        let sizes = reference::circuit::read(&circuit).expect("a legal circuit");
        let mut y = vec![0; sizes.y_len()];
        reference::circuit::evaluate(&circuit, &witness, &mut y).expect("no refusal");
        Example {
            name,
            circuit,
            witness,
            y,
            sizes,
        }
    }

    /// The worst example with 256 outputs, which are its last wires.
    fn worst() -> Example {
        let (name, one_output, witness) = example!("worst");
        let outputs = (0..256_u32).flat_map(|k| (512 + 4096 - 256 + k).to_le_bytes());
        let mut circuit = one_output[..16].to_vec();
        circuit[4..8].copy_from_slice(&256_u32.to_le_bytes());
        circuit.extend(outputs);
        circuit.extend(&one_output[20..]);
        Example::of((name, circuit, witness))
    }

    /// The comparison of `make run`.
    pub fn covers16() -> Example {
        Example::of(example!("covers16"))
    }

    /// A pricing circuit of so many gates.
    pub fn price(name: &'static str, gates: usize) -> Example {
        let witness = price::row(price::some_values());
        Example::of((name, price::circuit(gates), witness))
    }

    /// So many AND gates, on ones.
    fn ands(name: &'static str, gates: u32) -> Example {
        Example::of((name, published::ands(gates), vec![0xff; 16]))
    }

    fn statement(&self) -> Statement<'_> {
        Statement {
            circuit: &self.circuit,
            y: &self.y,
            message: MESSAGE,
        }
    }

    fn work(&self) -> Work {
        Work::for_circuit(&self.circuit).expect("a legal circuit")
    }

    /// The proof by the library.
    pub fn proof(&self, counts: Counts) -> Vec<u8> {
        let mut proof = vec![0; longest(self.sizes, counts)];
        let statement = wivulameno::proof::Statement {
            circuit: &self.circuit,
            y: &self.y,
            message: MESSAGE,
        };
        let Counts { m, tau, n } = counts;
        let counts = wivulameno::proof::Counts { m, tau, n };
        let mut work = self.work();
        let witness = &self.witness;
        let len = wivulameno::proof::prove(
            statement, witness, &ROOT, &SALT, counts, &mut proof, &mut work,
        );
        proof.truncate(len.expect("no refusal"));
        proof
    }
}

/// The bits of soundness, rounded so that equal errors are equal numbers.
fn soundness(m: u32, tau: u32, n: u32) -> f64 {
    let bits = wivulameno::proof::Counts { m, tau, n }.soundness_bits();
    (bits.expect("legal counts") * 1e6).round() / 1e6
}

/// The least tau that is sound enough, or the least of the soundest if none is.
fn counts(m: u32, n: u32) -> Counts {
    let enough = (1..m).find(|&tau| soundness(m, tau, n) >= SOUNDNESS);
    let bits = |tau: &u32| soundness(m, *tau, n);
    let tau = enough.or_else(|| (1..m).rev().max_by(|a, b| bits(a).total_cmp(&bits(b))));
    Counts {
        m,
        tau: tau.expect("m is 2 or more"),
        n,
    }
}

/// The same lines for both implementations, whose types have the same names.
macro_rules! prove_call {
    ($module:path, $example:expr, $counts:expr, $work:expr) => {{
        use $module as proof;
        let Counts { m, tau, n } = $counts;
        let mut work = $work;
        call(longest($example.sizes, $counts), move |out| {
            let statement = proof::Statement {
                circuit: &$example.circuit,
                y: &$example.y,
                message: MESSAGE,
            };
            let witness = black_box(&$example.witness);
            let counts = proof::Counts { m, tau, n };
            proof::prove(statement, witness, &ROOT, &SALT, counts, out, &mut work)
                .expect("no refusal");
        })
    }};
}

macro_rules! check_call {
    ($module:path, $example:expr, $proof:expr, $work:expr) => {{
        use $module as proof;
        let file: Vec<u8> = $proof.to_vec();
        let mut work = $work;
        call(0, move |_| {
            let statement = proof::Statement {
                circuit: &$example.circuit,
                y: &$example.y,
                message: MESSAGE,
            };
            proof::check(statement, black_box(&file), &mut work).expect("accepted");
        })
    }};
}

/// The counts of a table, by M and then by n.
fn all_counts(parties: &[u32]) -> Vec<Counts> {
    let each = INSTANCES.iter();
    each.flat_map(|&m| parties.iter().map(move |&n| counts(m, n)))
        .collect()
}

/// The same without the second implementation, for which the work would be long.
fn rows_without_second<'a>(
    example: &'a Example,
    counts: Counts,
    openssl: Option<&'a OpenSsl>,
) -> [Row<'a>; 2] {
    rows(example, counts, openssl).map(|row| {
        let [ours, _, hashing] = row.calls;
        Row {
            calls: [ours, None, hashing],
            ..row
        }
    })
}

/// The rows of prove and of check for one circuit and these counts.
fn rows<'a>(example: &'a Example, counts: Counts, openssl: Option<&'a OpenSsl>) -> [Row<'a>; 2] {
    let (statement, proof) = (example.statement(), example.proof(counts));
    let second_work = || vec![0; work_len(example.sizes)];
    let prove = [
        Some(prove_call!(
            wivulameno::proof,
            example,
            counts,
            example.work()
        )),
        Some(prove_call!(
            reference::proof,
            example,
            counts,
            second_work()
        )),
        Some(call_of(openssl, of_prove(example.sizes, counts, statement))),
    ];
    let check = [
        Some(check_call!(
            wivulameno::proof,
            example,
            proof,
            example.work()
        )),
        Some(check_call!(reference::proof, example, proof, second_work())),
        Some(call_of(openssl, of_check(example.sizes, statement, &proof))),
    ];
    let Counts { m, tau, n } = counts;
    let row = |operation, calls| Row {
        name: format!("{operation} {}, M {m}, n {n}, tau {tau}", example.name),
        amount: example.sizes.ands * (n * m) as usize,
        batch: 1,
        calls,
    };
    [row("prove", prove), row("check", check)]
}

/// Milliseconds, and what stands beside them.
fn cells(amount: usize, [ours, second, hashing]: [Option<f64>; 3]) -> [String; 6] {
    let milliseconds = |seconds: Option<f64>| seconds.map(|seconds| seconds * 1e3);
    let ratio = |other: Option<f64>| ours.zip(other).map(|(a, b)| a / b);
    let ands = ours.filter(|_| amount > 0);
    let each = ands.map(|ours| nanoseconds_each(ours, amount as f64));
    [
        cell(milliseconds(ours), 2),
        cell(milliseconds(second), 2),
        cell(milliseconds(hashing), 2),
        cell(each, 2),
        cell(ratio(hashing), 2),
        cell(ratio(second), 2),
    ]
}

fn print_table(examples: &[Example], parties: &[u32], rounds: usize, openssl: Option<&OpenSsl>) {
    let all = all_counts(parties);
    let rows = examples.iter().flat_map(|example| {
        let all = all.iter();
        all.flat_map(move |&counts| rows(example, counts, openssl))
    });
    print_rows(&mut rows.collect::<Vec<Row>>(), rounds, LEAST_TAU, openssl);
    println!();
}

/// Which instances are chosen.
const LEAST_TAU: &str =
    "the least tau for an error of 2^-128, or the tau of the least error if\nnone is";
const AN_EIGHTH: &str = "an eighth of the instances is chosen";

/// Times the rows and prints them; gives the best seconds of each.
fn print_rows(
    rows: &mut [Row],
    rounds: usize,
    tau: &str,
    openssl: Option<&OpenSsl>,
) -> Vec<[Option<f64>; 3]> {
    let best = best_times(rounds, rows);
    let hasher = if openssl.is_some() {
        "OpenSSL"
    } else {
        "the second"
    };
    println!("ms; ns for each AND gate, party and instance; hashing is the same hash calls alone,");
    println!("by {hasher}; {tau}; best of {rounds} rounds");
    let head = [
        "ours",
        "second",
        "hashing",
        "ns each",
        "ours/hashing",
        "ours/second",
    ];
    print_line("", &head.map(String::from));
    for (row, best) in rows.iter().zip(&best) {
        print_line(&row.name, &cells(row.amount, *best));
    }
    best
}

/// The examples, then the worst circuit in fewer rounds.
pub fn print(openssl: Option<&OpenSsl>) {
    let [covers32, fresh] = [example!("covers32"), example!("fresh")].map(Example::of);
    let small = [Example::covers16(), covers32, fresh];
    print_table(&small, SOME_PARTIES, 15, openssl);
    print_table(&[Example::worst()], UP_TO_16, 6, openssl);
    print_many_parties(openssl);
    print_prices(openssl);
    print_ands(openssl);
    print_parties_and_instances(openssl);
    published::print();
}

/// Error 2^-128 with 32 parties as table 1 of Katz, Kolesnikov and Wang has it, and with 64:
/// the table's M, 631, is above 512, so tau is the least one for which an M is not.
pub const MANY_PARTIES: [Counts; 2] = [
    Counts {
        m: 462,
        tau: 27,
        n: 32,
    },
    Counts {
        m: 439,
        tau: 25,
        n: 64,
    },
];

/// The worst circuit by 32 and by 64 parties.
fn print_many_parties(openssl: Option<&OpenSsl>) {
    let worst = Example::worst();
    let rows = MANY_PARTIES
        .into_iter()
        .flat_map(|counts| rows_without_second(&worst, counts, openssl));
    print_rows(&mut rows.collect::<Vec<Row>>(), 3, LEAST_TAU, openssl);
    println!();
}

/// Error 2^-128 with 16 parties, as table 1 of Katz, Kolesnikov and Wang has it.
const PRICE_COUNTS: Counts = Counts {
    m: 352,
    tau: 33,
    n: 16,
};

/// Pricing circuits of 9,000 and of 90,000 gates side by side: time and memory, and how
/// far from linear the time is. What a proof of one gate takes (seeds, commitments, the
/// masters' tree) does not grow with the circuit; the rest is the time of the AND gates.
fn print_prices(openssl: Option<&OpenSsl>) {
    let examples = [
        Example::price("1 gate", 1),
        Example::price("9000 gates", 9_000),
        Example::price("90000 gates", 90_000),
    ];
    let rows = examples
        .iter()
        .flat_map(|example| rows(example, PRICE_COUNTS, openssl));
    let mut rows: Vec<Row> = rows.collect();
    let best = print_rows(&mut rows, 5, LEAST_TAU, openssl);
    let ands = examples.each_ref().map(|example| example.sizes.ands);
    print_growth(
        ["90000 against 9000 gates", "AND gate", "1 gate"],
        ands,
        &best,
    );
    for example in &examples[1..] {
        print_memory(example);
    }
    println!();
}

/// By 4 parties the gates are nearly all that a proof of many AND gates takes.
const FEW_PARTIES: Counts = Counts {
    m: 256,
    tau: 64,
    n: 4,
};

/// Circuits of AND gates alone, 9,000 and 90,000 of them, by 16 parties and by 4.
fn print_ands(openssl: Option<&OpenSsl>) {
    let examples = [
        Example::ands("1 AND gate", 1),
        Example::ands("9000 AND gates", 9_000),
        Example::ands("90000 AND gates", 90_000),
    ];
    let ands = examples.each_ref().map(|example| example.sizes.ands);
    for counts in [PRICE_COUNTS, FEW_PARTIES] {
        let rows = examples
            .iter()
            .flat_map(|example| rows_without_second(example, counts, openssl));
        let best = print_rows(&mut rows.collect::<Vec<Row>>(), 3, LEAST_TAU, openssl);
        let against = format!("90000 against 9000 AND gates, n {}", counts.n);
        print_growth([&against, "AND gate", "1 gate"], ands, &best);
        println!();
    }
}

/// The least number of parties, few, and many, with M 64, and an eighth of the instances
/// chosen.
const PARTIES: [Counts; 3] = {
    const fn of(n: u32) -> Counts {
        Counts { m: 64, tau: 8, n }
    }
    [of(2), of(16), of(64)]
};

/// Hardly any instances, few, and the most, by 16 parties, and an eighth of them chosen.
const GROWING_INSTANCES: [Counts; 3] = {
    const fn of(m: u32) -> Counts {
        Counts {
            m,
            tau: m / 8,
            n: 16,
        }
    }
    [of(8), of(64), of(512)]
};

/// A price of 9,000 gates by more and more parties, and in more and more instances: how
/// far from linear the time is in each.
fn print_parties_and_instances(openssl: Option<&OpenSsl>) {
    let example = Example::price("9000 gates", 9_000);
    let best_of = |all: [Counts; 3]| {
        let rows = all.into_iter();
        let rows = rows.flat_map(|counts| rows_without_second(&example, counts, openssl));
        print_rows(&mut rows.collect::<Vec<Row>>(), 5, AN_EIGHTH, openssl)
    };
    let best = best_of(PARTIES);
    print_growth(
        ["64 against 16 parties", "party", "2 parties"],
        PARTIES.map(|counts| counts.n as usize),
        &best,
    );
    println!();
    let best = best_of(GROWING_INSTANCES);
    print_growth(
        ["512 against 64 instances", "instance", "8 instances"],
        GROWING_INSTANCES.map(|counts| counts.m as usize),
        &best,
    );
    println!();
}

/// Prints how the times of prove and check, in turn, grow from the least number over few to
/// many: whole, with what does not grow in it, and without the price of the least number.
fn print_growth([against, each, least]: [&str; 3], numbers: [usize; 3], best: &[[Option<f64>; 3]]) {
    for (operation, first) in [("prove", 0), ("check", 1)] {
        let seconds = [0, 2, 4].map(|row| best[first + row][0].expect("a time"));
        let [whole, without] = growth(numbers, seconds);
        println!(
            "{against}, {operation}, the time for each {each}: {whole:.2}; without the {:.2} ms of \
             {least}: {without:.2}",
            1e3 * seconds[0],
        );
    }
}

/// The time for each of many over that for each of few: whole, and without the least number
/// and its time. The second is 1 for a time that is linear with a fixed part; so is the
/// first without one.
fn growth(numbers: [usize; 3], seconds: [f64; 3]) -> [f64; 2] {
    let [least, few, many] = numbers.map(|number| number as f64);
    let [fixed, at_few, at_many] = seconds;
    let each = |seconds: f64, number: f64| seconds / number;
    [
        each(at_many, many) / each(at_few, few),
        each(at_many - fixed, many - least) / each(at_few - fixed, few - least),
    ]
}

/// What the library is lent for a proof; it has no other memory but the stack.
fn print_memory(example: &Example) {
    let room = longest(example.sizes, PRICE_COUNTS);
    println!(
        "{}: lent for a proof {} B of circuit, {} B of work buffer, {room} B of room; the proof \
         has {} B",
        example.name,
        example.circuit.len(),
        work_len(example.sizes),
        example.proof(PRICE_COUNTS).len()
    );
}

#[cfg(test)]
mod tests {
    use super::*;

    /// The taus were found with exact fractions, apart from this program.
    #[test]
    fn sound_enough() {
        let taus = all_counts(UP_TO_16).into_iter().map(|counts| counts.tau);
        let taus: Vec<u32> = taus.collect();
        assert_eq!(taus, [42, 36, 34, 33, 128, 64, 44, 36, 128, 64, 43, 32]);
        assert!((soundness(256, 36, 16) - 128.909).abs() < 0.001);
        for Counts { m, tau, n } in MANY_PARTIES {
            assert!((128.0..128.1).contains(&soundness(m, tau, n)), "{n}");
            assert!(soundness(512, tau - 2, n) < 128.0, "{n}");
        }
    }

    /// A fixed part shows in the first figure alone, what grows faster in both.
    #[test]
    fn figures_of_growth() {
        let numbers = [2, 16, 64];
        let near = |figures: [f64; 2], expected: [f64; 2]| {
            for (figure, expected) in figures.into_iter().zip(expected) {
                assert!((figure - expected).abs() < 1e-9, "{figures:?}");
            }
        };
        let of = |time: fn(f64) -> f64| growth(numbers, numbers.map(|number| time(number as f64)));
        near(of(|number| 3.0 * number), [1.0, 1.0]);
        // (32 + 64) / 64 is 1.5, (32 + 16) / 16 is 3.
        near(of(|number| 32.0 + number), [0.5, 1.0]);
        // 64 over 16; (4096 - 4) / 62 over (256 - 4) / 14, which are 66 and 18.
        near(of(|number| number * number), [4.0, 66.0 / 18.0]);
    }

    #[test]
    fn counts_that_grow() {
        for all in [PARTIES, GROWING_INSTANCES] {
            for Counts { m, tau, n } in all {
                assert!(wivulameno::proof::Counts { m, tau, n }.are_legal());
                assert_eq!(8 * tau, m);
            }
        }
        assert_eq!(PARTIES.map(|counts| counts.n), [2, 16, 64]);
        assert_eq!(GROWING_INSTANCES.map(|counts| counts.m), [8, 64, 512]);
    }

    #[test]
    fn the_worst_has_4096_ands() {
        let sizes = Example::worst().sizes;
        let all = [sizes.inputs, sizes.outputs, sizes.gates, sizes.ands];
        assert_eq!(all, [512, 256, 4096, 4096]);
    }
}
