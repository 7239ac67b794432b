//! 16 callers on one shared checker, beside 16 checks alone.

use crate::proofs::{Example, MANY_PARTIES, MESSAGE};
use crate::rows::{best_times, call, cell, print_line, Call, Row};
use reference::proof::Counts;
use wivulameno::limits::MAX_CALLERS;
use wivulameno::proof::{check, Places, SharedChecker, Statement};
use wivulameno::Work;

/// A circuit with the proofs of all callers.
struct Callers {
    example: Example,
    counts: Counts,
    proof: Vec<u8>,
}

impl Callers {
    fn of(example: Example, counts: Counts) -> Callers {
        let proof = example.proof(counts);
        Callers {
            example,
            counts,
            proof,
        }
    }

    fn statement(&self) -> Statement<'_> {
        Statement {
            circuit: &self.example.circuit,
            y: &self.example.y,
            message: MESSAGE,
        }
    }

    /// All callers enter, and calls of this quota follow until all are accepted. Each has
    /// its own copy of all inputs.
    fn shared(&self, quota: u32) -> Call<'_> {
        let mut buffer = vec![];
        let places =
            [(); MAX_CALLERS].map(|()| Places::append(&mut buffer, self.statement(), &self.proof));
        let mut work = Work::for_every_circuit();
        call(0, move |_| {
            let mut checker = SharedChecker::new();
            for (caller, places) in (0..).zip(places) {
                let entered = checker.enter(caller, places, &buffer, &mut work);
                entered.expect("no refusal");
            }
            let mut accepted = 0;
            while accepted < MAX_CALLERS {
                let checked = checker.check(quota, &buffer, &mut work);
                let checked = checked.expect("somebody waits");
                for (_, verdict) in checked.finished() {
                    verdict.expect("accepted");
                    accepted += 1;
                }
            }
        })
    }

    /// The same proofs one after the other, with a work buffer for this circuit.
    fn alone(&self) -> Call<'_> {
        let mut work = Work::for_circuit(&self.example.circuit).expect("a legal circuit");
        call(0, move |_| {
            for _ in 0..MAX_CALLERS {
                check(self.statement(), &self.proof, &mut work).expect("accepted");
            }
        })
    }

    fn row(&self, quota: u32) -> Row<'_> {
        let Counts { m, n, .. } = self.counts;
        Row {
            name: format!("{}, M {m}, n {n}, quota {quota}", self.example.name),
            amount: MAX_CALLERS * m as usize,
            batch: 1,
            calls: [Some(self.shared(quota)), Some(self.alone()), None],
        }
    }
}

/// Small circuits, by few parties and by more, then what it costs that every call reads the
/// large circuits again.
pub fn print() {
    let counts = |m, tau, n| Counts { m, tau, n };
    let small = Callers::of(Example::covers16(), counts(145, 66, 8));
    let large = Callers::of(Example::price("100000 gates", 100_000), counts(16, 4, 16));
    let mut rows = [16, 64, 512].map(|quota| small.row(quota));
    print_rows(&mut rows, 5);
    let more = [counts(352, 33, 16), MANY_PARTIES[0], MANY_PARTIES[1]];
    let more = more.map(|counts| Callers::of(Example::covers16(), counts));
    let mut rows = more.each_ref().map(|callers| callers.row(64));
    print_rows(&mut rows, 2);
    let mut rows = [16, 64, 512].map(|quota| large.row(quota));
    print_rows(&mut rows, 2);
    println!();
}

fn print_rows(rows: &mut [Row], rounds: usize) {
    let best = best_times(rounds, rows);
    println!("16 callers on one shared checker, and the same 16 checks alone, ms;");
    println!("us is what the shared checker takes more for an instance; best of {rounds} rounds");
    let head = ["shared", "alone", "shared/alone", "us more each"];
    print_line("", &head.map(String::from));
    for (row, [shared, alone, _]) in rows.iter().zip(best) {
        let [shared, alone] = [shared, alone].map(|seconds| seconds.expect("a time"));
        let more = (shared - alone) / row.amount as f64;
        let cells = [
            cell(Some(1e3 * shared), 1),
            cell(Some(1e3 * alone), 1),
            cell(Some(shared / alone), 2),
            cell(Some(1e6 * more), 1),
        ];
        print_line(&row.name, &cells);
    }
}
