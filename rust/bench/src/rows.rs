//! Tables of calls: each call is timed in many short rounds, and the best counts.

use std::hint::black_box;
use std::time::{Duration, Instant};

/// Within a round each call has this time, or one batch if that takes longer:
/// short, so that some rounds of each call meet no noise.
const SLICE: Duration = Duration::from_micros(200);

/// Rounds of the tables of short calls.
pub const ROUNDS: usize = 400;

pub type Call<'a> = Box<dyn FnMut() + 'a>;

/// One line of a table: the same work by us, by the second implementation and
/// by OpenSSL. `amount` is what one call does, `batch` the calls between two
/// looks at the clock.
pub struct Row<'a> {
    pub name: String,
    pub amount: usize,
    pub batch: usize,
    pub calls: [Option<Call<'a>>; 3],
}

/// Rows with one unit. `told` makes it of the seconds for one call and of the
/// amount.
pub struct Table<'a> {
    pub title: String,
    pub rounds: usize,
    pub told: fn(f64, f64) -> f64,
    pub rows: Vec<Row<'a>>,
}

/// A call with an output of `len` bytes, which the optimizer must keep.
pub fn call<'a>(len: usize, mut fill: impl FnMut(&mut [u8]) + 'a) -> Call<'a> {
    let mut out = vec![0; len];
    Box::new(move || {
        fill(&mut out);
        black_box(&out);
    })
}

/// The same for a function that returns its digest.
pub fn digest<'a>(hash: impl Fn() -> [u8; 32] + 'a) -> Call<'a> {
    call(32, move |out| out.copy_from_slice(&hash()))
}

/// Bytes in a microsecond.
pub fn megabytes_per_second(seconds: f64, bytes: f64) -> f64 {
    bytes / (seconds * 1e6)
}

pub fn nanoseconds_each(seconds: f64, count: f64) -> f64 {
    seconds * 1e9 / count
}

impl Table<'_> {
    pub fn print(&mut self) {
        let best = best_times(self.rounds, &mut self.rows);
        println!("{}, best of {} rounds", self.title, self.rounds);
        let head = ["ours", "second", "OpenSSL", "ours/OpenSSL", "ours/second"];
        print_line("", &head.map(String::from));
        for (row, best) in self.rows.iter().zip(best) {
            let told = best.map(|best| best.map(|best| (self.told)(best, row.amount as f64)));
            print_row(&row.name, told);
        }
        println!();
    }
}

/// The best seconds for each call. All rows are timed in each round, so that
/// noise meets them all.
pub fn best_times(rounds: usize, rows: &mut [Row]) -> Vec<[Option<f64>; 3]> {
    let mut best = vec![[None; 3]; rows.len()];
    for _ in 0..rounds {
        for (row, best) in rows.iter_mut().zip(&mut best) {
            run_round(row, best);
        }
    }
    best
}

/// One round of a row: each call for one slice of time.
fn run_round(row: &mut Row, best: &mut [Option<f64>; 3]) {
    for (best, call) in best.iter_mut().zip(&mut row.calls) {
        if let Some(call) = call {
            let time = seconds_of(row.batch, call);
            *best = Some(f64::min(time, best.unwrap_or(f64::MAX)));
        }
    }
}

/// The seconds for one call, over one slice of time.
fn seconds_of(batch: usize, call: &mut Call) -> f64 {
    let start = Instant::now();
    let mut calls = 0;
    while start.elapsed() < SLICE {
        for _ in 0..batch {
            call();
        }
        calls += batch;
    }
    start.elapsed().as_secs_f64() / calls as f64
}

fn print_row(name: &str, [ours, second, openssl]: [Option<f64>; 3]) {
    let ratio = |other: Option<f64>| ours.zip(other).map(|(a, b)| a / b);
    let cells = [
        cell(ours, 1),
        cell(second, 1),
        cell(openssl, 1),
        cell(ratio(openssl), 2),
        cell(ratio(second), 2),
    ];
    print_line(name, &cells);
}

pub fn cell(value: Option<f64>, digits: usize) -> String {
    value.map_or("-".into(), |value| format!("{value:.digits$}"))
}

/// A name and its cells, each wide enough for the longest head.
pub fn print_line(name: &str, cells: &[String]) {
    print!("{name:<36}");
    for cell in cells {
        print!("{cell:>13}");
    }
    println!();
}
