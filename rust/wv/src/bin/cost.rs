//! What a proof costs.
//!
//! - `cost measure DATA` measures, and writes the data file
//! - `cost plot DATA IMAGE` draws the data as an SVG image
//! - `cost table [DATA]` prints a table in Markdown, with times if there is data

use std::fs;
use std::process::ExitCode;
use wivulameno::circuit::{sizes, Sizes};
use wv::at_least::at_least;
use wv::cost::{self, Measured};
use wv::plot;

const WORST: &[u8] = include_bytes!("../../../../examples/worst.circuit");

fn main() -> ExitCode {
    let words: Vec<String> = std::env::args().skip(1).collect();
    let words: Vec<&str> = words.iter().map(String::as_str).collect();
    let done = match words[..] {
        ["measure", data] => measuring::measure(data),
        ["plot", data, image] => plot_data(data, image),
        ["table"] => print_table(&[]),
        ["table", data] => read(data).and_then(|(_, data)| print_table(&data)),
        _ => Err("usage: cost measure DATA | plot DATA IMAGE | table [DATA]".into()),
    };
    match done {
        Ok(()) => ExitCode::SUCCESS,
        Err(text) => {
            eprintln!("cost: {text}");
            ExitCode::from(2)
        }
    }
}

/// The circuits that are measured: the example of `make run`, and one of 4,096 AND
/// gates.
fn circuits() -> [(&'static str, Vec<u8>); 2] {
    [("covers16", at_least(16, true)), ("worst", WORST.to_vec())]
}

fn sizes_of(circuit: &[u8]) -> Sizes {
    sizes(circuit).expect("a legal circuit")
}

/// The first line without its mark, and the rows.
fn read(path: &str) -> Result<(String, Vec<Measured>), String> {
    let text = fs::read_to_string(path).map_err(|error| format!("{path}: {error}"))?;
    let machine = text.lines().next().unwrap_or("").trim_start_matches("# ");
    let data = cost::read_data(&text).map_err(|line| format!("{path}: {line}"))?;
    Ok((machine.to_string(), data))
}

fn plot_data(data: &str, image: &str) -> Result<(), String> {
    let (machine, rows) = read(data)?;
    if rows.is_empty() {
        return Err(format!("{data}: no data"));
    }
    let svg = plot::svg(&rows, &machine);
    fs::write(image, svg).map_err(|error| format!("{image}: {error}"))
}

fn print_table(data: &[Measured]) -> Result<(), String> {
    let circuits = circuits();
    let sizes = circuits
        .each_ref()
        .map(|(name, file)| (*name, sizes_of(file)));
    print!("{}", cost::table(&sizes, data));
    Ok(())
}

mod measuring {
    use super::{circuits, sizes_of};
    use std::fs;
    use std::time::Instant;
    use wivulameno::circuit::evaluate;
    use wivulameno::proof::{check, prove, Counts, Statement};
    use wivulameno::Work;
    use wv::cost::{data_head, room, Measured, FAMILIES};

    const ROUNDS: usize = 20;

    /// A row that each circuit is happy with.
    fn witness(name: &str) -> Vec<u8> {
        match name {
            "worst" => vec![0xff; 64],
            _ => wv::at_least::row(16, 1000, 250),
        }
    }

    pub fn measure(path: &str) -> Result<(), String> {
        let mut text = data_head(&machine());
        for (name, circuit) in circuits() {
            for counts in FAMILIES.iter().flat_map(|family| family.members) {
                let row = measured(name, &circuit, *counts);
                text += &row.line();
                print!("{}", row.line());
            }
        }
        fs::write(path, text).map_err(|error| format!("{path}: {error}"))
    }

    fn measured(name: &str, circuit: &[u8], counts: Counts) -> Measured {
        let (witness, sizes) = (witness(name), sizes_of(circuit));
        let mut y = vec![0; sizes.y_len()];
        evaluate(circuit, &witness, &mut y).expect("no refusal");
        let statement = Statement {
            circuit,
            y: &y,
            message: b"order 4711",
        };
        let mut proof = vec![0; room(sizes, counts)];
        let mut work = Work::for_sizes(sizes);
        let mut bytes = 0;
        let prove_time = best(|| {
            let (root, salt, out) = (&[0x5a; 16], &[0xa5; 32], &mut proof);
            let made = prove(statement, &witness, root, salt, counts, out, &mut work);
            bytes = made.expect("no refusal");
        });
        let proof = &proof[..bytes];
        let check_time = best(|| check(statement, proof, &mut work).expect("accepted"));
        Measured {
            circuit: name.into(),
            counts,
            bytes,
            prove: prove_time,
            check: check_time,
        }
    }

    /// The best time of some rounds, in milliseconds.
    fn best(mut call: impl FnMut()) -> f64 {
        let times = (0..ROUNDS).map(|_| {
            let start = Instant::now();
            call();
            start.elapsed().as_secs_f64() * 1e3
        });
        times.fold(f64::MAX, f64::min)
    }

    /// The processor's name, if the system tells it.
    fn machine() -> String {
        let info = fs::read_to_string("/proc/cpuinfo").unwrap_or_default();
        let line = info.lines().find(|line| line.starts_with("model name"));
        let name = line.and_then(|line| line.split(": ").nth(1));
        format!("{}, one core", name.unwrap_or(std::env::consts::ARCH))
    }
}
