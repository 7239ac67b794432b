//! The main job on an example, from the new shelf to the refused old page, and two
//! statements in one proof: `depot FOLDER` makes its files in that folder, which is
//! emptied first.

use std::error::Error;
use std::fs;
use std::path::{Path, PathBuf};
use std::process::ExitCode;
use wivulameno::{circuit, Refusal, Shelf};
use wv::at_least::{at_least, covered, row};
use wv::fresh;

type Done<T = ()> = Result<T, Box<dyn Error>>;

/// The numbers of the example have this many bits.
const WIDTH: u16 = 16;
const STOCK: u64 = 1000;
const ORDER: u64 = 250;
const SLOTS: u16 = 8;
const ROOTS: usize = 4;

/// Two circuits over one row, which has a stock, an order, the row's date and today.
const ENOUGH: &[u8] = include_bytes!("../../../../examples/enough.circuit");
const INDATE: &[u8] = include_bytes!("../../../../examples/indate.circuit");
const GOODS: &[u8] = include_bytes!("../../../../examples/both.row");

/// 1 and the order, 250, in 17 bits; then 1 and today, 20,000, in 17 bits.
const BOTH: [u8; 5] = [0xf5, 0x01, 0x82, 0x38, 0x01];

fn main() -> ExitCode {
    let Some(folder) = std::env::args_os().nth(1) else {
        eprintln!("usage: depot FOLDER");
        return ExitCode::from(2);
    };
    match play(Path::new(&folder)) {
        Ok(()) => ExitCode::SUCCESS,
        Err(error) => {
            eprintln!("depot: {error}");
            ExitCode::FAILURE
        }
    }
}

fn play(folder: &Path) -> Done {
    if folder.exists() {
        fs::remove_dir_all(folder)?;
    }
    fs::create_dir_all(folder)?;
    let files = [folder.join("shelf.page"), folder.join("shelf.log")];
    let statement = example(folder)?;
    let mut shelf = stocked(&files)?;
    let before = fs::read(&files[0])?;
    let root = drawn(&mut shelf)?;
    proof::prove_and_check(folder, "order.proof", &statement, &root)?;
    let both = joined(folder)?;
    let root = drawn(&mut shelf)?;
    drop(shelf);
    proof::prove_and_check(folder, "both.proof", &both, &root)?;
    incident(&files, &before)
}

/// The circuit, the row that fulfils it, and the output that says so.
struct Example {
    circuit: Vec<u8>,
    witness: Vec<u8>,
    y: Vec<u8>,
}

fn example(folder: &Path) -> Done<Example> {
    println!("The statement: the stock on hand covers an order of {ORDER}.");
    let path = folder.join("covers16.circuit");
    let witness = row(WIDTH, STOCK, ORDER);
    let example = Example::of(&path, at_least(WIDTH, true), witness)?;
    assert_eq!(example.y, covered(WIDTH, ORDER));
    println!("  the row has {STOCK} on hand, which stays in the depot");
    println!("  the output tells that the order is covered, and the order\n");
    Ok(example)
}

/// Both statements of one row: enough stock, and not past its date.
fn joined(folder: &Path) -> Done<Example> {
    println!("Two statements on one row, joined: enough stock, and not past its date.");
    let circuit = circuit::join_to_vec(ENOUGH, INDATE)?;
    let both = Example::of(&folder.join("both.circuit"), circuit, GOODS.to_vec())?;
    assert_eq!(both.y, BOTH);
    println!("  the output tells that both are so, the order, and today");
    println!("  stock and date stay in the depot\n");
    Ok(both)
}

impl Example {
    /// Writes the circuit, and takes the output of the row for what is claimed.
    fn of(path: &Path, circuit: Vec<u8>, witness: Vec<u8>) -> Done<Example> {
        fs::write(path, &circuit)?;
        let sizes = circuit::sizes(&circuit)?;
        println!(
            "  {}: {} bytes, I {}, O {}, G {}, of them {} AND",
            path.display(),
            circuit.len(),
            sizes.inputs,
            sizes.outputs,
            sizes.gates,
            sizes.ands
        );
        let mut y = vec![0; sizes.y_len()];
        circuit::evaluate(&circuit, &witness, &mut y)?;
        Ok(Example {
            circuit,
            witness,
            y,
        })
    }
}

fn stocked([page, log]: &[PathBuf; 2]) -> Done<Shelf> {
    println!(
        "A shelf of {SLOTS} slots, with {ROOTS} roots from the operating system's random source."
    );
    let mut shelf = Shelf::create(page, log, SLOTS)?;
    for _ in 0..ROOTS {
        shelf.stock(&fresh::root().map_err(|failure| failure.to_string())?)?;
    }
    println!("  {}: {} bytes", page.display(), fs::metadata(page)?.len());
    tell(&mut shelf)?;
    println!();
    Ok(shelf)
}

fn tell(shelf: &mut Shelf) -> Done {
    let status = shelf.status()?;
    let (ready, draws, count) = (status.ready, status.draws, status.count);
    println!("  {ready} roots ready; draws: {draws} on the page, {count} in the log");
    Ok(())
}

fn drawn(shelf: &mut Shelf) -> Done<[u8; 16]> {
    println!("One root is drawn. The log counts it before it is used.");
    let root = shelf.draw()?;
    tell(shelf)?;
    println!();
    Ok(root)
}

/// The cache keeps the page from before the draws, and puts it back.
fn incident([page, log]: &[PathBuf; 2], before: &[u8]) -> Done {
    println!("The incident: the page from before the draws is put back.");
    fs::write(page, before)?;
    let mut shelf = Shelf::open(page, log)?;
    tell(&mut shelf)?;
    let Err(trouble) = shelf.draw() else {
        return Err("a root went out twice".into());
    };
    match trouble.refusal() {
        Some(Refusal::AnotherCount) => {
            println!("  a draw: {trouble}");
            Ok(())
        }
        _ => Err(trouble.into()),
    }
}

mod proof {
    use super::{Done, Example};
    use std::fs;
    use std::path::Path;
    use std::time::Instant;
    use wivulameno::circuit::sizes;
    use wivulameno::proof::{check, prove, Counts, Statement};
    use wivulameno::Work;
    use wv::cost::{bits_shown, room, USUAL};
    use wv::fresh;

    const MESSAGE: &[u8] = b"order 4711 of 15 November";

    pub fn prove_and_check(folder: &Path, name: &str, example: &Example, root: &[u8; 16]) -> Done {
        let statement = Statement {
            circuit: &example.circuit,
            y: &example.y,
            message: MESSAGE,
        };
        let Counts { m, tau, n } = USUAL;
        println!("The proof, with M {m}, tau {tau}, n {n}, and a new salt.");
        let salt = fresh::salt().map_err(|failure| failure.to_string())?;
        let mut proof = vec![0; room(sizes(&example.circuit)?, USUAL)];
        let start = Instant::now();
        let mut work = Work::for_circuit(&example.circuit)?;
        let len = prove(
            statement,
            &example.witness,
            root,
            &salt,
            USUAL,
            &mut proof,
            &mut work,
        )?;
        println!("  made in {}", milliseconds(start));
        proof.truncate(len);
        let path = folder.join(name);
        fs::write(&path, &proof)?;
        println!("  {}: {len} bytes", path.display());
        println!("  soundness {} bits\n", bits_shown(USUAL));
        check_as_buyer(statement, &fs::read(path)?, &mut work)
    }

    fn check_as_buyer(statement: Statement, proof: &[u8], work: &mut Work) -> Done {
        println!("The buyer's end has the circuit, the output, the message and the proof.");
        let start = Instant::now();
        check(statement, proof, work)?;
        println!("  accepted in {}", milliseconds(start));
        let message = b"order 4712 of 15 November";
        let other = Statement {
            message,
            ..statement
        };
        match check(other, proof, work) {
            Err(refusal) => {
                println!("  for another message, which gives another challenge: {refusal}\n")
            }
            Ok(()) => return Err("accepted for another message".into()),
        }
        Ok(())
    }

    fn milliseconds(start: Instant) -> String {
        format!("{:.2} ms", start.elapsed().as_secs_f64() * 1e3)
    }
}
