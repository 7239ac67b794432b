//! Circuits that are built of others, and small ones by their place.

use crate::price;
use crate::rows::{call, megabytes_per_second, Call, Row, Table};
use reference::small::Small;
use std::hint::black_box;

const ROUNDS: usize = 40;
const SMALL_ROUNDS: usize = 400;

/// The gates of the circuit of a price that is joined with itself.
const GATES: usize = 45_000;

/// Room for every circuit.
const ROOM: usize = wivulameno::limits::MAX_CIRCUIT;

/// The gates of the circuit of a price that is asked for one of several prices.
const ASKED_GATES: usize = 90_000;

/// What the builders work on.
pub struct Circuits {
    price: Vec<u8>,
    asked: Vec<u8>,
    prices: Vec<u8>,
}

impl Circuits {
    /// The list is of 16 prices, none of them twice, of 32 bits each.
    pub fn new() -> Circuits {
        let prices = (0..16).map(|k: u32| k.wrapping_mul(0x9e37_79b9));
        Circuits {
            price: price::circuit(GATES),
            asked: price::circuit(ASKED_GATES),
            prices: prices.flat_map(u32::to_le_bytes).collect(),
        }
    }
}

/// A builder that writes a file into a buffer with room for it.
fn built<'a>(build: impl Fn(&mut [u8]) -> usize + 'a) -> Call<'a> {
    call(ROOM, move |out| {
        black_box(build(out));
    })
}

pub fn table(circuits: &Circuits) -> Table<'_> {
    Table {
        title: "MB/s of circuit file built; B is a byte, MB a million".into(),
        rounds: ROUNDS,
        told: megabytes_per_second,
        rows: vec![join(&circuits.price), one_of(circuits)],
    }
}

fn join(price: &[u8]) -> Row<'_> {
    let ours = move |out: &mut [u8]| {
        wivulameno::circuit::join(black_box(price), price, out).expect("no refusal")
    };
    let second = move |out: &mut [u8]| {
        reference::join::join(black_box(price), price, out).expect("no refusal")
    };
    let len = ours(&mut vec![0; ROOM]);
    Row {
        name: format!("join two of {GATES} gates, {len} B"),
        amount: len,
        batch: 1,
        calls: [Some(built(ours)), Some(built(second)), None],
    }
}

/// The second implementation says what a built file must give, and builds none.
fn one_of(circuits: &Circuits) -> Row<'_> {
    let Circuits { asked, prices, .. } = circuits;
    let ours = move |out: &mut [u8]| {
        wivulameno::circuit::one_of(black_box(asked), prices, out).expect("no refusal")
    };
    let len = ours(&mut vec![0; ROOM]);
    Row {
        name: format!("one of 16, {ASKED_GATES} gates, {len} B"),
        amount: len,
        batch: 1,
        calls: [Some(built(ours)), None, None],
    }
}

/// The first and the last of the small circuits with the most inputs and gates. The second
/// implementation has made its list before: a call of it is a look into the list.
pub fn small_table(list: &Small) -> Table<'_> {
    let last = list.files().len() as u64 - 1;
    Table {
        title: "microseconds for one small circuit, I 2, G 2".into(),
        rounds: SMALL_ROUNDS,
        told: |seconds, _| seconds * 1e6,
        rows: [0, last].map(|place| small(list, place)).into(),
    }
}

fn small(list: &Small, place: u64) -> Row<'_> {
    let ours = move |out: &mut [u8]| {
        let len = wivulameno::circuit::small(2, 1, 2, black_box(place), out);
        len.expect("no refusal").expect("a circuit")
    };
    let second = move |out: &mut [u8]| {
        let len = list.at(black_box(place), out);
        len.expect("no refusal").expect("a circuit")
    };
    Row {
        name: format!("at place {place}"),
        amount: 1,
        batch: 1,
        calls: [Some(built(ours)), Some(built(second)), None],
    }
}

#[cfg(test)]
mod tests {
    use super::*;

    /// The sizes that the rows say.
    #[test]
    fn what_is_joined() {
        let circuits = Circuits::new();
        let mut out = vec![0; ROOM];
        let len = reference::join::join(&circuits.price, &circuits.price, &mut out);
        let len = len.expect("no refusal");
        assert_eq!(len, 2 * circuits.price.len() - 16);
        let sizes = reference::circuit::read(&out[..len]).expect("a circuit");
        assert_eq!([sizes.outputs, sizes.gates], [64, 2 * GATES]);
    }
}
