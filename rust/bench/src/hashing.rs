//! Hashing: absorbing, squeezing, the tapes of an instance, and the nodes of trees, four at
//! once as the library works them and one by one.

use crate::openssl::OpenSsl;
use crate::rows::{call, digest, megabytes_per_second, Call, Row, Table, ROUNDS};
use reference::fips202;
use std::hint::black_box;

const PARTIES: usize = 16;

/// The tape row of the worst circuit: 512 inputs and 4,096 AND gates.
const TAPE_ROW: usize = (512 + 2 * 4096) / 8;

pub fn table<'a>(message: &'a [u8], openssl: Option<&'a OpenSsl>) -> Table<'a> {
    let mut rows = vec![];
    for len in [64 * 1024, 1024, 64] {
        rows.extend(absorb_rows(&message[..len], openssl));
    }
    rows.push(squeeze_row(&message[..16], 64 * 1024, openssl));
    rows.push(tapes_row(openssl));
    rows.extend(tree_rows(openssl));
    Table {
        title: "MB/s; B is a byte, MB a million".into(),
        rounds: ROUNDS,
        told: megabytes_per_second,
        rows,
    }
}

fn row(name: String, bytes: usize, calls: [Option<Call>; 3]) -> Row {
    Row {
        name,
        amount: bytes,
        batch: 1 + 4096 / bytes,
        calls,
    }
}

fn absorb_rows<'a>(message: &'a [u8], openssl: Option<&'a OpenSsl>) -> [Row<'a>; 3] {
    let len = message.len();
    let named = |name, calls| row(format!("{name}, {len} B in"), len, calls);
    let text = move || black_box(message);
    let shake128 = [
        Some(call(32, move |out| wivulameno::shake128(text(), out))),
        Some(call(32, move |out| fips202::shake128(text(), out))),
        openssl.map(|o| call(32, move |out| o.shake128(text(), out))),
    ];
    let shake256 = [
        Some(call(32, move |out| wivulameno::shake256(text(), out))),
        Some(call(32, move |out| fips202::shake256(text(), out))),
        openssl.map(|o| call(32, move |out| o.shake256(text(), out))),
    ];
    let sha3_256 = [
        Some(digest(move || wivulameno::sha3_256(text()))),
        Some(digest(move || fips202::sha3_256(text()))),
        openssl.map(|o| digest(move || o.sha3_256(text()))),
    ];
    [
        named("SHAKE128", shake128),
        named("SHAKE256", shake256),
        named("SHA3-256", sha3_256),
    ]
}

fn squeeze_row<'a>(seed: &'a [u8], len: usize, openssl: Option<&'a OpenSsl>) -> Row<'a> {
    let seed = move || black_box(seed);
    let calls = [
        Some(call(len, move |out| wivulameno::shake128(seed(), out))),
        Some(call(len, move |out| fips202::shake128(seed(), out))),
        openssl.map(|o| call(len, move |out| o.shake128(seed(), out))),
    ];
    row(format!("SHAKE128, {len} B out"), len, calls)
}

/// All tapes of one instance of the worst circuit, each row from its seed.
fn tapes_row(openssl: Option<&OpenSsl>) -> Row<'_> {
    let len = PARTIES * TAPE_ROW;
    let calls = [
        Some(call(len, |out| tapes(out, wivulameno::shake128))),
        Some(call(len, |out| tapes(out, fips202::shake128))),
        openssl.map(|o| call(len, |out| tapes(out, |seed, row| o.shake128(seed, row)))),
    ];
    row(format!("tapes, worst, n {PARTIES}"), len, calls)
}

fn tapes(out: &mut [u8], shake128: impl Fn(&[u8], &mut [u8])) {
    for (i, row) in out.chunks_mut(TAPE_ROW).enumerate() {
        // The tag, the salt, j, i and the seed.
        let mut input = [0x5a; 1 + 32 + 2 + 1 + 16];
        input[0] = 4;
        input[33..36].copy_from_slice(&[7, 0, i as u8]);
        shake128(black_box(&input), row);
    }
}

const ROOT: [u8; 16] = [0x5a; 16];
const SALT: [u8; 32] = [0xa5; 32];

/// The leaves of an instance by 64 parties and 512 masters, each as the library makes them
/// and node by node.
fn tree_rows(openssl: Option<&OpenSsl>) -> [Row<'_>; 4] {
    let (leaves, masters) = (16 * 64, 16 * 512);
    let by_operations = [
        Some(call(leaves, |out| {
            let root = black_box(&ROOT);
            wivulameno::seeds::expand(7, 64, &SALT, root, out).expect("no refusal");
        })),
        Some(call(leaves, |out| {
            let root = black_box(&ROOT);
            reference::seeds::expand(7, 64, &SALT, root, out).expect("no refusal");
        })),
        None,
    ];
    let of_masters = [
        Some(call(masters, |out| {
            let root = black_box(&ROOT);
            wivulameno::seeds::masters(512, &SALT, root, out).expect("no refusal");
        })),
        Some(call(masters, |out| {
            let root = black_box(&ROOT);
            reference::masters::masters(512, &SALT, root, out).expect("no refusal");
        })),
        None,
    ];
    [
        row("leaves, n 64".into(), leaves, by_operations),
        nodes_row("leaves, n 64, node by node", leaves, openssl),
        row("masters, M 512".into(), masters, of_masters),
        nodes_row("masters, M 512, node by node", masters, openssl),
    ]
}

fn nodes_row<'a>(name: &str, len: usize, openssl: Option<&'a OpenSsl>) -> Row<'a> {
    let calls = [
        Some(call(len, |out| nodes(out, wivulameno::shake128))),
        Some(call(len, |out| nodes(out, fips202::shake128))),
        openssl.map(|o| call(len, |out| nodes(out, |value, pair| o.shake128(value, pair)))),
    ];
    row(name.into(), len, calls)
}

/// The leaves of a tree over the root, a node at a time from the top.
fn nodes(leaves: &mut [u8], shake128: impl Fn(&[u8], &mut [u8])) {
    let mut tree = vec![0; 2 * leaves.len()];
    tree[16..32].copy_from_slice(black_box(&ROOT));
    for k in 1..leaves.len() / 16 {
        // The tag, the salt, j, k and the node's value.
        let mut input = [2; 1 + 32 + 2 + 2 + 16];
        input[1..33].copy_from_slice(&SALT);
        input[33..37].copy_from_slice(&[7, 0, k as u8, (k >> 8) as u8]);
        input[37..].copy_from_slice(&tree[16 * k..][..16]);
        shake128(&input, &mut tree[32 * k..][..32]);
    }
    let half = leaves.len();
    leaves.copy_from_slice(&tree[half..]);
}
