//! The test bench over every small circuit: each of them with every witness, every
//! number of parties and every hidden party.

use std::collections::BTreeMap;
use tests::calls::{used_bits, Call, Setting};
use tests::partners::with;
use tests::proofs::{compare_check, compare_prove, Prove};
use tests::random::Random;
use wivulameno::circuit::small_to_vec;
use wivulameno::limits::{MAX_SMALL_GATES, MAX_SMALL_INPUTS};

/// All of them, as the library lists them.
fn circuits() -> Vec<Vec<u8>> {
    let mut circuits = vec![];
    for inputs in 1..=MAX_SMALL_INPUTS {
        for gates in 0..=MAX_SMALL_GATES {
            let at = |place| small_to_vec(inputs, 1, gates, place).expect("a size of these");
            circuits.extend((0..).map_while(at));
        }
    }
    assert_eq!(circuits.len(), 1 + 6 + 180 + 2 + 30 + 1680);
    circuits
}

/// The setting once for each witness, with the same tapes.
fn each_witness(setting: &Setting) -> Vec<Setting> {
    let witnesses = 0..1 << setting.sizes.inputs;
    let of = |witness: u8| Setting {
        witness: vec![witness],
        ..setting.clone()
    };
    witnesses.map(of).collect()
}

/// What both implementations fill.
fn agree(call: &Call) -> Vec<Vec<u8>> {
    let ours = call.by_library();
    assert_eq!(ours, call.by_reference(), "{}", call.shown());
    ours.unwrap_or_else(|number| panic!("{number}, {}", call.shown()))
}

/// Corrections, run, every showing and its replay: both implementations agree, the run
/// gives the evaluation's y, and every replay the run's rows.
fn runs_and_replays(setting: &Setting) {
    let corrections = agree(&setting.prepare());
    for setting in each_witness(setting) {
        let run = agree(&setting.run(&corrections[0]));
        let y = setting.y();
        assert_eq!(run[2], y);
        for p in 0..setting.n {
            let shown = agree(&setting.show(p, setting.whole()));
            let rows = agree(&setting.replay(p, &shown, &y));
            assert_eq!(rows[0], run[1], "p {p}");
        }
    }
}

fn runs_of(n: u32) {
    let mut random = Random::new(n.into());
    for circuit in circuits() {
        runs_and_replays(&Setting::of_circuit(&mut random, &circuit, n));
    }
}

#[test]
fn runs_of_2_parties() {
    runs_of(2);
}

#[test]
fn runs_of_4_parties() {
    runs_of(4);
}

#[test]
fn runs_of_8_parties() {
    runs_of(8);
}

#[test]
fn runs_of_16_parties() {
    runs_of(16);
}

#[test]
fn runs_of_32_parties() {
    runs_of(32);
}

#[test]
fn runs_of_64_parties() {
    runs_of(64);
}

/// A proof of each circuit with each witness is that of the reference, and is accepted;
/// the other output is not proved, and its check is refused.
fn proofs_of(n: u32) {
    let mut random = Random::new(u64::from(n) + 100);
    for circuit in circuits() {
        let setting = Setting::of_circuit(&mut random, &circuit, n);
        for setting in each_witness(&setting) {
            let mut call = Prove::of(&mut random, &setting, [2, 1], 3);
            let proof = compare_prove(&mut random, &call).expect("proved");
            let mut check = call.check(&proof);
            assert_eq!(compare_check(&mut random, &check), Ok(()));
            check.y[0] ^= 1;
            assert!(compare_check(&mut random, &check).is_err());
            call.y[0] ^= 1;
            assert_eq!(compare_prove(&mut random, &call), Err(10));
        }
    }
}

#[test]
fn proofs_of_2_parties() {
    proofs_of(2);
}

#[test]
fn proofs_of_4_parties() {
    proofs_of(4);
}

#[test]
fn proofs_of_8_parties() {
    proofs_of(8);
}

#[test]
fn proofs_of_16_parties() {
    proofs_of(16);
}

#[test]
fn proofs_of_32_parties() {
    proofs_of(32);
}

#[test]
fn proofs_of_64_parties() {
    proofs_of(64);
}

/// The four parts of a showing.
type Showing = Vec<Vec<u8>>;

/// What each row of the hidden party shows, with what it shows at the cuts before. No two
/// rows show the same.
fn showings(setting: &Setting, p: u32) -> BTreeMap<Showing, Vec<Showing>> {
    let rows = 1 << used_bits(setting.sizes, setting.n, p as usize);
    let of_row = |row| {
        let setting = with(setting, &setting.witness, p, row);
        let cut = |cut| setting.show(p, cut).by_library().expect("no refusal");
        let cuts = (0..setting.whole()).map(cut).collect();
        (cut(setting.whole()), cuts)
    };
    let showings: BTreeMap<Showing, Vec<Showing>> = (0..rows).map(of_row).collect();
    assert_eq!(showings.len(), rows as usize, "{setting:02x?}");
    showings
}

/// Gives the number of pairs of witnesses with one output. For each pair every row has
/// exactly one partner, which makes every cut equal: what is shown is the same, and no two
/// rows of one witness show it. With different outputs there is no partner.
fn count_partners(setting: &Setting, p: u32) -> usize {
    let of_witness = |setting: &Setting| (setting.y(), showings(setting, p));
    let all: Vec<_> = each_witness(setting).iter().map(of_witness).collect();
    let mut pairs = 0;
    for (place, (y, showings)) in all.iter().enumerate() {
        for (other_y, others) in &all[..place] {
            if y == other_y {
                assert!(showings == others, "{setting:02x?}");
                pairs += 1;
            } else {
                let has_partner = |shown| others.contains_key(shown);
                assert!(!showings.keys().any(has_partner), "{setting:02x?}");
            }
        }
    }
    pairs
}

/// Every circuit, with each party hidden in turn; of more than 16, the first, the last and
/// one between.
fn partners_of(n: u32) {
    let mut random = Random::new(u64::from(n) + 200);
    let mut pairs = 0;
    for circuit in circuits() {
        let setting = Setting::of_circuit(&mut random, &circuit, n);
        let hidden = match n {
            2..=16 => (0..n).collect(),
            _ => vec![0, random.from_to(1, n as usize - 2) as u32, n - 1],
        };
        for p in hidden {
            pairs += count_partners(&setting, p);
        }
    }
    assert!(pairs > 1_000, "{pairs}");
}

#[test]
fn partners_of_2_parties() {
    partners_of(2);
}

#[test]
fn partners_of_4_parties() {
    partners_of(4);
}

#[test]
fn partners_of_8_parties() {
    partners_of(8);
}

#[test]
fn partners_of_16_parties() {
    partners_of(16);
}

#[test]
fn partners_of_32_parties() {
    partners_of(32);
}

#[test]
fn partners_of_64_parties() {
    partners_of(64);
}
