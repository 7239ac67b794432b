//! The hidden party's rows, counted: two witnesses with the same output show the
//! same, with exactly one row of the hidden party for each row of it.

use tests::calls::{any_bits, Call, Setting, COUNTS};
use tests::partners::{check_partners, partners, with, Show};
use tests::random::Random;

/// A circuit whose hidden row has at most `most` bits, and two witnesses of it.
fn any_pair(random: &mut Random, n: u32, gates: usize, most: usize) -> (Setting, Vec<u8>) {
    loop {
        let sizes = [
            random.from_to(1, 4),
            random.from_to(1, 3),
            random.from_to(0, gates),
        ];
        let setting = Setting::of_sizes(random, sizes, n);
        if setting.sizes.inputs + 2 * setting.sizes.ands <= most {
            let other = any_bits(random, setting.sizes.inputs);
            return (setting, other);
        }
    }
}

fn y_of(setting: &Setting, witness: &[u8]) -> Vec<u8> {
    with(setting, witness, 0, 0).y()
}

/// Checks `count` pairs of witnesses with the same output for every p. Without
/// the same output there is no partner at all.
fn check_pairs(seed: u64, show: Show, count: usize, gates: usize, most: usize) {
    let mut random = Random::new(seed);
    let [mut same, mut different, mut with_and] = [0; 3];
    while same < count {
        let n = COUNTS[same % COUNTS.len()];
        let (setting, other) = any_pair(&mut random, n, gates, most);
        let p = random.below(n as usize) as u32;
        if y_of(&setting, &other) != setting.y() {
            different += 1;
            let pairs = partners(show, &setting, &other, p);
            assert!(pairs.iter().all(|(_, partners)| partners.is_empty()));
        } else if other != setting.witness {
            same += 1;
            with_and += usize::from(setting.sizes.ands > 0);
            // The last party is another case than the ones before it.
            for p in [p, n - 1] {
                check_partners(show, &setting, &other, p);
            }
        }
    }
    assert!(
        with_and > count / 2 && different > 0,
        "{with_and} of {count}"
    );
}

#[test]
fn partners_by_the_library() {
    check_pairs(71, Call::by_library, 60, 5, 8);
}

#[test]
fn partners_by_the_reference() {
    check_pairs(72, Call::by_reference, 24, 8, 12);
}
