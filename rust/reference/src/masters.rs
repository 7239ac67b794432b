//! The tree of the masters: all masters from the root, and the cover of a set of
//! hidden leaves.
//!
//! Node 1 is the root, and node rule 2 has j = 65,535. There are N leaves, N the least
//! power of two that is at least M. Leaf j, which is node N + j, is the master of
//! instance j; leaves from M on are spare.

use crate::seeds::{children, of_length, subtree_leaves, tree_leaves, Context, Salt, Value};
use crate::{u16_at, Refusal};

/// The j of the node rule in this tree, beside the salt of the proof.
fn context(salt: Salt) -> Context {
    Context { salt, j: 65_535 }
}

/// Fills `out` with the masters of the instances 0 to M - 1: refusals 8 and 6.
pub fn masters(m: u32, salt: &[u8], root: &[u8], out: &mut [u8]) -> Result<(), Refusal> {
    let m = instances(m)?;
    let (salt, root) = (of_length(salt)?, of_length(root)?);
    if out.len() != 16 * m {
        return Err(6);
    }
    out.copy_from_slice(&all_masters(m, salt, root).concat());
    Ok(())
}

/// Fills `out` with the values of the nodes that are opened when these leaves are
/// hidden: a u16 for each, in any order, repeats allowed. Refusals 8, 9 and 6.
pub fn cover(
    m: u32,
    hidden: &[u8],
    salt: &[u8],
    root: &[u8],
    out: &mut [u8],
) -> Result<(), Refusal> {
    let m = instances(m)?;
    let leaves: Vec<usize> = hidden.chunks_exact(2).map(|leaf| u16_at(leaf, 0)).collect();
    if leaves.is_empty() || leaves.iter().any(|&leaf| leaf >= m) {
        return Err(9);
    }
    let (salt, root) = (of_length(salt)?, of_length(root)?);
    let values = opened_values(&hidden_among(m, &leaves), salt, root);
    // A last odd byte is no leaf.
    if hidden.len() != 2 * leaves.len() || out.len() != 16 * values.len() {
        return Err(6);
    }
    out.copy_from_slice(&values.concat());
    Ok(())
}

/// 8 for a number of instances that is not 2 to 512.
fn instances(m: u32) -> Result<usize, Refusal> {
    match m {
        2..=512 => Ok(m as usize),
        _ => Err(8),
    }
}

/// For each of m leaves whether it is hidden.
pub fn hidden_among(m: usize, leaves: &[usize]) -> Vec<bool> {
    (0..m).map(|leaf| leaves.contains(&leaf)).collect()
}

/// N, the leaves of the tree over m masters, the spare ones too.
fn leaves_over(m: usize) -> usize {
    m.next_power_of_two()
}

pub(crate) fn all_masters(m: usize, salt: Salt, root: Value) -> Vec<Value> {
    let mut leaves = tree_leaves(context(salt), leaves_over(m), root);
    leaves.truncate(m);
    leaves
}

/// The value of node k.
fn node_value(k: usize, salt: Salt, root: Value) -> Value {
    match k {
        1 => root,
        _ => children(context(salt), k / 2, node_value(k / 2, salt, root))[k % 2],
    }
}

/// The leaves at or below node k in a tree of n leaves: those from whose node the
/// way up, so many levels, leads to k.
fn leaves_below(n: usize, k: usize) -> impl Iterator<Item = usize> {
    let levels = n.ilog2() - k.ilog2();
    (0..n).filter(move |leaf| (n + leaf) >> levels == k)
}

/// The nodes that are opened, ascending: a node is opened if it has an unhidden leaf
/// and no hidden leaf at or below it while its parent has a hidden one. Spare leaves
/// count as neither. Node 1 has no parent.
pub fn opened_nodes(hidden: &[bool]) -> Vec<usize> {
    let n = leaves_over(hidden.len());
    let has = |k, kind| leaves_below(n, k).any(|leaf| hidden.get(leaf) == Some(&kind));
    let is_opened = |&k: &usize| has(k, false) && !has(k, true) && has(k / 2, true);
    (2..2 * n).filter(is_opened).collect()
}

/// The values of the opened nodes.
pub fn opened_values(hidden: &[bool], salt: Salt, root: Value) -> Vec<Value> {
    let nodes = opened_nodes(hidden).into_iter();
    nodes.map(|k| node_value(k, salt, root)).collect()
}

/// Each of the m leaves that follows from the values of the opened nodes.
pub fn opened_masters(hidden: &[bool], salt: Salt, values: &[Value]) -> Vec<Option<Value>> {
    let n = leaves_over(hidden.len());
    let mut masters = vec![None; n];
    for (k, &value) in opened_nodes(hidden).into_iter().zip(values) {
        for (leaf, master) in leaves_below(n, k).zip(subtree_leaves(context(salt), n, k, value)) {
            masters[leaf] = Some(master);
        }
    }
    masters.truncate(hidden.len());
    masters
}

#[cfg(test)]
mod tests {
    use super::*;
    use crate::examples::SALT;
    use crate::fips202::sha3_256;

    const ROOT: Value = [0, 1, 2, 3, 4, 5, 6, 7, 8, 9, 10, 11, 12, 13, 14, 15];

    fn hex(bytes: &[u8]) -> String {
        bytes.iter().map(|byte| format!("{byte:02x}")).collect()
    }

    fn bytes_of(leaves: &[usize]) -> Vec<u8> {
        let leaves = leaves.iter().map(|&leaf| leaf as u16);
        leaves.flat_map(u16::to_le_bytes).collect()
    }

    // The known answers were made with Python's hashlib over the same inputs.
    const FIVE: [&str; 5] = [
        "29bfab30082768d1592751022be6b1a8",
        "db52ac64ccdcaee834d2a7658aafd155",
        "9074ac25418f36ff5024c6221e9ee151",
        "3c35b348101caa28b56cf5cd22c65ea7",
        "d0499e59b7d708a9d233bcb5541752fd",
    ];

    /// SHA3-256 over all masters.
    const KNOWN_MASTERS: [(u32, &str); 8] = [
        (
            2,
            "200d650163e674515810986b59ff5d95cea81cc9efe4004a539099a4c76cb972",
        ),
        (
            3,
            "b5592e07b2ff5cb7f2ec5c63db00bb1bb265c3bef6bb35b95900c8d4a4102055",
        ),
        (
            5,
            "2eab0ace3f254b3d414cebb6de4f4e51f411a077cb76cd8ed675b77801463fc2",
        ),
        (
            8,
            "1d3ba782585cb655024ca7f18c93e8f8a862d3b2d4476fc04fd1e606908fbbc1",
        ),
        (
            9,
            "ef5528c7e2c2093a356f5dcd3fa73661778161e8ec9b3035de1f3eace927e853",
        ),
        (
            300,
            "e6749b99b1aa7e5071fa5097e2916cf134a5c85863289b1735b36b4a378318c7",
        ),
        (
            343,
            "5e7387e00b4de245a7de030a47b916f67518ecdd7c680daef3b8832a8982f191",
        ),
        (
            512,
            "98b44b2d8fa9d4ebc0be4ebd5507ee727c21029837216f95cec47876f196b7e3",
        ),
    ];

    #[test]
    fn known_masters() {
        let mut out = [0; 80];
        assert_eq!(masters(5, &SALT, &ROOT, &mut out), Ok(()));
        assert_eq!(hex(&out), FIVE.concat());
        for (m, digest) in KNOWN_MASTERS {
            let mut out = vec![0; 16 * m as usize];
            assert_eq!(masters(m, &SALT, &ROOT, &mut out), Ok(()));
            assert_eq!(hex(&sha3_256(&out)), digest, "M {m}");
        }
    }

    /// M, the hidden leaves, the number of opened nodes and SHA3-256 of their values.
    #[test]
    fn known_covers() {
        let every_second: Vec<usize> = (0..512).step_by(2).collect();
        let sevens: Vec<usize> = (0..42).map(|k| 7 * k).collect();
        let known: [(u32, &[usize], usize, &str); 9] = [
            (
                2,
                &[0],
                1,
                "425ef657bdc8e50d319fa9a0d1360e6fecc5c534ff9493f9e2f2cfc252a1fcbb",
            ),
            (
                5,
                &[2],
                3,
                "2b68909dd98c0d4d5ef02fdd4dfa73d22347538cde2ba40fa471fa181e20f1a9",
            ),
            (
                5,
                &[3, 0, 3],
                3,
                "017532de285a97fe277a99cf59f5353019f62c2d6b4ad54de1dcbfdbf4345164",
            ),
            (
                9,
                &[8],
                1,
                "95827e5a45a1fd94031021e435a9e30cb3d85f95882705d3e10441a267a83976",
            ),
            (
                9,
                &[8, 0],
                3,
                "c4a90a793695095c41a1928414dd5f9796bbe0689d0207d4a1547342f6bbaf4a",
            ),
            (
                343,
                &[0, 1, 2, 200, 342],
                17,
                "cb44e92b3baee7465951da8e030ddb89416358a9adf95a87b3a93694b8304c41",
            ),
            (
                512,
                &[511],
                9,
                "15d3665dc43bf524d3c6a2d3d8bf1129ea7d756499218f3235cb0a459f64eb85",
            ),
            (
                512,
                &every_second,
                256,
                "ee75122d09b1085529aa12d8bea4d719552ea3b36646066b1b93daf87f1c8a9a",
            ),
            (
                300,
                &sevens,
                115,
                "2bf6841da1e73edbf6494750b38bab417eec1b65eae03e69d1d4c77c3d2dbe55",
            ),
        ];
        for (m, hidden, nodes, digest) in known {
            let mut out = vec![0; 16 * nodes];
            let answer = cover(m, &bytes_of(hidden), &SALT, &ROOT, &mut out);
            assert_eq!(answer, Ok(()), "M {m}, {hidden:?}");
            assert_eq!(hex(&sha3_256(&out)), digest, "M {m}, {hidden:?}");
        }
    }

    /// By hand: leaves are nodes 8 to 15, of which 13 to 15 are spare.
    #[test]
    fn nodes_of_a_small_tree() {
        let opened = |leaves: &[usize]| opened_nodes(&hidden_among(5, leaves));
        assert_eq!(opened(&[2]), [3, 4, 11]);
        assert_eq!(opened(&[4]), [2]);
        assert_eq!(opened(&[0, 1, 2, 3]), [3]);
        assert_eq!(opened(&[0, 3]), [3, 9, 10]);
        assert_eq!(opened(&[0, 2, 4]), [9, 11]);
        assert_eq!(opened(&[0, 1, 2, 3, 4]), []);
    }

    /// Every set of hidden leaves of small trees: the cover gives all masters but
    /// theirs.
    #[test]
    fn a_cover_gives_all_masters_but_the_hidden_ones() {
        for m in 2..=9 {
            let all = all_masters(m, SALT, ROOT);
            for set in 1..1_usize << m {
                let hidden: Vec<bool> = (0..m).map(|leaf| set >> leaf & 1 != 0).collect();
                let values = opened_values(&hidden, SALT, ROOT);
                let opened = opened_masters(&hidden, SALT, &values);
                let expected = all.iter().zip(&hidden);
                let expected = expected.map(|(&master, &hidden)| (!hidden).then_some(master));
                assert_eq!(opened, expected.collect::<Vec<_>>(), "M {m}, {hidden:?}");
            }
        }
    }

    #[test]
    fn refusals_of_masters_in_order() {
        let ask = |m, [salt, root]: [usize; 2], len| {
            let mut out = vec![0xee; len];
            let answer = masters(m, &vec![9; salt], &vec![7; root], &mut out);
            assert!(answer.is_ok() || out == vec![0xee; len]);
            answer
        };
        assert_eq!(ask(2, [32, 16], 32), Ok(()));
        assert_eq!(ask(512, [32, 16], 8192), Ok(()));
        for m in [0, 1, 513, 65_536 + 2, u32::MAX] {
            assert_eq!(ask(m, [0, 0], 0), Err(8));
        }
        for (root, len) in [(15, 32), (17, 32), (16, 31), (16, 33), (16, 64)] {
            assert_eq!(ask(2, [32, root], len), Err(6));
        }
        for salt in [0, 16, 31, 33, 64] {
            assert_eq!(ask(2, [salt, 16], 32), Err(6));
        }
    }

    #[test]
    fn refusals_of_cover_in_order() {
        let ask_salted = |m, hidden: &[u8], [salt, root]: [usize; 2], len| {
            let mut out = vec![0xee; len];
            let answer = cover(m, hidden, &vec![9; salt], &vec![7; root], &mut out);
            assert!(answer.is_ok() || out == vec![0xee; len]);
            answer
        };
        let ask = |m, hidden: &[u8], root, len| ask_salted(m, hidden, [32, root], len);
        assert_eq!(ask(5, &[2, 0], 16, 48), Ok(()));
        assert_eq!(ask(2, &[1, 0, 0, 0], 16, 0), Ok(()));
        for m in [0, 1, 513, 65_536 + 5] {
            assert_eq!(ask_salted(m, &[], [0, 0], 0), Err(8));
        }
        let no_leaves: [&[u8]; 5] = [&[], &[0], &[5, 0], &[2, 0, 0, 1], &[5, 0, 0]];
        for hidden in no_leaves {
            assert_eq!(ask_salted(5, hidden, [0, 0], 0), Err(9), "{hidden:?}");
        }
        for salt in [0, 16, 31, 33, 64] {
            assert_eq!(ask_salted(5, &[2, 0], [salt, 16], 48), Err(6), "{salt}");
        }
        for (hidden, root, len) in [
            (&[2, 0][..], 15, 48),
            (&[2, 0], 17, 48),
            (&[2, 0], 16, 47),
            (&[2, 0], 16, 49),
            (&[2, 0], 16, 32),
            (&[2, 0, 0], 16, 48),
            (&[2, 0, 255], 16, 48),
        ] {
            assert_eq!(ask(5, hidden, root, len), Err(6), "{hidden:?}");
        }
    }
}
