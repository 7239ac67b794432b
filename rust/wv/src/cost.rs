//! What a proof costs: its size, its soundness, and times as they were measured.

pub use wivulameno::circuit::Sizes;
pub use wivulameno::proof::Counts;
use wivulameno::proof::{longest_proof, most_opened, proof_len};

const fn counts(m: u32, tau: u32, n: u32) -> Counts {
    Counts { m, tau, n }
}

/// Counts of one kind, by rising n.
#[derive(Debug)]
pub struct Family {
    pub name: &'static str,
    pub goal: f64,
    pub members: &'static [Counts],
}

/// Short is for a comparison of 16 bits, the circuit `covers16`: no other M and τ of
/// the same n make the longest proof shorter by two parts in a hundred.
pub const FAMILIES: [Family; 3] = [
    Family {
        name: "40 bits, short",
        goal: 40.0,
        members: &[
            counts(69, 44, 2),
            counts(51, 26, 4),
            counts(47, 20, 8),
            counts(47, 17, 16),
            counts(49, 15, 32),
            counts(51, 14, 64),
        ],
    },
    Family {
        name: "128 bits, short",
        goal: 128.0,
        members: &[
            counts(220, 141, 2),
            counts(163, 80, 4),
            counts(145, 66, 8),
            counts(142, 56, 16),
            counts(150, 47, 32),
            counts(151, 45, 64),
        ],
    },
    Family {
        name: "128 bits, the paper's table 1",
        goal: 128.0,
        members: &[
            counts(218, 65, 4),
            counts(252, 44, 8),
            counts(352, 33, 16),
            counts(462, 27, 32),
        ],
    },
];

/// The counts of the paper's table 1 for 128 bits that a proof can have. The table also
/// has n 64 with M 631 and n 128 with M 916: a proof has at most 512 instances, and 64
/// parties.
pub const PAPER: &[Counts] = FAMILIES[2].members;

/// What `wv prove` takes when nothing else is said.
pub const USUAL: Counts = counts(145, 66, 8);

/// Soundness in bits, with one digit after the point, rounded down. The counts
/// must be legal.
pub fn bits_shown(counts: Counts) -> String {
    let bits = counts.soundness_bits().expect("legal counts");
    format!("{:.1}", (bits * 10.0).floor() / 10.0)
}

/// The room that a proof is made in. The counts must be legal.
pub fn room(sizes: Sizes, counts: Counts) -> usize {
    longest_proof(sizes, counts).expect("legal sizes and counts")
}

/// The most bytes that a proof can have: as many opened nodes as a challenge can ask
/// for, and no chosen instance that hides the last party. The counts must be legal.
pub fn longest(sizes: Sizes, counts: Counts) -> usize {
    let opened = most_opened(counts.m, counts.tau);
    let len = opened.and_then(|opened| proof_len(sizes, counts, opened, 0));
    len.expect("legal sizes and counts")
}

/// A measured proof; times in milliseconds.
#[derive(Clone, Debug, PartialEq)]
pub struct Measured {
    pub circuit: String,
    pub counts: Counts,
    pub bytes: usize,
    pub prove: f64,
    pub check: f64,
}

/// The head of a data file; `machine` says where it was measured.
pub fn data_head(machine: &str) -> String {
    format!("# Measured on {machine}\n# circuit M tau n bytes prove_ms check_ms\n")
}

impl Measured {
    /// A line of a data file.
    pub fn line(&self) -> String {
        let Counts { m, tau, n } = self.counts;
        let Measured {
            circuit,
            bytes,
            prove,
            check,
            ..
        } = self;
        format!("{circuit} {m} {tau} {n} {bytes} {prove:.3} {check:.3}\n")
    }

    fn read(line: &str) -> Option<Measured> {
        let words: Vec<&str> = line.split_whitespace().collect();
        let [circuit, m, tau, n, bytes, prove, check] = words[..] else {
            return None;
        };
        Some(Measured {
            circuit: circuit.into(),
            counts: counts(m.parse().ok()?, tau.parse().ok()?, n.parse().ok()?),
            bytes: bytes.parse().ok()?,
            prove: prove.parse().ok()?,
            check: check.parse().ok()?,
        })
    }
}

/// The lines of a data file, without its comments; `Err` is a line that is none.
pub fn read_data(text: &str) -> Result<Vec<Measured>, String> {
    let lines = text.lines();
    let lines = lines.filter(|line| !line.starts_with('#') && !line.is_empty());
    lines
        .map(|line| Measured::read(line).ok_or(line.to_string()))
        .collect()
}

/// The table of all families for these circuits, in Markdown. A time that was
/// not measured is a dash.
pub fn table(circuits: &[(&str, Sizes)], data: &[Measured]) -> String {
    let mut text = "| soundness in bits | M | τ | n |".to_string();
    for (name, _) in circuits {
        text += &format!(" `{name}`: bytes | prove, ms | check, ms |");
    }
    text += "\n|---|---|---|---|";
    text += &"---|---|---|".repeat(circuits.len());
    for counts in FAMILIES.iter().flat_map(|family| family.members) {
        let Counts { m, tau, n } = counts;
        text += &format!("\n| {} | {m} | {tau} | {n} |", bits_shown(*counts));
        for (name, sizes) in circuits {
            text += &cells(name, *counts, *sizes, data);
        }
    }
    text + "\n"
}

fn cells(name: &str, counts: Counts, sizes: Sizes, data: &[Measured]) -> String {
    let is_it = |row: &&Measured| row.circuit == name && row.counts == counts;
    let found = data.iter().find(is_it);
    let time = |time: Option<f64>| time.map_or("–".into(), |time| format!("{time:.1}"));
    format!(
        " {} | {} | {} |",
        longest(sizes, counts),
        time(found.map(|row| row.prove)),
        time(found.map(|row| row.check))
    )
}

#[cfg(test)]
mod tests {
    use super::*;
    use crate::soundness;

    const COVERS: Sizes = Sizes {
        inputs: 32,
        outputs: 17,
        gates: 63,
        ands: 16,
    };

    #[test]
    fn families_reach_their_goals() {
        for family in &FAMILIES {
            for member in family.members {
                let bits = member.soundness_bits().expect("legal counts");
                assert!(bits >= family.goal, "{member:?}");
                assert!(bits < family.goal + 1.0, "{member:?}");
            }
        }
        assert!(USUAL.soundness_bits() >= Some(128.0));
    }

    /// Other M and τ of the same n that reach the goal save less than two parts in a
    /// hundred.
    #[test]
    fn short_is_nearly_shortest() {
        for family in &FAMILIES[..2] {
            for member in family.members {
                let lengths = (1..=150).filter_map(|tau| {
                    let m = soundness::least_m(family.goal, tau, member.n, 230)?;
                    Some(longest(COVERS, counts(m, tau, member.n)))
                });
                let shortest = lengths.min().expect("the member itself");
                let len = longest(COVERS, *member);
                assert!(shortest <= len, "{member:?}");
                assert!(100 * len < 102 * shortest, "{member:?}: {shortest}");
            }
        }
    }

    /// By hand for M 4, τ 1: two nodes are opened, and there is room for three.
    #[test]
    fn the_longest_and_the_room() {
        let k = Sizes {
            inputs: 2,
            outputs: 1,
            gates: 1,
            ands: 1,
        };
        assert_eq!(longest(k, counts(4, 1, 2)), 249);
        assert_eq!(room(k, counts(4, 1, 2)), 265);
    }

    #[test]
    fn data_is_read_as_written() {
        let row = Measured {
            circuit: "covers16".into(),
            counts: USUAL,
            bytes: 9000,
            prove: 1.5,
            check: 1.25,
        };
        let text = data_head("a test") + &row.line() + &row.line();
        assert_eq!(read_data(&text), Ok(vec![row.clone(), row]));
        assert_eq!(read_data("covers16 1 2"), Err("covers16 1 2".into()));
    }

    #[test]
    fn a_table_has_a_line_for_each() {
        let row = Measured {
            circuit: "covers16".into(),
            counts: USUAL,
            bytes: 9000,
            prove: 1.26,
            check: 1.0,
        };
        let table = table(&[("covers16", COVERS)], &[row]);
        assert_eq!(table.lines().count(), 2 + 16);
        assert!(
            table.contains("| 145 | 66 | 8 | 9772 | 1.3 | 1.0 |"),
            "{table}"
        );
        assert!(table.contains("| 69 | 44 | 2 | 3866 | – | – |"), "{table}");
    }
}
