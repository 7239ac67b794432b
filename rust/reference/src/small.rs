//! Every small circuit in turn: all legal files with few inputs, one output and few
//! gates.

use crate::circuit::{read, Fields, Record};
use crate::Refusal;

/// All legal files with one I and one G, and O = 1, in ascending order of their bytes.
pub struct Small(Vec<Vec<u8>>);

impl Small {
    /// 29 unless I is 1 or 2, O is 1 and G is 0, 1 or 2.
    pub fn of(inputs: u32, outputs: u32, gates: u32) -> Result<Small, Refusal> {
        if !(1..=2).contains(&inputs) || outputs != 1 || gates > 2 {
            return Err(29);
        }
        // Of a legal file no kind is beyond 3, no wire beyond the last, no link beyond G.
        let [inputs, gates] = [inputs, gates].map(|count| count as usize);
        let limits = Limits {
            kind: 3,
            wire: inputs + gates - 1,
            link: gates,
        };
        Ok(Small(legal(inputs, gates, limits)))
    }

    /// Writes the file at a place to the start of `out` and gives its length; nothing
    /// where the last has passed. 6 for an `out` that is too short for a file.
    pub fn at(&self, place: u64, out: &mut [u8]) -> Result<Option<usize>, Refusal> {
        let place = usize::try_from(place).unwrap_or(usize::MAX);
        let Some(file) = self.0.get(place) else {
            return Ok(None);
        };
        let lent = out.get_mut(..file.len()).ok_or(6_u32)?;
        lent.copy_from_slice(file);
        Ok(Some(file.len()))
    }

    /// All of them, from place 0 on.
    pub fn files(&self) -> &[Vec<u8>] {
        &self.0
    }
}

/// The greatest value that is tried of each kind of field.
#[derive(Clone, Copy)]
struct Limits {
    kind: usize,
    wire: usize,
    link: usize,
}

/// Of all files with fields within the limits those that reading accepts, sorted.
fn legal(inputs: usize, gates: usize, limits: Limits) -> Vec<Vec<u8>> {
    let mut legal = vec![];
    for outputs in lists(1, 0..=limits.wire) {
        for head in 0..=limits.link {
            for records in lists(gates, limits.records()) {
                let fields = Fields {
                    inputs,
                    outputs: outputs.clone(),
                    head,
                    records,
                };
                legal.extend(Some(fields.bytes()).filter(|file| read(file).is_ok()));
            }
        }
    }
    legal.sort();
    legal
}

impl Limits {
    /// Every record.
    fn records(self) -> impl Iterator<Item = Record> + Clone {
        let of_kind = move |kind| {
            let of_a = move |a| {
                let of_b = move |b| {
                    let links = 0..=self.link;
                    links.map(move |next| Record { kind, a, b, next })
                };
                (0..=self.wire).flat_map(of_b)
            };
            (0..=self.wire).flat_map(of_a)
        };
        (0..=self.kind).flat_map(of_kind)
    }
}

/// Every list of so many of these.
fn lists<T: Clone>(count: usize, all: impl Iterator<Item = T> + Clone) -> Vec<Vec<T>> {
    let mut lists = vec![vec![]];
    for _ in 0..count {
        let longer = lists.iter().flat_map(|list| {
            let with = |last| [&list[..], &[last]].concat();
            all.clone().map(with)
        });
        lists = longer.collect();
    }
    lists
}

#[cfg(test)]
mod tests {
    use super::*;
    use crate::examples::K;

    /// I, G, and how many there are.
    const COUNTS: [(u32, u32, usize); 6] = [
        (1, 0, 1),
        (1, 1, 6),
        (1, 2, 180),
        (2, 0, 2),
        (2, 1, 30),
        (2, 2, 1680),
    ];

    fn files(inputs: u32, gates: u32) -> Vec<Vec<u8>> {
        let small = Small::of(inputs, 1, gates).expect("a size of these");
        small.files().to_vec()
    }

    #[test]
    fn how_many_there_are() {
        for (inputs, gates, count) in COUNTS {
            let files = files(inputs, gates);
            assert_eq!(files.len(), count, "{inputs}, {gates}");
            assert!(files.windows(2).all(|pair| pair[0] < pair[1]));
        }
    }

    /// One input and one gate, by hand: XOR, AND and INV of the input, each with the
    /// input or the gate as the output.
    #[test]
    fn the_six() {
        let expected = [0, 1].map(|output| {
            [1, 2, 3].map(|kind| {
                let words = [1, 1, 1, 1, output, kind, 0, 0, 0_u32];
                words.map(u32::to_le_bytes).concat()
            })
        });
        assert_eq!(files(1, 1), expected.concat());
        assert!(files(2, 1).contains(&K.to_vec()));
    }

    /// Greater values of the fields make no legal file.
    #[test]
    fn nothing_beyond_the_limits() {
        for (inputs, gates) in [(1, 0), (1, 1), (1, 2), (2, 0), (2, 1)] {
            let [i, g] = [inputs, gates].map(|count| count as usize);
            let wider = Limits {
                kind: 4,
                wire: i + g,
                link: g + 1,
            };
            assert_eq!(legal(i, g, wider), files(inputs, gates));
        }
    }

    #[test]
    fn places() {
        let small = Small::of(1, 1, 1).expect("a size of these");
        let mut out = [0x55; 40];
        assert_eq!(small.at(5, &mut out), Ok(Some(36)));
        assert_eq!(
            (&out[..36], out[36..].to_vec()),
            (&files(1, 1)[5][..], vec![0x55; 4])
        );
        for place in [6, 7, u64::MAX] {
            assert_eq!(small.at(place, &mut []), Ok(None));
        }
        assert_eq!(small.at(5, &mut out[..35]), Err(6));
    }

    #[test]
    fn sizes_beyond_these() {
        let beyond = [
            (0, 1, 0),
            (3, 1, 0),
            (1, 0, 0),
            (1, 2, 0),
            (1, 1, 3),
            (u32::MAX, 1, 0),
            (1, 1, u32::MAX),
            (1, 257, 1),
            (257, 1, 1),
            (1, 1, 256),
        ];
        for (inputs, outputs, gates) in beyond {
            assert_eq!(Small::of(inputs, outputs, gates).err(), Some(29));
        }
    }
}
