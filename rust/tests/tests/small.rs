//! Every small circuit in turn: place by place as the list of all files that reading
//! accepts, which the reference finds by trying all fields.

use reference::circuit::read;
use reference::small::Small;
use tests::builders::compare_small;
use tests::random::Random;
use wivulameno::circuit::{small, small_to_vec};
use wivulameno::Refusal;

/// I, O and G, and how many circuits there are.
const COUNTS: [([u32; 3], u64); 6] = [
    ([1, 1, 0], 1),
    ([1, 1, 1], 6),
    ([1, 1, 2], 180),
    ([2, 1, 0], 2),
    ([2, 1, 1], 30),
    ([2, 1, 2], 1680),
];

/// Sizes beyond these; some would be among them if they were cut down.
const BEYOND: [[u32; 3]; 18] = [
    [0, 1, 0],
    [3, 1, 0],
    [3, 1, 2],
    [512, 1, 2],
    [256 + 1, 1, 1],
    [65_536 + 2, 1, 1],
    [u32::MAX, 1, 0],
    [1, 0, 0],
    [1, 2, 0],
    [2, 2, 2],
    [2, 256 + 1, 2],
    [1, u32::MAX, 1],
    [1, 1, 3],
    [2, 1, 4],
    [2, 1, 256],
    [2, 1, 1 << 16],
    [2, 1, u32::MAX],
    [0, 0, u32::MAX],
];

fn list([inputs, outputs, gates]: [u32; 3]) -> Result<Small, u32> {
    Small::of(inputs, outputs, gates)
}

/// The bytes of a file.
fn len(sizes: [u32; 3]) -> usize {
    20 + 16 * sizes[2] as usize
}

/// The whole list through the library, which ends after as many as there are.
fn all([inputs, outputs, gates]: [u32; 3]) -> Vec<Vec<u8>> {
    let at = |place| small_to_vec(inputs, outputs, gates, place).expect("a size of these");
    (0..).map_while(at).take(2_000).collect()
}

#[test]
fn place_by_place() {
    let mut random = Random::new(1);
    for (sizes, count) in COUNTS {
        let list = list(sizes);
        for place in 0..count {
            let room = len(sizes) + random.pick(&[0, 0, 1, 9, 32]);
            let built = compare_small(&mut random, &list, sizes, place, room);
            assert_eq!(built.map(|(_, len)| len), Ok(len(sizes)));
        }
        assert_eq!(list.expect("a list").files().len() as u64, count);
    }
}

/// Strictly ascending, each of them legal with these sizes, and so many.
#[test]
fn in_ascending_order() {
    for (sizes, count) in COUNTS {
        let files = all(sizes);
        assert_eq!(files.len() as u64, count, "{sizes:?}");
        assert!(files.windows(2).all(|pair| pair[0] < pair[1]), "{sizes:?}");
        for file in files {
            let read = read(&file).expect("a legal file");
            let found = [read.inputs, read.outputs, read.gates].map(|size| size as u32);
            assert_eq!(found, sizes);
            assert!(wivulameno::circuit::read(&file).is_ok());
        }
    }
}

/// One input, no gates; and the six with one gate, by hand.
#[test]
fn by_hand() {
    let words = |words: &[u32]| {
        let bytes = words.iter().flat_map(|word| word.to_le_bytes());
        bytes.collect::<Vec<u8>>()
    };
    assert_eq!(all([1, 1, 0]), [words(&[1, 1, 0, 0, 0])]);
    let six = [
        [1, 1, 1, 1, 0, 1, 0, 0, 0],
        [1, 1, 1, 1, 0, 2, 0, 0, 0],
        [1, 1, 1, 1, 0, 3, 0, 0, 0],
        [1, 1, 1, 1, 1, 1, 0, 0, 0],
        [1, 1, 1, 1, 1, 2, 0, 0, 0],
        [1, 1, 1, 1, 1, 3, 0, 0, 0],
    ];
    assert_eq!(all([1, 1, 1]), six.map(|fields| words(&fields)));
    // The last of all: the output is the last wire. Slot 2 is before slot 1 on the
    // chain, and both are INV of the greatest wire written by then.
    let last = [2, 1, 2, 2, 3, 3, 3, 0, 0, 3, 1, 0, 1];
    assert_eq!(all([2, 1, 2]).last(), Some(&words(&last)));
}

/// Behind the last circuit nothing is written, with room or without.
#[test]
fn the_last_has_passed() {
    let mut random = Random::new(2);
    for (sizes, count) in COUNTS {
        let list = list(sizes);
        let wide = (1 << 32) + random.below(count as usize) as u64;
        for place in [
            count,
            count + 1,
            2 * count,
            1 << 31,
            1 << 32,
            wide,
            1 << 63,
            u64::MAX - 1,
            u64::MAX,
        ] {
            for room in [0, 1, len(sizes) - 1, len(sizes), 60] {
                let built = compare_small(&mut random, &list, sizes, place, room);
                assert_eq!(built.map(|(_, len)| len), Ok(0), "{place}, {room}");
            }
            let [inputs, outputs, gates] = sizes;
            assert_eq!(small(inputs, outputs, gates, place, &mut []), Ok(None));
        }
    }
}

/// Every length that is too short, at the first place, the last, and one between.
#[test]
fn no_room() {
    let mut random = Random::new(3);
    for (sizes, count) in COUNTS {
        let list = list(sizes);
        for place in [0, count / 2, count - 1] {
            for room in 0..len(sizes) {
                let built = compare_small(&mut random, &list, sizes, place, room);
                assert_eq!(built, Err(6), "{place}, {room}");
            }
            let built = compare_small(&mut random, &list, sizes, place, len(sizes));
            assert!(built.is_ok());
        }
    }
}

/// 29 comes first, whatever the place and the room.
#[test]
fn sizes_beyond_these() {
    let mut random = Random::new(4);
    for sizes in BEYOND {
        let list = list(sizes);
        assert_eq!(list.as_ref().err(), Some(&29));
        for place in [0, 1, 1679, 1680, u64::MAX] {
            for room in [0, 19, 20, 52, 100] {
                let built = compare_small(&mut random, &list, sizes, place, room);
                assert_eq!(built, Err(29), "{sizes:?}");
            }
        }
        let [inputs, outputs, gates] = sizes;
        let answer = small_to_vec(inputs, outputs, gates, 0);
        assert_eq!(answer, Err(Refusal::SmallSizes));
    }
}
