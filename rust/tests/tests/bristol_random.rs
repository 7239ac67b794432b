//! Random texts, good and damaged: answers, circuit files and lent bytes.

use reference::bits::get;
use tests::bristol::{
    adder, any_groups, comparator, compare, converted, damaged, multiplier, printed,
    printed_with_copies, room, spaced,
};
use tests::calls::any_bits;
use tests::circuits::{any_sizes, any_slots, legal, File};
use tests::outcomes::Outcomes;
use tests::random::Random;

const GOOD: usize = 1_500;
const DAMAGED: usize = 12_000;

/// A legal file, the order of its chain, and groups for its inputs and outputs.
struct Setting {
    file: File,
    slots: Vec<usize>,
    groups: [Vec<usize>; 2],
}

impl Setting {
    fn any(random: &mut Random) -> Setting {
        let sizes @ [inputs, outputs, _] = any_sizes(random);
        let slots = any_slots(random, sizes[2]);
        let groups = [inputs, outputs].map(|sum| any_groups(random, sum));
        Setting {
            file: legal(random, sizes, &slots),
            slots,
            groups,
        }
    }

    /// The same with the last wires as outputs, if there are so many wires.
    fn with_last_outputs(mut self) -> Option<Setting> {
        let [inputs, outputs, gates] = self.file.counts;
        let first = (inputs + gates).checked_sub(outputs)?;
        self.file.outputs = (first..inputs + gates).collect();
        Some(self)
    }

    fn groups(&self) -> [&[usize]; 2] {
        [&self.groups[0], &self.groups[1]]
    }
}

/// The outputs of a file by the library.
fn y_of(file: &[u8], witness: &[u8]) -> Vec<u8> {
    let sizes = wivulameno::circuit::sizes(file).expect("a circuit");
    let mut y = vec![0; sizes.y_len()];
    let answer = wivulameno::circuit::evaluate(file, witness, &mut y);
    answer.expect("a witness");
    y
}

/// A file printed as text and converted back is the same file.
#[test]
fn files_come_back() {
    let mut random = Random::new(0xb10);
    let [mut without_gates, mut out_of_order, mut files] = [0; 3];
    for _ in 0..GOOD {
        let Some(setting) = Setting::any(&mut random).with_last_outputs() else {
            continue;
        };
        let text = printed(&setting.file, &setting.slots, setting.groups());
        let text = spaced(&mut random, &text);
        let file = converted(&mut random, text.as_bytes());
        assert_eq!(file, Ok(setting.file.bytes()), "{text}");
        files += 1;
        without_gates += usize::from(setting.slots.is_empty());
        out_of_order += usize::from(!setting.slots.is_sorted());
    }
    let least = [without_gates, out_of_order, files];
    assert!(least.iter().all(|&times| times >= 30), "{least:?}");
}

/// With any outputs, it is another file with the same function, which is the text's.
#[test]
fn functions_come_back() {
    let mut random = Random::new(0xb11);
    for _ in 0..GOOD / 3 {
        let setting = Setting::any(&mut random);
        let text = printed_with_copies(&setting.file, &setting.slots, setting.groups());
        let file = converted(&mut random, text.as_bytes()).expect("a good text");
        let [inputs, outputs, gates] = setting.file.counts.map(|count| count as usize);
        let sizes = wivulameno::circuit::read(&file).expect("a circuit");
        let expected = [inputs, outputs, gates + 2 * outputs];
        assert_eq!(sizes[..3], expected.map(|size| size as u32));
        for _ in 0..3 {
            let witness = any_bits(&mut random, inputs);
            let y = y_of(&file, &witness);
            assert_eq!(y, y_of(&setting.file.bytes(), &witness), "{text}");
            let bits: Vec<bool> = (0..inputs).map(|place| get(&witness, place)).collect();
            let given: Vec<bool> = (0..outputs).map(|place| get(&y, place)).collect();
            assert_eq!(given, reference::bristol::evaluate(&text, &bits), "{text}");
        }
    }
}

/// A text of few gates or of many.
fn any_text(random: &mut Random) -> Vec<u8> {
    let text = match random.below(12) {
        0 => adder(random.from_to(1, 8)),
        1 => comparator(random.from_to(1, 8)),
        2 => multiplier(random.from_to(1, 4)),
        3 => return b"0 2\n1 2\n1 1\n".to_vec(),
        _ => loop {
            if let Some(setting) = Setting::any(random).with_last_outputs() {
                break printed(&setting.file, &setting.slots, setting.groups());
            }
        },
    };
    text.into_bytes()
}

#[test]
fn damaged_texts() {
    let mut random = Random::new(0xb12);
    let mut outcomes = Outcomes::default();
    let mut other_files = 0;
    for _ in 0..DAMAGED {
        let text = any_text(&mut random);
        let changed = damaged(&mut random, &text);
        let answer = compare(&mut random, &changed, room(&changed));
        if let Ok((file, len)) = &answer {
            // Whatever is accepted is a legal circuit.
            assert!(wivulameno::circuit::read(&file[..*len]).is_ok());
            let before = converted(&mut random, &text).expect("a good text");
            other_files += usize::from(file[..*len] != before);
        }
        outcomes.add_answer(&answer);
        if random.once_in(4) {
            let len = random.below(60);
            outcomes.add_answer(&compare(&mut random, &changed, len));
        }
    }
    outcomes.expect(&[0, 6, 22, 23, 24], 100);
    assert!(other_files > 100, "{other_files}");
}

/// Small tokens in any order, with a header that is often good.
#[test]
fn tokens_at_random() {
    let mut random = Random::new(0xb13);
    let mut outcomes = Outcomes::default();
    let headers = [
        "",
        "1 1\n",
        "0 1\n1 1\n1 1\n",
        "1 2\n1 1\n1 1\n",
        "2 3\n1 1\n1 1\n",
    ];
    let tokens = [
        "0", "1", "2", "3", "10", "00", "XOR", "AND", "INV", "EQ", "2 1 0 0", "1 1 0",
    ];
    for _ in 0..DAMAGED {
        let mut text = random.pick(&headers).to_string();
        for _ in 0..random.below(8) {
            text += random.pick(&tokens);
            text += random.pick(&[" ", " ", " ", "\n", "\n", "", "\r\n", "\0"]);
        }
        outcomes.add_answer(&compare(&mut random, text.as_bytes(), 100));
    }
    outcomes.expect(&[0, 22, 23, 24], 20);
}

#[test]
fn random_bytes() {
    let mut random = Random::new(0xb14);
    let mut outcomes = Outcomes::default();
    for _ in 0..DAMAGED {
        let len = random.below(40);
        let mut bytes = random.bytes(len);
        for byte in &mut bytes {
            if !random.once_in(8) {
                *byte = b"0123 \n"[usize::from(*byte) % 6];
            }
        }
        outcomes.add_answer(&compare(&mut random, &bytes, 100));
    }
    outcomes.expect_some(&[22, 24], 3);
}
