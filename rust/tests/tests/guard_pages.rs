//! Legal and damaged calls of every C function, with pages around each lent
//! buffer that may not be touched. A read or write past an end ends this test.

use reference::fips202;
use reference::one_of::OneOf;
use reference::small::Small;
use std::env;
use std::os::unix::process::ExitStatusExt;
use std::process::Command;
use std::slice::from_ref;
use tests::bristol::{adder, comparator, damaged as damaged_text, room, shown};
use tests::calls::{damage, Setting, COUNTS, NOT_A_COUNT};
use tests::challenges::Challenge;
use tests::circuits::{any_sizes, any_slots, damaged, legal, K};
use tests::covers::{Cover, Masters};
use tests::old::damaged_old;
use tests::outcomes::Outcomes;
use tests::paged::{lend, lend_with_work, Edge, Paged};
use tests::pages::{self, any_draws, any_page, any_root, any_size};
use tests::random::Random;
use wivulameno::{circuit, mpc, seeds, shelf, Work};

/// The calls that each test makes.
const BUDGET: usize = 4000;

/// The library does with guarded buffers what it does with others.
#[test]
fn runs_showings_and_replays() {
    let mut random = Random::new(0x6a1);
    let mut outcomes = Outcomes::default();
    for _ in 0..BUDGET {
        let setting = Setting::any(&mut random);
        let mut call = setting.any_call(&mut random);
        if !random.once_in(3) {
            damage(&mut random, &setting, &mut call);
        }
        let inputs: Vec<&[u8]> = [&call.circuit]
            .into_iter()
            .chain(&call.inputs)
            .map(|bytes| &bytes[..])
            .collect();
        let lens = call.out_lens.iter();
        let outputs: Vec<Vec<u8>> = lens.map(|&len| random.bytes(len)).collect();
        if random.once_in(4) {
            call.work_len += random.pick(&[1, 7, 64, 4096]);
        }
        let len = call.work_len;
        let (answer, filled) =
            lend_with_work(&mut random, &inputs, &outputs, len, |inputs, out, work| {
                call.with(inputs[0], inputs[1..].to_vec(), out, work)
            });
        outcomes.add_answer(&answer);
        let expected = call.by_reference();
        assert_eq!(answer.map(|()| filled), expected, "{}", call.shown());
    }
    outcomes.expect(&[0, 1, 2, 3, 5, 6, 7, 8, 9, 10, 19, 20, 21], 5);
}

#[test]
fn circuits() {
    let mut random = Random::new(0x6a2);
    let mut outcomes = Outcomes::default();
    for _ in 0..BUDGET {
        let sizes = any_sizes(&mut random);
        let slots = any_slots(&mut random, sizes[2]);
        let file = legal(&mut random, sizes, &slots);
        let bytes = match random.below(3) {
            0 => file.bytes(),
            _ => damaged(&mut random, &file, &slots),
        };
        outcomes.add_answer(&read(&mut random, &bytes));
        let _ = lend(&mut random, &[&bytes], &[], |inputs, _| {
            let slot = circuit::fault_slot(inputs[0]) as usize;
            assert_eq!(slot, reference::circuit::fault_slot(&bytes));
            Ok(())
        });
        evaluate(&mut random, &bytes, sizes, &mut outcomes);
    }
    outcomes.expect(&[0, 1, 2, 3, 5, 6, 7, 19, 20, 21], 5);
}

fn read(random: &mut Random, file: &[u8]) -> Result<(), u32> {
    let (answer, filled) = lend(random, &[file], &[vec![0xee; 16]], |inputs, mut out| {
        let sizes: *mut [u32; 4] = out[0].as_mut_ptr().cast();
        assert!(sizes.is_aligned());
        // SAFETY: these are 16 bytes, and aligned.
        circuit::read_into(inputs[0], unsafe { &mut *sizes })
    });
    let expected = reference::circuit::read(file);
    let sizes = expected.map(|sizes| {
        let sizes = [sizes.inputs, sizes.outputs, sizes.gates, sizes.ands];
        sizes.map(|size| (size as u32).to_ne_bytes()).concat()
    });
    assert_eq!(filled[0], sizes.unwrap_or(vec![0xee; 16]));
    assert_eq!(answer, expected.map(|_| ()));
    answer
}

fn evaluate(random: &mut Random, file: &[u8], sizes: [usize; 3], outcomes: &mut Outcomes) {
    let exact = [sizes[0], sizes[1]].map(|bits| bits.div_ceil(8));
    let [witness_len, y_len] = exact.map(|len| random.pick(&[len, len, len, len + 1, 0]));
    let mut witness = random.bytes(witness_len);
    if random.once_in(2) {
        reference::bits::clear_rest(&mut witness, sizes[0].min(8 * witness_len));
    }
    let y = random.bytes(y_len);
    let (answer, filled) = lend(random, &[file, &witness], from_ref(&y), |inputs, out| {
        let [y] = out.try_into().unwrap_or_else(|_| panic!("one output"));
        circuit::evaluate(inputs[0], inputs[1], y)
    });
    outcomes.add_answer(&answer);
    let mut expected = y;
    let second = reference::circuit::evaluate(file, &witness, &mut expected);
    assert_eq!((answer, &filled[0]), (second, &expected));
}

/// The texts end where the page does, or begin where it does.
#[test]
fn texts() {
    let mut random = Random::new(0x6a7);
    let mut outcomes = Outcomes::default();
    for _ in 0..BUDGET {
        let make = random.pick(&[adder, comparator]);
        let mut text = make(random.from_to(1, 9)).into_bytes();
        if !random.once_in(4) {
            text = damaged_text(&mut random, &text);
        }
        outcomes.add_answer(&convert(&mut random, &text));
    }
    outcomes.expect(&[0, 6, 22, 23, 24], 50);
}

fn convert(random: &mut Random, text: &[u8]) -> Result<(), u32> {
    let mut room = vec![0; room(text)];
    let file_len = reference::bristol::convert(text, &mut room).unwrap_or(40);
    let len = near(random, file_len);
    let out = random.bytes(len);
    let before = random.word();
    let outputs = [out.clone(), before.to_ne_bytes().to_vec()];
    let (answer, filled) = lend(random, &[text], &outputs, |inputs, out| {
        let [out, written] = out.try_into().unwrap_or_else(|_| panic!("two outputs"));
        let written: *mut u64 = written.as_mut_ptr().cast();
        assert!(written.is_aligned());
        // SAFETY: these are 8 bytes, and aligned.
        circuit::from_bristol_into(inputs[0], out, unsafe { &mut *written })
    });
    let mut expected = out;
    let second = reference::bristol::convert(text, &mut expected);
    assert_eq!(answer, second.map(|_| ()), "{}", shown(text));
    let written = second.map_or(before, |len| len as u64);
    let expected = [expected, written.to_ne_bytes().to_vec()];
    assert!(filled == expected, "{}", shown(text));
    answer
}

/// Files of the old form, whole and damaged.
#[test]
fn old_circuits() {
    let mut random = Random::new(0x6a8);
    let mut outcomes = Outcomes::default();
    for _ in 0..BUDGET {
        let sizes = any_sizes(&mut random);
        let slots = any_slots(&mut random, sizes[2]);
        let mut old = legal(&mut random, sizes, &slots).old_bytes();
        if !random.once_in(3) {
            old = damaged_old(&mut random, old);
        }
        outcomes.add_answer(&upgrade(&mut random, &old));
    }
    outcomes.expect(&[0, 1, 2, 3, 5, 6, 19, 20, 21], 5);
}

fn upgrade(random: &mut Random, old: &[u8]) -> Result<(), u32> {
    let len = near(random, 2 * old.len());
    let out = random.bytes(len);
    let before = random.word();
    let outputs = [out.clone(), before.to_ne_bytes().to_vec()];
    let (answer, filled) = lend(random, &[old], &outputs, |inputs, out| {
        let [out, written] = out.try_into().unwrap_or_else(|_| panic!("two outputs"));
        let written: *mut u64 = written.as_mut_ptr().cast();
        assert!(written.is_aligned());
        let slot = circuit::upgrade_slot(inputs[0]) as usize;
        assert_eq!(slot, reference::old::upgrade_slot(old));
        // SAFETY: these are 8 bytes, and aligned.
        circuit::upgrade_into(inputs[0], out, unsafe { &mut *written })
    });
    let mut expected = out;
    let second = reference::old::upgrade(old, &mut expected);
    assert_eq!(answer, second.map(|_| ()));
    let written = second.map_or(before, |len| len as u64);
    assert!(filled == [expected, written.to_ne_bytes().to_vec()]);
    answer
}

/// Two circuits of which one may be damaged.
#[test]
fn joined_circuits() {
    let mut random = Random::new(0x6a9);
    let mut outcomes = Outcomes::default();
    for _ in 0..BUDGET {
        let inputs = any_sizes(&mut random)[0];
        let [first, second] = [(); 2].map(|()| {
            let mut sizes = any_sizes(&mut random);
            if !random.once_in(12) {
                sizes[0] = inputs;
            }
            let slots = any_slots(&mut random, sizes[2]);
            let file = legal(&mut random, sizes, &slots);
            match random.below(4) {
                0 => damaged(&mut random, &file, &slots),
                _ => file.bytes(),
            }
        });
        outcomes.add_answer(&join(&mut random, &first, &second));
    }
    outcomes.expect(&[0, 1, 2, 3, 5, 6, 19, 20, 21, 25], 5);
}

fn join(random: &mut Random, first: &[u8], second: &[u8]) -> Result<(), u32> {
    let len = near(random, (first.len() + second.len()).saturating_sub(16));
    let out = random.bytes(len);
    let before = random.word();
    let outputs = [out.clone(), before.to_ne_bytes().to_vec()];
    let (answer, filled) = lend(random, &[first, second], &outputs, |inputs, out| {
        let [out, written] = out.try_into().unwrap_or_else(|_| panic!("two outputs"));
        let written: *mut u64 = written.as_mut_ptr().cast();
        assert!(written.is_aligned());
        // SAFETY: these are 8 bytes, and aligned.
        circuit::join_into(inputs[0], inputs[1], out, unsafe { &mut *written })
    });
    let mut expected = out;
    let second = reference::join::join(first, second, &mut expected);
    assert_eq!(answer, second.map(|_| ()));
    let written = second.map_or(before, |len| len as u64);
    assert!(filled == [expected, written.to_ne_bytes().to_vec()]);
    answer
}

/// The list may be empty, too long, cut off or have a bit too many.
#[test]
fn one_of_several_outputs() {
    let mut random = Random::new(0x6ab);
    let mut outcomes = Outcomes::default();
    for _ in 0..BUDGET {
        let sizes = any_sizes(&mut random);
        let slots = any_slots(&mut random, sizes[2]);
        let file = legal(&mut random, sizes, &slots);
        let circuit = match random.below(4) {
            0 => damaged(&mut random, &file, &slots),
            _ => file.bytes(),
        };
        let len = sizes[1].div_ceil(8);
        let count = random.pick(&[1, 2, 3, 16, 16, 17]);
        let list_len = near(&mut random, count * len);
        let mut list = random.bytes(list_len);
        if !random.once_in(4) {
            let entries = list.chunks_mut(len);
            entries.for_each(|entry| {
                reference::bits::clear_rest(entry, sizes[1].min(8 * entry.len()));
            });
        }
        outcomes.add_answer(&one_of(&mut random, &circuit, &list));
    }
    outcomes.expect(&[0, 1, 2, 3, 5, 6, 7, 19, 20, 21, 30], 5);
}

fn one_of(random: &mut Random, file: &[u8], list: &[u8]) -> Result<(), u32> {
    // The gates are free: the file is that of a call without guards.
    let plain = circuit::one_of_to_vec(file, list);
    let len = near(random, plain.as_ref().map_or(40, Vec::len));
    let out = random.bytes(len);
    let before = random.word();
    let outputs = [out.clone(), before.to_ne_bytes().to_vec()];
    let (answer, filled) = lend(random, &[file, list], &outputs, |inputs, out| {
        let [out, written] = out.try_into().unwrap_or_else(|_| panic!("two outputs"));
        let written: *mut u64 = written.as_mut_ptr().cast();
        assert!(written.is_aligned());
        // SAFETY: these are 8 bytes, and aligned.
        circuit::one_of_into(inputs[0], inputs[1], out, unsafe { &mut *written })
    });
    let asked = OneOf::of(file, list).map(|_| ());
    let has_room = plain.as_ref().is_ok_and(|built| built.len() <= len);
    let expected = asked.and(if has_room { Ok(()) } else { Err(6) });
    assert_eq!(answer, expected);
    let (mut bytes, mut written) = (out, before);
    if let (Ok(built), true) = (plain, has_room) {
        bytes[..built.len()].copy_from_slice(&built);
        written = built.len() as u64;
    }
    assert!(filled == [bytes, written.to_ne_bytes().to_vec()]);
    answer
}

#[test]
fn small_circuits() {
    let mut random = Random::new(0x6aa);
    let sizes = [
        [1, 1, 0],
        [1, 1, 1],
        [2, 1, 1],
        [2, 1, 2],
        [3, 1, 1],
        [2, 1, 3],
    ];
    let lists = sizes.map(|[inputs, outputs, gates]| Small::of(inputs, outputs, gates));
    let mut outcomes = Outcomes::default();
    for _ in 0..BUDGET {
        let which = random.below(sizes.len());
        let place = random.pick(&[0, 1, 5, 6, 29, 30, 1679, 1680, u64::MAX]);
        let list = lists[which].as_ref().map_err(|&number| number);
        outcomes.add_answer(&small(&mut random, list, sizes[which], place));
    }
    outcomes.expect(&[0, 6, 29], 50);
}

fn small(
    random: &mut Random,
    list: Result<&Small, u32>,
    [inputs, outputs, gates]: [u32; 3],
    place: u64,
) -> Result<(), u32> {
    let len = near(random, 20 + 16 * gates as usize);
    let out = random.bytes(len);
    let before = random.word();
    let lent = [out.clone(), before.to_ne_bytes().to_vec()];
    let (answer, filled) = lend(random, &[], &lent, |_, out| {
        let [out, written] = out.try_into().unwrap_or_else(|_| panic!("two outputs"));
        let written: *mut u64 = written.as_mut_ptr().cast();
        assert!(written.is_aligned());
        // SAFETY: these are 8 bytes, and aligned.
        circuit::small_into(inputs, outputs, gates, place, out, unsafe { &mut *written })
    });
    let mut expected = out;
    let second = list.and_then(|list| list.at(place, &mut expected));
    assert_eq!(answer, second.map(|_| ()));
    let written = second.map_or(before, |len| len.unwrap_or(0) as u64);
    assert!(filled == [expected, written.to_ne_bytes().to_vec()]);
    answer
}

#[test]
fn shelves() {
    let mut random = Random::new(0x6a3);
    let mut outcomes = Outcomes::default();
    for _ in 0..BUDGET {
        let (size, draws) = (any_size(&mut random), any_draws(&mut random));
        let mut page = any_page(&mut random, size, draws);
        if random.once_in(2) {
            pages::damage(&mut page, &mut random);
        }
        let stocked = stock(&mut random, &page);
        outcomes.add_answer(&stocked);
        let wide = random.word();
        let count = random.pick(&[draws.into(), draws.into(), u64::from(draws) + 1, wide]);
        outcomes.add_answer(&draw(&mut random, &page, count));
    }
    outcomes.expect(&[0, 6, 14, 15, 16, 17, 18], 5);
}

fn stock(random: &mut Random, page: &[u8]) -> Result<(), u32> {
    let len = random.pick(&[16, 16, 16, 0, 15, 17]);
    let root = [any_root(random), any_root(random)].concat();
    let root = &root[..len];
    let (answer, filled) = lend(random, &[root], &[page.to_vec()], |inputs, mut out| {
        shelf::stock(out[0], inputs[0])
    });
    let mut expected = page.to_vec();
    assert_eq!(answer, reference::shelf::stock(&mut expected, root));
    assert_eq!(filled[0], expected);
    answer
}

fn draw(random: &mut Random, page: &[u8], count: u64) -> Result<(), u32> {
    let outputs = [page.to_vec(), vec![0x77; 16]];
    let (answer, filled) = lend(random, &[], &outputs, |_, out| {
        let [page, root] = out.try_into().unwrap_or_else(|_| panic!("two outputs"));
        shelf::draw_into(page, count, root.try_into().expect("16 bytes"))
    });
    let mut expected = page.to_vec();
    let drawn = reference::shelf::draw(&mut expected, count);
    assert_eq!(answer, drawn.map(|_| ()));
    assert_eq!(filled, [expected, drawn.unwrap_or([0x77; 16]).to_vec()]);
    answer
}

#[test]
fn trees_and_challenges() {
    let mut random = Random::new(0x6a4);
    type Call = fn(&mut Random) -> Result<(), u32>;
    let calls: [(Call, &[u32]); 5] = [
        (expand, &[0, 6, 8]),
        (open, &[0, 6, 8, 9]),
        (masters, &[0, 6, 8]),
        (cover, &[0, 6, 8, 9]),
        (challenge, &[0, 6, 8]),
    ];
    for (call, expected) in calls {
        let mut outcomes = Outcomes::default();
        for _ in 0..BUDGET / 5 {
            outcomes.add_answer(&call(&mut random));
        }
        outcomes.expect(expected, 5);
    }
}

/// A number of parties, mostly a good one.
fn parties(random: &mut Random) -> u32 {
    match random.below(5) {
        0 => random.pick(&NOT_A_COUNT),
        _ => random.pick(&COUNTS),
    }
}

/// Mostly this length.
fn near(random: &mut Random, len: usize) -> usize {
    let less = len.saturating_sub(1);
    random.pick(&[len, len, len, len, len, len + 1, less, 0])
}

fn any_instance(random: &mut Random) -> u32 {
    random.pick(&[0, 1, 511, 65_535, 65_535, 65_536])
}

fn expand(random: &mut Random) -> Result<(), u32> {
    let (j, n) = (any_instance(random), parties(random));
    let lens = [near(random, 32), near(random, 16)];
    let [salt, master] = lens.map(|len| random.bytes(len));
    let leaves_len = near(random, 16 * n.min(128) as usize);
    let leaves = random.bytes(leaves_len);
    let given = [&salt[..], &master];
    let (answer, filled) = lend(random, &given, from_ref(&leaves), |inputs, mut out| {
        seeds::expand(j, n, inputs[0], inputs[1], out[0])
    });
    let mut expected = leaves;
    let second = reference::seeds::expand(j, n, &salt, &master, &mut expected);
    assert_eq!(answer, second);
    assert_eq!(filled[0], expected);
    answer
}

fn open(random: &mut Random) -> Result<(), u32> {
    let (j, n) = (any_instance(random), parties(random));
    let p = random.pick(&[0, 1, n - n.min(1), n, u32::MAX]);
    let levels = n.max(1).ilog2() as usize;
    let lens = [near(random, 32), near(random, 16)];
    let [salt, master] = lens.map(|len| random.bytes(len));
    let siblings_len = near(random, 16 * levels);
    let siblings = random.bytes(siblings_len);
    let given = [&salt[..], &master];
    let (answer, filled) = lend(random, &given, from_ref(&siblings), |inputs, mut out| {
        seeds::open(j, n, p, inputs[0], inputs[1], out[0])
    });
    let mut expected = siblings;
    let second = reference::seeds::open(j, n, p, &salt, &master, &mut expected);
    assert_eq!(answer, second);
    assert_eq!(filled[0], expected);
    answer
}

fn masters(random: &mut Random) -> Result<(), u32> {
    let m = random.pick(&[2, 3, 5, 8, 64, 343, 511, 512, 1, 513]);
    let lens = [near(random, 32), near(random, 16)];
    let [salt, root] = lens.map(|len| random.bytes(len));
    let call = Masters {
        m,
        salt,
        root,
        out_len: near(random, 16 * m as usize),
    };
    let out = random.bytes(call.out_len);
    let (answer, filled) = lend(random, &call.inputs(), from_ref(&out), |inputs, mut out| {
        call.with(inputs.try_into().expect("two inputs"), out[0])
    });
    let mut expected = out;
    let [salt, root] = call.inputs();
    let second = reference::masters::masters(call.m, salt, root, &mut expected);
    assert_eq!(answer, second);
    assert_eq!(filled[0], expected);
    answer
}

/// Lists that are short and long, with a leaf too large, with a byte too many.
fn cover(random: &mut Random) -> Result<(), u32> {
    let m = random.pick(&[2, 3, 5, 8, 64, 343, 511, 512]);
    let count = random.pick(&[1, 1, 2, m / 2, m, 2 * m, 3 * m]).max(1);
    let leaves: Vec<usize> = (0..count).map(|_| random.below(m)).collect();
    let lens = [near(random, 32), near(random, 16)];
    let [salt, root] = lens.map(|len| random.bytes(len));
    let mut call = Cover::of(m, &leaves, &salt, &root);
    call.out_len = near(random, call.out_len);
    match random.below(12) {
        0 => call.m = random.pick(&[0, 1, 513, 65_536 + 5]),
        1 => call.hidden.truncate(random.below(2)),
        2 => call.hidden.push(0),
        3 => drop(call.hidden.pop()),
        4 => call.hidden[1] = 2,
        _ => {}
    }
    let out = random.bytes(call.out_len);
    let (answer, filled) = lend(random, &call.inputs(), from_ref(&out), |inputs, mut out| {
        call.with(inputs.try_into().expect("two inputs"), out[0])
    });
    let mut expected = out;
    let [hidden, salt, root] = call.inputs();
    let second = reference::masters::cover(call.m, hidden, salt, root, &mut expected);
    assert_eq!(answer, second);
    assert_eq!(filled[0], expected);
    answer
}

fn challenge(random: &mut Random) -> Result<(), u32> {
    let m = random.pick(&[2, 3, 20, 512, 512, 1, 513]);
    let tau = random.pick(&[1, 1, m / 2, m - 1, m]);
    let n = parties(random);
    let lens = [
        near(random, 32),
        near(random, 32),
        near(random, 32),
        random.pick(&[1, 1, 3, 17, 32, 32, 0, 33]),
        random.pick(&[0, 1, 100, 4096, 4097]),
        near(random, 3 * tau as usize),
    ];
    let call = Challenge::of_lengths(random, [m, tau, n], lens);
    let out = random.bytes(call.out_len);
    let (answer, filled) = lend(random, &call.inputs(), from_ref(&out), |inputs, mut out| {
        call.with(inputs.try_into().expect("five inputs"), out[0])
    });
    let mut expected = out;
    assert_eq!(answer, call.by_reference(&mut expected));
    assert_eq!(filled[0], expected);
    answer
}

#[test]
fn hashes() {
    let mut random = Random::new(0x6a5);
    for _ in 0..BUDGET {
        let lens = [(); 2].map(|()| {
            let near_rate = random.pick(&[136, 168, 272, 336]) + random.below(3) - 1;
            random.pick(&[0, 1, 7, 8, 9, near_rate, near_rate])
        });
        let (message, out) = (random.bytes(lens[0]), random.bytes(lens[1]));
        let outputs = [out.clone(), out.clone(), vec![0; 32]];
        let (_, filled) = lend(&mut random, &[&message], &outputs, |inputs, mut out| {
            wivulameno::shake128(inputs[0], out[0]);
            wivulameno::shake256(inputs[0], out[1]);
            let digest = (&mut *out[2]).try_into().expect("32 bytes");
            wivulameno::sha3_256_into(inputs[0], digest);
            Ok(())
        });
        let [mut first, mut second] = [out.clone(), out];
        fips202::shake128(&message, &mut first);
        fips202::shake256(&message, &mut second);
        let digest = fips202::sha3_256(&message);
        assert_eq!(filled, [first, second, digest.to_vec()]);
    }
}

/// An empty buffer lies wholly on a page that may not be touched.
#[test]
fn empty_buffers_are_not_touched() {
    let mut random = Random::new(0x6a6);
    for _ in 0..20 {
        let (answer, _) = lend(&mut random, &[&[], &[]], &[vec![]], |inputs, mut out| {
            mpc::prepare(inputs[0], 2, inputs[1], out[0], &mut Work::lent(&mut []))
        });
        assert_eq!(answer, Err(1));
        let inputs: [&[u8]; 2] = [&K, &[]];
        let (answer, _) = lend_with_work(&mut random, &inputs, &[], 0, |inputs, _, work| {
            mpc::prepare(inputs[0], 2, inputs[1], &mut [], &mut Work::lent(work))
        });
        assert_eq!(answer, Err(6));
        let (answer, _) = lend(&mut random, &[&[]], &[vec![]], |inputs, mut out| {
            circuit::upgrade(inputs[0], out[0]).map(|_| ())
        });
        assert_eq!(answer, Err(1));
        let (answer, _) = lend(&mut random, &[&[], &[]], &[vec![]], |inputs, mut out| {
            circuit::join(inputs[0], inputs[1], out[0]).map(|_| ())
        });
        assert_eq!(answer, Err(1));
        let (answer, _) = lend(&mut random, &[&K, &K], &[vec![]], |inputs, mut out| {
            circuit::join(inputs[0], inputs[1], out[0]).map(|_| ())
        });
        assert_eq!(answer, Err(6));
        for (list, expected) in [(&[][..], Err(30)), (&[1], Err(6))] {
            let (answer, _) = lend(&mut random, &[&K, list], &[vec![]], |inputs, mut out| {
                circuit::one_of(inputs[0], inputs[1], out[0]).map(|_| ())
            });
            assert_eq!(answer, expected);
        }
        // The last small circuit, and the place behind it, where nothing is written.
        for (place, expected) in [(1679, Err(6)), (1680, Ok(()))] {
            let (answer, _) = lend(&mut random, &[], &[vec![]], |_, mut out| {
                circuit::small(2, 1, 2, place, out[0]).map(|_| ())
            });
            assert_eq!(answer, expected);
        }
        let (answer, _) = lend(&mut random, &[&[]], &[vec![]], |inputs, mut out| {
            shelf::stock(out[0], inputs[0])
        });
        assert_eq!(answer, Err(14));
        let (answer, _) = lend(&mut random, &[&[]], &[vec![]], |inputs, mut out| {
            circuit::from_bristol(inputs[0], out[0]).map(|_| ())
        });
        assert_eq!(answer, Err(22));
        let (answer, _) = lend(&mut random, &[&[], &[]], &[vec![]], |inputs, mut out| {
            seeds::masters(2, inputs[0], inputs[1], out[0])
        });
        assert_eq!(answer, Err(6));
        let nothing: [&[u8]; 3] = [&[]; 3];
        let (answer, _) = lend(&mut random, &nothing, &[vec![]], |inputs, mut out| {
            seeds::cover(2, inputs[0], inputs[1], inputs[2], out[0])
        });
        assert_eq!(answer, Err(9));
        // All leaves are hidden: nothing is written.
        let given: [&[u8]; 3] = [&[0, 0, 1, 0], &[9; 32], &[7; 16]];
        let (answer, _) = lend(&mut random, &given, &[vec![]], |inputs, mut out| {
            seeds::cover(2, inputs[0], inputs[1], inputs[2], out[0])
        });
        assert_eq!(answer, Ok(()));
        let text = b"0 1\n1 1\n1 1\n";
        let (answer, _) = lend(&mut random, &[text], &[vec![]], |inputs, mut out| {
            circuit::from_bristol(inputs[0], out[0]).map(|_| ())
        });
        assert_eq!(answer, Err(6));
    }
}

const CROSSING: &str = "WV_TEST_CROSSING";

/// The net itself: each of these crossings ends a process of its own.
#[test]
fn a_crossing_is_a_crash() {
    if let Ok(crossing) = env::var(CROSSING) {
        cross(&crossing);
        return;
    }
    for crossing in [
        "none",
        "read before",
        "read behind",
        "write",
        "write behind",
    ] {
        let this = env::current_exe().expect("a path");
        let ended = Command::new(this)
            .args(["--exact", "a_crossing_is_a_crash"])
            .env(CROSSING, crossing)
            .output()
            .expect("it runs");
        let crash = (crossing != "none").then_some(11);
        assert_eq!(ended.status.signal(), crash, "{crossing}");
        assert_eq!(ended.status.success(), crash.is_none(), "{crossing}");
    }
}

fn cross(crossing: &str) {
    let edge = match crossing {
        "read before" => Edge::Start,
        _ => Edge::End,
    };
    let mut buffer = Paged::holding(&[1, 2, 3], edge);
    let start = buffer.lent().as_mut_ptr();
    buffer.close();
    // SAFETY: none, which is the point.
    unsafe {
        match crossing {
            "none" => assert_eq!(start.read_volatile(), 1),
            "read before" => drop(start.sub(1).read_volatile()),
            "read behind" => drop(start.add(3).read_volatile()),
            "write" => start.write_volatile(0),
            _ => start.add(3).write_volatile(0),
        }
    }
}
