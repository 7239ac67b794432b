//! Hand-made shelf pages: each refusal, each way to break a page, and the
//! rollback. Both implementations must give the answer that stands here.

use reference::shelf;
use tests::guarded::Guarded;
use tests::pages::{
    get_u16, next_place, page, put_u16, root_place, DRAWS, READY, SIZE, SPARE, ZERO,
};
use tests::random::Random;
use wivulameno::Refusal;

/// Stocks by both. A refusal leaves the page; success leaves the same one.
fn check_stock(name: &str, page: &[u8], root: &[u8], expected: Result<(), u32>) {
    let mut second = page.to_vec();
    assert_eq!(
        shelf::stock(&mut second, root),
        expected,
        "reference: {name}"
    );

    let random = &mut Random::new(1);
    let root = Guarded::holding(random, root);
    let mut ours = Guarded::holding(random, page);
    let answer = wivulameno::shelf::stock(ours.lent(), root.get());
    assert_eq!(answer, expected.map_err(Refusal::of), "library: {name}");
    assert!(ours.get() == second, "page: {name}");
    assert!(ours.outside_unchanged() && root.unchanged(), "{name}");
    assert!(expected.is_ok() || ours.unchanged(), "page: {name}");
}

/// Draws by both. A refusal leaves page and root; success leaves the same page.
fn check_draw(name: &str, page: &[u8], count: u64, expected: Result<[u8; 16], u32>) {
    let mut second = page.to_vec();
    assert_eq!(
        shelf::draw(&mut second, count),
        expected,
        "reference: {name}"
    );

    let random = &mut Random::new(2);
    let mut root = Guarded::holding(random, &[0xa5; 16]);
    let mut ours = Guarded::holding(random, page);
    let lent = root.lent().try_into().expect("16 bytes");
    let answer = wivulameno::shelf::draw_into(ours.lent(), count, lent);
    let expected_status = expected.map(|_| ()).map_err(Refusal::of);
    assert_eq!(answer, expected_status, "library: {name}");
    assert_eq!(root.get(), expected.unwrap_or([0xa5; 16]), "root: {name}");
    assert!(ours.get() == second, "page: {name}");
    assert!(ours.outside_unchanged() && root.outside_unchanged());
    assert!(expected.is_ok() || ours.unchanged(), "page: {name}");
}

fn check_unsound(name: &str, page: &[u8]) {
    check_stock(name, page, &[1; 16], Err(14));
    check_draw(name, page, 5, Err(14));
    // Unsound comes before every other refusal.
    check_stock(name, page, &[1; 15], Err(14));
    check_draw(name, page, 6, Err(14));
}

/// Ready 2, 4; spare 3, 1; draws is 5.
fn four() -> Vec<u8> {
    page(&[2, 4], &[3, 1], 5)
}

/// `four` with one number of 16 bits changed.
fn four_with(place: usize, value: usize) -> Vec<u8> {
    let mut page = four();
    put_u16(&mut page, place, value);
    page
}

#[test]
fn unsound_length() {
    let page = four();
    for len in 0..page.len() {
        check_unsound("cut", &page[..len]);
    }
    check_unsound("a byte more", &[&page[..], &[0]].concat());
    check_unsound("a slot more", &[&page[..], &[0; 18]].concat());
    check_unsound("a slot less", &page[..page.len() - 18]);
}

#[test]
fn unsound_size() {
    check_unsound("S = 0", &[0; 12]);
    let mut big = page(&[], &(1..=256).collect::<Vec<_>>(), 5);
    check_unsound("S = 256", &big);
    put_u16(&mut big, SIZE, 0);
    check_unsound("S = 0 on a page of 256", &big);
    check_unsound("S too large", &four_with(SIZE, 5));
    check_unsound("S too small", &four_with(SIZE, 3));
    check_unsound("S + 256", &four_with(SIZE, 256 + 4));
}

#[test]
fn unsound_chains() {
    for value in [5, 255, 256 + 2, 65_535] {
        check_unsound("ready head past S", &four_with(READY, value));
        check_unsound("spare head past S", &four_with(SPARE, value));
        check_unsound("ready link past S", &four_with(next_place(2), value));
        check_unsound("spare link past S", &four_with(next_place(3), value));
        check_unsound("ready end past S", &four_with(next_place(4), value));
        check_unsound("spare end past S", &four_with(next_place(1), value));
    }
    check_unsound("ready cycle", &four_with(next_place(4), 2));
    check_unsound("spare cycle", &four_with(next_place(1), 3));
    check_unsound("ready slot follows itself", &four_with(next_place(4), 4));
    check_unsound("spare slot follows itself", &four_with(next_place(1), 1));
    check_unsound("ready runs into spare", &four_with(next_place(4), 3));
    check_unsound("spare runs into ready", &four_with(next_place(1), 4));
    check_unsound("both heads alike", &four_with(SPARE, 2));
    check_unsound("ready lost", &four_with(READY, 0));
    check_unsound("spare lost", &four_with(SPARE, 0));
    check_unsound("ready ends early", &four_with(next_place(2), 0));
    check_unsound("spare ends early", &four_with(next_place(3), 0));
    check_unsound("first ready left out", &four_with(READY, 4));
    check_unsound("first spare left out", &four_with(SPARE, 1));
}

/// The spare slots have zero roots here, so that the chains alone are at fault.
#[test]
fn unsound_chains_without_roots() {
    let mut lost = page(&[1], &[2], 5);
    lost[root_place(1)..][..16].fill(0);
    check_draw("sound", &lost, 5, Ok([0; 16]));
    put_u16(&mut lost, READY, 0);
    check_unsound("a slot on no chain", &lost);
    put_u16(&mut lost, READY, 2);
    check_unsound("a slot on both chains", &lost);
}

#[test]
fn unsound_zeros() {
    for value in [1, 0x80, 0x100, 0x8000, 65_535] {
        check_unsound("zero field", &four_with(ZERO, value));
    }
    for slot in [1, 3] {
        for byte in 0..16 {
            let mut page = four();
            page[root_place(slot) + byte] = 0x80;
            check_unsound("spare root", &page);
        }
    }
}

#[test]
fn refusals_of_stock() {
    let full = page(&[2, 1], &[], 5);
    check_stock("full", &full, &[1; 16], Err(17));
    for len in [0, 1, 15, 17, 32, 256 + 16] {
        check_stock("length of the root", &four(), &vec![1; len], Err(6));
        check_stock("6 before 17", &full, &vec![1; len], Err(6));
    }
}

#[test]
fn refusals_of_draw() {
    let empty = page(&[], &[2, 1], 5);
    check_draw("empty", &empty, 5, Err(16));
    let wide = 1 << 32;
    for count in [0, 4, 6, 5 + 256, 5 + wide, u64::MAX] {
        check_draw("another count", &four(), count, Err(15));
        check_draw("15 before 16", &empty, count, Err(15));
    }
    let last = u64::from(u32::MAX);
    let at_end = page(&[2], &[1], u32::MAX);
    check_draw("the last count", &at_end, last, Err(18));
    check_draw("15 before 18", &at_end, last + 1, Err(15));
    check_draw("15 before 18", &at_end, last - 1, Err(15));
    check_draw("16 before 18", &page(&[], &[1], u32::MAX), last, Err(16));
    let before = page(&[2], &[1], u32::MAX - 1);
    check_draw("one before", &before, last - 1, Ok([2; 16]));
    let none = page(&[2], &[1], 0);
    check_draw("one below none", &none, u64::MAX, Err(15));
    check_draw("wide none", &none, wide, Err(15));
    check_draw("none", &none, 0, Ok([2; 16]));
}

/// Slot 3 moves from spare to ready, byte by byte.
#[test]
fn stock_known_page() {
    let mut expected = page(&[3, 2, 4], &[1], 5);
    expected[root_place(3)..][..16].fill(0xee);
    let mut ours = four();
    assert_eq!(wivulameno::shelf::stock(&mut ours, &[0xee; 16]), Ok(()));
    assert_eq!(ours, expected);
    check_stock("into four", &four(), &[0xee; 16], Ok(()));
    check_stock("a root of zeros", &four(), &[0; 16], Ok(()));
}

/// Slot 2 moves from ready to spare, byte by byte.
#[test]
fn draw_known_page() {
    let mut ours = four();
    assert_eq!(wivulameno::shelf::draw(&mut ours, 5), Ok([2; 16]));
    assert_eq!(ours, page(&[4], &[2, 3, 1], 6));
    check_draw("from four", &four(), 5, Ok([2; 16]));
}

/// The last byte of draws carries over.
#[test]
fn draw_adds_with_carry() {
    for draws in [0xff, 0xffff, 0x00ff_ffff, 0x7fff_ffff] {
        let mut ours = page(&[1], &[], draws);
        let drawn = wivulameno::shelf::draw(&mut ours, draws.into());
        assert_eq!(drawn, Ok([1; 16]));
        assert_eq!(ours[DRAWS..DRAWS + 4], (draws + 1).to_le_bytes());
        assert_eq!(ours, page(&[], &[1], draws + 1));
    }
}

#[test]
fn smallest_and_largest() {
    check_stock("S = 1", &page(&[], &[1], 0), &[3; 16], Ok(()));
    check_draw("S = 1", &page(&[1], &[], 0), 0, Ok([1; 16]));
    let slots: Vec<usize> = (1..=255).rev().collect();
    check_stock("S = 255", &page(&[], &slots, 0), &[3; 16], Ok(()));
    check_draw("S = 255", &page(&slots, &[], 0), 0, Ok([255; 16]));
    check_stock("S = 255, full", &page(&slots, &[], 0), &[3; 16], Err(17));
}

/// Draw, put the clean page back, draw again: 15, and the root does not go out.
#[test]
fn rollback_is_refused() {
    let clean = four();
    let mut now = clean.clone();
    let mut log = 5;
    assert_eq!(wivulameno::shelf::draw(&mut now, log), Ok([2; 16]));
    log += 1;

    let mut restored = clean.clone();
    let mut root = [0xa5; 16];
    let again = wivulameno::shelf::draw_into(&mut restored, log, &mut root);
    assert_eq!(again, Err(Refusal::of(15)));
    assert_eq!(root, [0xa5; 16]);
    assert_eq!(restored, clean);

    // Stocking on the old page does not open it again.
    assert_eq!(wivulameno::shelf::stock(&mut restored, &[9; 16]), Ok(()));
    let again = wivulameno::shelf::draw_into(&mut restored, log, &mut root);
    assert_eq!(again, Err(Refusal::of(15)));
    assert_eq!(root, [0xa5; 16]);

    // The present page goes on, with the next root.
    assert_eq!(wivulameno::shelf::draw(&mut now, log), Ok([4; 16]));
    assert_eq!(get_u16(&now, READY), 0);
}
