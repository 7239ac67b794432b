//! Random pages, sound and damaged, under one call: answers and lent bytes.

use reference::shelf;
use tests::guarded::Guarded;
use tests::outcomes::Outcomes;
use tests::pages::{any_draws, any_page, any_root, any_size, damage, DRAWS};
use tests::random::Random;
use wivulameno::Refusal;

const PAGES: usize = 20_000;

fn compare_stock(random: &mut Random, page: &[u8]) -> Result<(), u32> {
    let mut root = any_root(random).to_vec();
    if random.once_in(8) {
        root.resize(random.pick(&[0, 15, 17, 32]), 1);
    }
    let root = Guarded::holding(random, &root);
    let mut lent = Guarded::holding(random, page);
    let mut expected = page.to_vec();
    let second = shelf::stock(&mut expected, root.get());

    let ours = wivulameno::shelf::stock(lent.lent(), root.get());
    assert_eq!(ours, second.map_err(Refusal::of), "{page:02x?}");
    assert!(lent.get() == expected, "page, {page:02x?}");
    assert!(lent.outside_unchanged() && root.unchanged(), "{page:02x?}");
    assert!(second.is_ok() || lent.unchanged(), "{page:02x?}");
    second
}

fn compare_draw(random: &mut Random, page: &[u8], count: u64) -> Result<[u8; 16], u32> {
    let mut root = Guarded::new(random, 3, 16);
    let mut lent = Guarded::holding(random, page);
    let mut expected = page.to_vec();
    let second = shelf::draw(&mut expected, count);

    let place = root.lent().try_into().expect("16 bytes");
    let ours = wivulameno::shelf::draw_into(lent.lent(), count, place);
    assert_eq!(ours, second.map(|_| ()).map_err(Refusal::of), "{page:02x?}");
    assert!(lent.get() == expected, "page, {page:02x?}");
    assert!(lent.outside_unchanged() && root.outside_unchanged());
    match second {
        Ok(drawn) => assert_eq!(root.get(), drawn),
        Err(_) => assert!(root.unchanged() && lent.unchanged(), "{page:02x?}"),
    }
    second
}

/// The count that the page has, or another one.
fn any_count(random: &mut Random, page: &[u8]) -> u64 {
    let draws = page.get(DRAWS..DRAWS + 4).unwrap_or(&[0; 4]);
    let draws = u64::from(u32::from_le_bytes(draws.try_into().unwrap()));
    match random.below(8) {
        0 => draws + random.pick(&[1, 256, 1 << 32]),
        1 => draws.wrapping_sub(1),
        _ => draws,
    }
}

/// One call of each on the page; counts the outcomes.
fn compare(random: &mut Random, page: &[u8], outcomes: &mut [Outcomes; 2]) {
    outcomes[0].add_answer(&compare_stock(random, page));
    let count = any_count(random, page);
    outcomes[1].add_answer(&compare_draw(random, page, count));
}

#[test]
fn sound_pages() {
    let mut random = Random::new(31);
    let mut outcomes: [Outcomes; 2] = Default::default();
    for _ in 0..PAGES {
        let (size, draws) = (any_size(&mut random), any_draws(&mut random));
        let page = any_page(&mut random, size, draws);
        compare(&mut random, &page, &mut outcomes);
    }
    outcomes[0].expect(&[0, 6, 17], 500);
    outcomes[1].expect(&[0, 15, 16, 18], 500);
}

#[test]
fn damaged_pages() {
    let mut random = Random::new(32);
    let mut outcomes: [Outcomes; 2] = Default::default();
    for _ in 0..PAGES {
        let (size, draws) = (any_size(&mut random), any_draws(&mut random));
        let mut page = any_page(&mut random, size, draws);
        damage(&mut page, &mut random);
        compare(&mut random, &page, &mut outcomes);
    }
    outcomes[0].expect(&[0, 6, 14, 17], 100);
    outcomes[1].expect(&[0, 14, 15, 16, 18], 50);
}
