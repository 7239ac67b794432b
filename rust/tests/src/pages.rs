//! Shelf pages, sound and damaged.

use crate::random::Random;

/// Byte places in the head of a page.
pub const SIZE: usize = 0;
pub const READY: usize = 2;
pub const SPARE: usize = 4;
pub const ZERO: usize = 6;
pub const DRAWS: usize = 8;

pub fn next_place(slot: usize) -> usize {
    12 + 18 * (slot - 1)
}

pub fn root_place(slot: usize) -> usize {
    next_place(slot) + 2
}

pub fn put_u16(page: &mut [u8], place: usize, value: usize) {
    page[place..place + 2].copy_from_slice(&(value as u16).to_le_bytes());
}

pub fn get_u16(page: &[u8], place: usize) -> usize {
    usize::from(page[place]) + 256 * usize::from(page[place + 1])
}

/// The page with these two chains; the root in a ready slot k is k, 16 times.
pub fn page(ready: &[usize], spare: &[usize], draws: u32) -> Vec<u8> {
    let size = ready.len() + spare.len();
    let mut page = vec![0; 12 + 18 * size];
    put_u16(&mut page, SIZE, size);
    page[DRAWS..DRAWS + 4].copy_from_slice(&draws.to_le_bytes());
    put_chain(&mut page, READY, ready);
    put_chain(&mut page, SPARE, spare);
    for &slot in ready {
        page[root_place(slot)..][..16].fill(slot as u8);
    }
    page
}

fn put_chain(page: &mut [u8], head: usize, slots: &[usize]) {
    let mut place = head;
    for &slot in slots {
        put_u16(page, place, slot);
        place = next_place(slot);
    }
    put_u16(page, place, 0);
}

/// A sound page of `size` slots with any chains and any roots in its ready slots.
pub fn any_page(random: &mut Random, size: usize, draws: u32) -> Vec<u8> {
    let slots = random.order(size);
    let count = match random.below(4) {
        0 => 0,
        1 => size,
        _ => random.from_to(0, size),
    };
    let (ready, spare) = slots.split_at(count);
    let mut page = page(ready, spare, draws);
    for &slot in ready {
        page[root_place(slot)..][..16].copy_from_slice(&any_root(random));
    }
    page
}

/// Often one of few roots, so that equal bytes are stocked more than once.
pub fn any_root(random: &mut Random) -> [u8; 16] {
    match random.below(4) {
        0 => [0; 16],
        1 => [0x77; 16],
        _ => random.bytes(16).try_into().unwrap(),
    }
}

/// Mostly small; sometimes up to the limit.
pub fn any_size(random: &mut Random) -> usize {
    let most = random.pick(&[1, 3, 3, 8, 8, 8, 20, 255]);
    random.from_to(1, most)
}

/// Often near the end of the numbers.
pub fn any_draws(random: &mut Random) -> u32 {
    match random.below(4) {
        0 => 0,
        1 => u32::MAX - random.below(4) as u32,
        _ => random.word() as u32,
    }
}

/// Changes the page in one way, which may leave it sound.
pub fn damage(page: &mut Vec<u8>, random: &mut Random) {
    let size = get_u16(page, SIZE);
    let slot = random.from_to(1, size);
    match random.below(9) {
        0 => change_length(page, random),
        1 => put_u16(page, SIZE, random.pick(&[0, size + 1, size - 1, 256])),
        2 => put_u16(page, READY, random.from_to(0, size + 1)),
        3 => put_u16(page, SPARE, random.from_to(0, size + 1)),
        4 => put_u16(page, ZERO, random.pick(&[1, 256, 65_535])),
        5 => put_u16(page, next_place(slot), random.from_to(0, size + 1)),
        6 => page[root_place(slot) + random.below(16)] ^= 1 << random.below(8),
        7 => put_u16(page, next_place(slot), random.pick(&[slot, 256, 65_535])),
        _ => flip(page, random),
    }
}

fn change_length(page: &mut Vec<u8>, random: &mut Random) {
    match random.below(3) {
        0 => page.truncate(random.below(page.len())),
        1 => page.truncate(page.len() - random.pick(&[1, 18])),
        _ => page.resize(page.len() + random.pick(&[1, 18]), 0),
    }
}

fn flip(page: &mut [u8], random: &mut Random) {
    let place = random.below(page.len());
    page[place] ^= 1 << random.below(8);
}

#[cfg(test)]
mod tests {
    use super::*;
    use reference::shelf::sound;

    #[test]
    fn any_page_is_sound() {
        let mut random = Random::new(1);
        for _ in 0..300 {
            let (size, draws) = (any_size(&mut random), any_draws(&mut random));
            let page = any_page(&mut random, size, draws);
            let shelf = sound(&page).expect("a sound page");
            assert_eq!((shelf.size, shelf.draws), (size, draws));
        }
    }

    #[test]
    fn a_page_has_the_chains_it_is_given() {
        let shelf = sound(&page(&[3, 1], &[2, 5, 4], 9)).expect("a sound page");
        assert_eq!((shelf.ready, shelf.spare), (vec![3, 1], vec![2, 5, 4]));
    }
}
