//! The shelf: pages of roots, and the plain shelf that histories are held against.

use crate::{u16_at, Refusal};

pub type Root = [u8; 16];

const HEAD: usize = 12;
const SLOT: usize = 18;

/// Byte places in the head of a page.
const READY: usize = 2;
const SPARE: usize = 4;
const ZERO: usize = 6;
const DRAWS: usize = 8;

/// A sound page: its two chains as lists of slots, and its draws.
#[derive(Clone, Debug, PartialEq, Eq)]
pub struct Shelf {
    pub size: usize,
    pub ready: Vec<usize>,
    pub spare: Vec<usize>,
    pub draws: u32,
}

/// The shelf of a page, if it is sound.
pub fn sound(page: &[u8]) -> Option<Shelf> {
    if page.len() < HEAD {
        return None;
    }
    let size = u16_at(page, 0);
    if !(1..=255).contains(&size) || page.len() != HEAD + SLOT * size || u16_at(page, ZERO) != 0 {
        return None;
    }
    let mut met = vec![false; size + 1];
    let ready = chain(page, u16_at(page, READY), &mut met)?;
    let spare = chain(page, u16_at(page, SPARE), &mut met)?;
    let all_met = ready.len() + spare.len() == size;
    let spare_is_zero = spare.iter().all(|&slot| root_of(page, slot) == [0; 16]);
    (all_met && spare_is_zero).then_some(Shelf {
        size,
        ready,
        spare,
        draws: draws_of(page),
    })
}

/// The slots from `head` on, if it ends and meets none that was met before.
fn chain(page: &[u8], head: usize, met: &mut [bool]) -> Option<Vec<usize>> {
    let mut slots = vec![];
    let mut slot = head;
    while slot != 0 {
        if slot >= met.len() || met[slot] {
            return None;
        }
        met[slot] = true;
        slots.push(slot);
        slot = u16_at(page, place(slot));
    }
    Some(slots)
}

/// Puts `root` on the page: refusals 14, 6 and 17.
pub fn stock(page: &mut [u8], root: &[u8]) -> Result<(), Refusal> {
    let shelf = sound(page).ok_or(14_u32)?;
    let root: Root = root.try_into().map_err(|_| 6_u32)?;
    let &slot = shelf.spare.first().ok_or(17_u32)?;
    set_root(page, slot, root);
    move_front(page, slot, SPARE, READY);
    Ok(())
}

/// Takes a root off the page: refusals 14, 15, 16 and 18.
pub fn draw(page: &mut [u8], count: u64) -> Result<Root, Refusal> {
    let shelf = sound(page).ok_or(14_u32)?;
    if count != u64::from(shelf.draws) {
        return Err(15);
    }
    let &slot = shelf.ready.first().ok_or(16_u32)?;
    let draws = shelf.draws.checked_add(1).ok_or(18_u32)?;
    let root = root_of(page, slot);
    set_root(page, slot, [0; 16]);
    move_front(page, slot, READY, SPARE);
    page[DRAWS..DRAWS + 4].copy_from_slice(&draws.to_le_bytes());
    Ok(root)
}

/// The ready roots in chain order, if the page is sound.
pub fn ready_roots(page: &[u8]) -> Option<Vec<Root>> {
    let shelf = sound(page)?;
    let roots = shelf.ready.iter().map(|&slot| root_of(page, slot));
    Some(roots.collect())
}

/// Moves the front slot of one chain to the front of the other.
fn move_front(page: &mut [u8], slot: usize, from: usize, to: usize) {
    let next = u16_at(page, place(slot));
    let front = u16_at(page, to);
    set_u16(page, from, next);
    set_u16(page, place(slot), front);
    set_u16(page, to, slot);
}

/// The byte place of a slot: its next, and its root two bytes later.
fn place(slot: usize) -> usize {
    HEAD + SLOT * (slot - 1)
}

fn root_of(page: &[u8], slot: usize) -> Root {
    let place = place(slot) + 2;
    page[place..place + 16].try_into().unwrap()
}

fn set_root(page: &mut [u8], slot: usize, root: Root) {
    let place = place(slot) + 2;
    page[place..place + 16].copy_from_slice(&root);
}

fn draws_of(page: &[u8]) -> u32 {
    u32::from_le_bytes(page[DRAWS..DRAWS + 4].try_into().unwrap())
}

fn set_u16(page: &mut [u8], place: usize, value: usize) {
    let value = u16::try_from(value).expect("a slot");
    page[place..place + 2].copy_from_slice(&value.to_le_bytes());
}

/// Which stocking a root is from: one of those ready at the start, counted from
/// the front, or the stocking at a place in the list of events.
#[derive(Clone, Copy, Debug, PartialEq, Eq, Hash)]
pub enum Name {
    Start(usize),
    Event(usize),
}

/// One entry of a history. `PutBack(k)` is the page as after the first k events.
#[derive(Clone, Debug, PartialEq, Eq)]
pub enum Event {
    Stock(Vec<u8>),
    Draw,
    PutBack(usize),
}

#[derive(Clone, Copy, Debug, PartialEq, Eq)]
pub enum Answer {
    Done,
    Drawn(Name, Root),
    Refused(Refusal),
}

/// What a page put back restores.
#[derive(Clone, Debug)]
struct State {
    draws: u32,
    ready: Vec<(Name, Root)>,
}

/// The plain shelf: a list of named roots, front first, and the log's count.
#[derive(Clone, Debug)]
pub struct PlainShelf {
    size: usize,
    count: u64,
    now: State,
    /// The states after the first k events, for each k so far.
    past: Vec<State>,
}

impl PlainShelf {
    /// A history's start at a sound page whose draws is the log's count.
    pub fn start(page: &[u8]) -> Option<Self> {
        let shelf = sound(page)?;
        let roots = shelf.ready.iter().map(|&slot| root_of(page, slot));
        let named = roots.enumerate().map(|(i, root)| (Name::Start(i), root));
        let now = State {
            draws: shelf.draws,
            ready: named.collect(),
        };
        Some(PlainShelf {
            size: shelf.size,
            count: shelf.draws.into(),
            past: vec![now.clone()],
            now,
        })
    }

    pub fn size(&self) -> usize {
        self.size
    }

    /// The log's count.
    pub fn count(&self) -> u64 {
        self.count
    }

    pub fn draws(&self) -> u32 {
        self.now.draws
    }

    pub fn ready_roots(&self) -> Vec<Root> {
        self.now.ready.iter().map(|&(_, root)| root).collect()
    }

    /// How many events there were.
    pub fn events(&self) -> usize {
        self.past.len() - 1
    }

    /// The draws as after the first k events.
    pub fn draws_after(&self, k: usize) -> u32 {
        self.past[k].draws
    }

    /// Takes the next event of the list.
    pub fn event(&mut self, event: &Event) -> Answer {
        let answer = match event {
            Event::Stock(root) => self.stock(root),
            Event::Draw => self.draw(),
            Event::PutBack(k) => {
                self.now = self.past[*k].clone();
                Answer::Done
            }
        };
        self.past.push(self.now.clone());
        answer
    }

    fn stock(&mut self, root: &[u8]) -> Answer {
        let Ok(root) = Root::try_from(root) else {
            return Answer::Refused(6);
        };
        if self.now.ready.len() == self.size {
            return Answer::Refused(17);
        }
        let name = Name::Event(self.events());
        self.now.ready.insert(0, (name, root));
        Answer::Done
    }

    fn draw(&mut self) -> Answer {
        if self.count != u64::from(self.now.draws) {
            return Answer::Refused(15);
        }
        if self.now.ready.is_empty() {
            return Answer::Refused(16);
        }
        if self.now.draws == u32::MAX {
            return Answer::Refused(18);
        }
        let (name, root) = self.now.ready.remove(0);
        self.now.draws += 1;
        self.count += 1;
        Answer::Drawn(name, root)
    }
}

#[cfg(test)]
mod tests {
    use super::*;

    /// Two slots: slot 2 is ready with root 7s, slot 1 is spare; draws is 5.
    fn page() -> Vec<u8> {
        let mut page = vec![2, 0, 2, 0, 1, 0, 0, 0, 5, 0, 0, 0];
        page.extend([0; 18]);
        page.extend([0, 0]);
        page.extend([7; 16]);
        page
    }

    #[test]
    fn a_page_is_read() {
        let shelf = sound(&page()).expect("a sound page");
        assert_eq!((shelf.size, shelf.draws), (2, 5));
        assert_eq!((shelf.ready, shelf.spare), (vec![2], vec![1]));
    }

    #[test]
    fn stocking_byte_by_byte() {
        let mut page = page();
        assert_eq!(stock(&mut page, &[9; 16]), Ok(()));
        assert_eq!(page[..14], [2, 0, 1, 0, 0, 0, 0, 0, 5, 0, 0, 0, 2, 0]);
        assert_eq!(page[14..30], [9; 16]);
        assert_eq!((&page[30..32], &page[32..]), (&[0, 0][..], &[7; 16][..]));
        assert_eq!(stock(&mut page, &[9; 16]), Err(17));
    }

    #[test]
    fn drawing_byte_by_byte() {
        let mut page = page();
        assert_eq!(draw(&mut page, 5), Ok([7; 16]));
        assert_eq!(page[..14], [2, 0, 0, 0, 2, 0, 0, 0, 6, 0, 0, 0, 0, 0]);
        assert_eq!(page[14..32], [&[0; 16][..], &[1, 0]].concat());
        assert_eq!(page[32..], [0; 16]);
        assert_eq!(draw(&mut page, 6), Err(16));
    }

    #[test]
    fn every_rule_of_a_page() {
        let broken = |place: usize, byte: u8| {
            let mut page = page();
            page[place] = byte;
            sound(&page).is_none()
        };
        assert!(broken(0, 1) && broken(0, 0) && broken(1, 1), "size");
        assert!(broken(2, 3) && broken(4, 3), "head past the end");
        assert!(broken(2, 0) && broken(4, 0), "slot on no chain");
        assert!(broken(2, 1) && broken(4, 2), "slot on both chains");
        assert!(broken(6, 1) && broken(7, 1), "zero field");
        assert!(broken(12, 1) && broken(30, 2), "cycle");
        assert!(broken(14, 1) && broken(29, 1), "spare root");
        assert!(
            !broken(8, 0) && !broken(32, 0),
            "draws and ready roots are free"
        );
        assert!(sound(&page()[..47]).is_none(), "length");
    }

    #[test]
    fn the_plain_shelf_keeps_the_count() {
        let mut shelf = PlainShelf::start(&page()).expect("a sound page");
        let drawn = Answer::Drawn(Name::Start(0), [7; 16]);
        assert_eq!(shelf.event(&Event::Draw), drawn);
        assert_eq!(shelf.event(&Event::PutBack(0)), Answer::Done);
        assert_eq!(shelf.event(&Event::Draw), Answer::Refused(15));
        assert_eq!(shelf.event(&Event::PutBack(1)), Answer::Done);
        assert_eq!(shelf.event(&Event::Draw), Answer::Refused(16));
        assert_eq!(shelf.event(&Event::Stock(vec![7; 16])), Answer::Done);
        let drawn = Answer::Drawn(Name::Event(5), [7; 16]);
        assert_eq!(shelf.event(&Event::Draw), drawn);
        assert_eq!((shelf.count(), shelf.draws(), shelf.events()), (7, 7, 7));
    }
}
