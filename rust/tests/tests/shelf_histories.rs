//! Whole histories: each event by the library, by the reference's pages and by
//! the plain shelf.

use reference::shelf::{self, Answer, Event, Name, PlainShelf};
use std::collections::HashSet;
use tests::guarded::Guarded;
use tests::outcomes::Outcomes;
use tests::pages::{any_draws, any_page, any_root, any_size, page};
use tests::random::Random;

const HISTORIES: usize = 2_400;
const EVENTS: usize = 300;

/// Outcomes beside the refusals: an accepted stocking, an accepted draw, a page
/// put back that is not the present one, a history that began at the last count.
const STOCKED: u32 = 100;
const DRAWN: u32 = 101;
const PUT_BACK: u32 = 102;
const BEGAN_AT_END: u32 = 103;

/// The pages after the first k events, and the plain shelf beside them.
struct History {
    plain: PlainShelf,
    pages: Vec<Vec<u8>>,
    given: HashSet<Name>,
}

impl History {
    fn start(page: Vec<u8>) -> Self {
        History {
            plain: PlainShelf::start(&page).expect("a sound page"),
            pages: vec![page],
            given: HashSet::new(),
        }
    }

    fn page(&self) -> &[u8] {
        self.pages.last().expect("the first page")
    }

    /// Gives an event to all three. The answer is the plain shelf's.
    fn event(&mut self, random: &mut Random, event: &Event) -> Answer {
        let before = self.page().to_vec();
        let count = self.plain.count();
        let expected = self.plain.event(event);
        let after = match event {
            Event::Stock(root) => stock(random, &before, root, expected),
            Event::Draw => draw(random, &before, count, expected),
            Event::PutBack(k) => self.pages[*k].clone(),
        };
        self.check_page(&after);
        self.pages.push(after);
        if let Answer::Drawn(name, _) = expected {
            assert!(self.given.insert(name), "{name:?} is drawn twice");
        }
        expected
    }

    /// The page is sound and has the plain shelf's S, draws and ready roots.
    fn check_page(&self, page: &[u8]) {
        let shelf = shelf::sound(page).expect("sound after each event");
        assert_eq!(shelf.size, self.plain.size());
        assert_eq!(shelf.draws, self.plain.draws());
        let roots = shelf::ready_roots(page).expect("a sound page");
        assert!(roots == self.plain.ready_roots(), "ready roots");
    }

    /// Any page so far: from any time, from a short time ago, or one since the
    /// last accepted draw, from which draws can go on.
    fn any_place(&self, random: &mut Random) -> usize {
        let events = self.plain.events();
        match random.below(4) {
            0 => random.from_to(0, events),
            1 => events - random.below(events.min(5) + 1),
            _ => {
                let fresh = |&k: &usize| u64::from(self.plain.draws_after(k)) == self.plain.count();
                let places: Vec<usize> = (0..=events).filter(fresh).collect();
                random.pick(&places)
            }
        }
    }
}

/// The number of a call's answer: 0 or the refusal.
fn status(answer: Answer) -> Result<(), u32> {
    match answer {
        Answer::Refused(number) => Err(number),
        _ => Ok(()),
    }
}

/// Stocks by the library and the reference; gives the library's page.
fn stock(random: &mut Random, page: &[u8], root: &[u8], expected: Answer) -> Vec<u8> {
    let mut second = page.to_vec();
    assert_eq!(shelf::stock(&mut second, root), status(expected));

    let mut lent = Guarded::holding(random, page);
    let ours = wivulameno::shelf::stock(lent.lent(), root);
    assert_eq!(ours.map_err(|refusal| refusal.number()), status(expected));
    assert!(lent.get() == second, "page after a stocking");
    assert!(lent.outside_unchanged());
    second
}

/// Draws by the library and the reference; gives the library's page.
fn draw(random: &mut Random, page: &[u8], count: u64, expected: Answer) -> Vec<u8> {
    let mut root = [0xa5; 16];
    let mut expected_root = root;
    if let Answer::Drawn(_, drawn) = expected {
        expected_root = drawn;
    }
    let mut second = page.to_vec();
    let drawn = status(expected).map(|()| expected_root);
    assert_eq!(shelf::draw(&mut second, count), drawn);

    let mut lent = Guarded::holding(random, page);
    let ours = wivulameno::shelf::draw_into(lent.lent(), count, &mut root);
    assert_eq!(ours.map_err(|refusal| refusal.number()), status(expected));
    assert_eq!(root, expected_root);
    assert!(lent.get() == second, "page after a draw");
    assert!(lent.outside_unchanged());
    second
}

/// How likely a history stocks, draws and puts back, out of their sum.
#[derive(Clone, Copy)]
struct Habit {
    stock: usize,
    draw: usize,
    put_back: usize,
}

fn any_habit(random: &mut Random) -> Habit {
    Habit {
        stock: random.pick(&[1, 4, 12]),
        draw: random.pick(&[1, 4, 12]),
        put_back: random.pick(&[0, 1, 2, 6]),
    }
}

fn any_event(random: &mut Random, habit: Habit, history: &History) -> Event {
    let place = random.below(habit.stock + habit.draw + habit.put_back);
    if place < habit.stock {
        let mut root = any_root(random).to_vec();
        if random.once_in(16) {
            root.resize(random.pick(&[0, 1, 15, 17, 32]), 0);
        }
        Event::Stock(root)
    } else if place < habit.stock + habit.draw {
        Event::Draw
    } else {
        Event::PutBack(history.any_place(random))
    }
}

fn count(outcomes: &mut Outcomes, event: &Event, answer: Answer, changed: bool) {
    match (event, answer) {
        (_, Answer::Refused(number)) => outcomes.add(number),
        (Event::Stock(_), _) => outcomes.add(STOCKED),
        (Event::Draw, _) => outcomes.add(DRAWN),
        (Event::PutBack(_), _) if changed => outcomes.add(PUT_BACK),
        (Event::PutBack(_), _) => {}
    }
}

#[test]
fn random_histories() {
    let mut random = Random::new(41);
    let mut outcomes = Outcomes::default();
    for _ in 0..HISTORIES {
        let (size, draws) = (any_size(&mut random), any_draws(&mut random));
        let mut history = History::start(any_page(&mut random, size, draws));
        let habit = any_habit(&mut random);
        if draws == u32::MAX {
            outcomes.add(BEGAN_AT_END);
        }
        for _ in 0..random.from_to(1, EVENTS) {
            let before = history.page().to_vec();
            let event = any_event(&mut random, habit, &history);
            let answer = history.event(&mut random, &event);
            let changed = history.page() != before;
            count(&mut outcomes, &event, answer, changed);
        }
    }
    let expected = [6, 15, 16, 17, 18, STOCKED, DRAWN, PUT_BACK, BEGAN_AT_END];
    outcomes.expect(&expected, 100);
}

/// A shelf is filled to the last slot and emptied, over and over, with one root.
#[test]
fn equal_roots_are_each_drawn_once() {
    let mut random = Random::new(42);
    let mut history = History::start(page(&[], &[2, 3, 1], 0));
    let root = Event::Stock(vec![5; 16]);
    for round in 0..20 {
        for _ in 0..3 {
            assert_eq!(history.event(&mut random, &root), Answer::Done);
        }
        let full = history.event(&mut random, &root);
        assert_eq!(full, Answer::Refused(17));
        for drawn in 0..3 {
            // The last one stocked is the first one drawn.
            let name = Name::Event(8 * round + 2 - drawn);
            let answer = history.event(&mut random, &Event::Draw);
            assert_eq!(answer, Answer::Drawn(name, [5; 16]));
        }
        let empty = history.event(&mut random, &Event::Draw);
        assert_eq!(empty, Answer::Refused(16));
    }
}

/// Up to the last count: the draw at 4,294,967,295 is refused, and so is every
/// page put back.
#[test]
fn the_last_draws() {
    let mut random = Random::new(43);
    let start = page(&[1, 2, 3], &[4], u32::MAX - 2);
    let mut history = History::start(start);
    for _ in 0..2 {
        let answer = history.event(&mut random, &Event::Draw);
        assert!(matches!(answer, Answer::Drawn(Name::Start(_), _)));
    }
    for (event, expected) in [
        (Event::Draw, Answer::Refused(18)),
        (Event::PutBack(0), Answer::Done),
        (Event::Draw, Answer::Refused(15)),
        (Event::Stock(vec![9; 16]), Answer::Done),
        (Event::Draw, Answer::Refused(15)),
        (Event::PutBack(3), Answer::Done),
        (Event::Draw, Answer::Refused(18)),
    ] {
        assert_eq!(history.event(&mut random, &event), expected);
    }
}
