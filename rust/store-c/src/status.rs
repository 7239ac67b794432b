//! What is on a shelf, as C has it.

use crate::answer::number_of;
use wivulameno::store::{Standing, Status};

/// `struct wv_store_status`.
#[derive(Clone, Copy, Debug, Default, PartialEq, Eq)]
#[repr(C)]
#[allow(missing_docs)] // the header says what each is
pub struct CStatus {
    pub slots: u32,
    pub ready: u32,
    pub draws: u32,
    pub page: u32,
    pub count: u64,
    pub missing: u64,
    pub unfinished: u32,
    pub answer: u32,
}

/// The names of `enum wv_store_page`, from 0 on.
pub const PAGES: [&str; 8] = [
    "PRESENT", "EARLIER", "BEHIND", "AHEAD", "SET_BACK", "REPLACED", "FOREIGN", "UNKNOWN",
];

impl From<Status> for CStatus {
    fn from(status: Status) -> CStatus {
        let (page, missing) = match status.standing {
            Standing::Present => (0, 0),
            Standing::Earlier { stockings } => (1, stockings),
            Standing::Behind { draws } => (2, draws),
            Standing::Ahead { draws } => (3, draws),
            Standing::SetBack => (4, 0),
            Standing::Replaced => (5, 0),
            Standing::Foreign => (6, 0),
            _ => (7, 0),
        };
        CStatus {
            slots: status.slots as u32,
            ready: status.ready as u32,
            draws: status.draws,
            page,
            count: status.count,
            missing,
            unfinished: status.unfinished.into(),
            answer: status.trouble().as_ref().map_or(0, number_of),
        }
    }
}

#[cfg(test)]
mod tests {
    use super::*;

    /// Each standing has the number of its name, and tells what is missing.
    #[test]
    fn pages_by_their_names() {
        let named = [
            (Standing::Present, "PRESENT", 0),
            (Standing::Earlier { stockings: 7 }, "EARLIER", 7),
            (Standing::Behind { draws: 8 }, "BEHIND", 8),
            (Standing::Ahead { draws: 9 }, "AHEAD", 9),
            (Standing::SetBack, "SET_BACK", 0),
            (Standing::Replaced, "REPLACED", 0),
            (Standing::Foreign, "FOREIGN", 0),
            (Standing::Unknown, "UNKNOWN", 0),
        ];
        for (standing, name, missing) in named {
            let status = CStatus::from(Status {
                slots: 4,
                ready: 3,
                draws: 5,
                count: 6,
                standing,
                unfinished: true,
            });
            assert_eq!(
                (PAGES[status.page as usize], status.missing),
                (name, missing)
            );
            assert_eq!((status.slots, status.ready, status.unfinished), (4, 3, 1));
            assert_eq!((status.draws, status.count), (5, 6));
        }
    }
}
