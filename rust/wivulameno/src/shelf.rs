//! Shelf pages in memory. What the host's log must do is in
//! `include/wivulameno.h`; [`store`](crate::store) does it for a shelf in files.

use crate::limits::{MAX_SLOTS, ROOT_LEN};
use crate::{answer_burned, Refusal};

extern "C" {
    fn wv_stock(page: *mut u8, page_len: usize, root: *const u8, root_len: usize) -> u32;
    fn wv_draw(page: *mut u8, page_len: usize, count: u64, root: *mut [u8; ROOT_LEN]) -> u32;
}

/// The bytes of a page of so many slots. `None` if it is not 1 to [`MAX_SLOTS`].
pub const fn page_len(slots: u16) -> Option<usize> {
    match slots {
        1..=MAX_SLOTS => Some(12 + (2 + ROOT_LEN) * slots as usize),
        _ => None,
    }
}

/// Puts `root` on the page. Refuses with 14 for an unsound page, 6 for a root
/// that is not of 16 bytes, 17 if there is no room.
pub fn stock(page: &mut [u8], root: &[u8]) -> Result<(), Refusal> {
    // SAFETY: both slices are valid for their lengths and do not overlap.
    answer_burned(unsafe { wv_stock(page.as_mut_ptr(), page.len(), root.as_ptr(), root.len()) })
}

/// As [`draw`], into `root`.
pub fn draw_into(page: &mut [u8], count: u64, root: &mut [u8; ROOT_LEN]) -> Result<(), Refusal> {
    // SAFETY: both are valid for their lengths and do not overlap.
    answer_burned(unsafe { wv_draw(page.as_mut_ptr(), page.len(), count, root) })
}

/// Takes a root off the page; `count` is the count of the log, which is to count
/// this draw on disk before the page is written and the root is used. Refuses
/// with 14 for an unsound page, 15 if the page's draws are not the count, 16 if
/// no root is ready, 18 if no draw can be counted any more.
pub fn draw(page: &mut [u8], count: u64) -> Result<[u8; ROOT_LEN], Refusal> {
    let mut root = [0; ROOT_LEN];
    draw_into(page, count, &mut root)?;
    Ok(root)
}

#[cfg(test)]
mod tests {
    use super::*;

    /// 12 + 18 S.
    #[test]
    fn lengths_of_pages() {
        assert_eq!(page_len(1), Some(30));
        assert_eq!(page_len(255), Some(4602));
        assert_eq!((page_len(0), page_len(256)), (None, None));
    }
}
