//! The rows of a hidden party under two witnesses, and which of them show the same.

use crate::calls::{used_bits, Answer, Call, Setting};
use std::collections::BTreeMap;

/// Who shows.
pub type Show = fn(&Call) -> Answer;

/// The setting with another witness and with `row` for the hidden party.
pub fn with(setting: &Setting, witness: &[u8], p: u32, row: u32) -> Setting {
    let mut setting = setting.clone();
    setting.witness = witness.to_vec();
    let len = setting.sizes.tape_row_len();
    let hidden = &mut setting.tapes[p as usize * len..][..len];
    hidden.copy_from_slice(&row.to_le_bytes()[..len]);
    setting
}

/// All rows of the hidden party, in order of what they show.
fn rows_by_showing(show: Show, setting: &Setting, p: u32) -> BTreeMap<Vec<Vec<u8>>, Vec<u32>> {
    let mut rows: BTreeMap<_, Vec<u32>> = BTreeMap::new();
    for row in 0..1 << used_bits(setting.sizes, setting.n, p as usize) {
        let setting = with(setting, &setting.witness, p, row);
        let showing = show(&setting.show(p, setting.whole())).expect("no refusal");
        rows.entry(showing).or_default().push(row);
    }
    rows
}

/// The rows of the hidden party under `witness`, each with all rows under
/// `other` that show the same.
pub fn partners(show: Show, setting: &Setting, other: &[u8], p: u32) -> Vec<(u32, Vec<u32>)> {
    let others = with(setting, other, p, 0);
    let of_others = rows_by_showing(show, &others, p);
    let rows = rows_by_showing(show, setting, p).into_iter();
    let pairs = rows.flat_map(|(showing, rows)| {
        let partners = of_others.get(&showing).cloned().unwrap_or_default();
        rows.into_iter().map(move |row| (row, partners.clone()))
    });
    pairs.collect()
}

/// Each row has one partner, no two the same one, and every cut is equal.
pub fn check_partners(show: Show, setting: &Setting, other: &[u8], p: u32) {
    let mut taken: Vec<u32> = vec![];
    for (row, partners) in partners(show, setting, other, p) {
        assert_eq!(partners.len(), 1, "p {p}, row {row}, {setting:02x?}");
        taken.extend(&partners);
        let one = with(setting, &setting.witness, p, row);
        let two = with(setting, other, p, partners[0]);
        for cut in 0..=setting.whole() {
            let shown = show(&one.show(p, cut));
            assert_eq!(shown, show(&two.show(p, cut)), "p {p}, cut {cut}");
        }
    }
    taken.sort();
    let all = 0..1 << used_bits(setting.sizes, setting.n, p as usize);
    assert!(taken.into_iter().eq(all), "p {p}, {setting:02x?}");
}
