//! What a file is, by its bytes, for whoever gave the wrong one.

use statement::is_row_file;
use wivulameno::circuit::{from_bristol_to_vec, sizes, upgrade_to_vec};
use wivulameno::proof::Counts;
use wivulameno::shelf::page_len;

/// What a log begins with, whatever its version.
const LOG: &[u8] = b"wivulameno log ";

/// What bytes look like. `docs/formats.md` has the files.
#[derive(Clone, Copy, Debug, PartialEq, Eq)]
pub enum Kind {
    Empty,
    Circuit,
    OldCircuit,
    Page,
    Log,
    Row,
    Proof,
    Bristol,
    Statement,
    Values,
    Hex,
    Text,
    Other,
}

impl Kind {
    pub fn of(bytes: &[u8]) -> Kind {
        if bytes.is_empty() {
            return Kind::Empty;
        }
        if sizes(bytes).is_ok() {
            return Kind::Circuit;
        }
        if upgrade_to_vec(bytes).is_ok() {
            return Kind::OldCircuit;
        }
        if is_page(bytes, bytes.len() as u64) {
            return Kind::Page;
        }
        if is_log(bytes) {
            return Kind::Log;
        }
        if is_row_file(bytes) {
            return Kind::Row;
        }
        if Counts::of_proof(bytes).is_some() {
            return Kind::Proof;
        }
        match std::str::from_utf8(bytes) {
            Ok(text) if !text.contains(is_binary) => of_text(text),
            _ => Kind::Other,
        }
    }

    /// What it is, in words, if that can be told.
    pub fn told(self) -> Option<&'static str> {
        match self {
            Kind::Empty => Some("empty"),
            Kind::Circuit => Some("a circuit"),
            Kind::OldCircuit => Some("a circuit of the old form"),
            Kind::Page => Some("a shelf page"),
            Kind::Log => Some("the log of a shelf"),
            Kind::Row => Some("a packed row"),
            Kind::Proof => Some("a proof"),
            Kind::Bristol => Some("a Bristol Fashion text"),
            Kind::Statement => Some("a statement"),
            Kind::Values => Some("a text with values"),
            Kind::Hex => Some("a text of hexadecimal digits"),
            Kind::Text => Some("a text"),
            Kind::Other => None,
        }
    }

    /// For a file that is not what it should be, as `a circuit`: what it is.
    pub fn instead_of(self, wanted: &str) -> String {
        match self.told() {
            Some(told) => format!("it is {told}, no {wanted}"),
            None => format!("this is no {wanted}"),
        }
    }
}

/// A page's length, numbers of slots that there are, and its zero. A page whose roots
/// or links were changed is one, too.
pub fn is_page(start: &[u8], len: u64) -> bool {
    let Some(header) = start.first_chunk::<12>() else {
        return false;
    };
    let field = |place: usize| u16::from_le_bytes([header[place], header[place + 1]]);
    let [slots, ready, spare, zero] = [0, 2, 4, 6].map(field);
    let is_long = page_len(slots).is_some_and(|page| page as u64 == len);
    let leads = ready <= slots && spare <= slots && ready != spare;
    is_long && leads && zero == 0
}

/// The first words of a log.
pub fn is_log(start: &[u8]) -> bool {
    start.starts_with(LOG)
}

fn is_binary(char: char) -> bool {
    char.is_control() && !matches!(char, '\n' | '\r' | '\t')
}

fn of_text(text: &str) -> Kind {
    let lines = text
        .lines()
        .map(|line| line.split('#').next().unwrap_or(""));
    let mut words = lines.flat_map(str::split_whitespace);
    let is_bristol = || {
        let mut head = text.lines().filter(|line| !line.trim().is_empty());
        let head: Vec<&str> = head.by_ref().take(3).collect();
        let are_numbers = |line: &&str| {
            line.split_whitespace()
                .all(|word| word.parse::<u32>().is_ok())
        };
        head.len() == 3 && head[0].split_whitespace().count() == 2 && head.iter().all(are_numbers)
    };
    if from_bristol_to_vec(text.as_bytes()).is_ok() || is_bristol() {
        return Kind::Bristol;
    }
    let digits = text.trim();
    let is_hex = |byte: u8| byte.is_ascii_hexdigit();
    match words.next() {
        Some("row" | "let" | "show") => Kind::Statement,
        _ if !digits.is_empty() && digits.bytes().all(is_hex) => Kind::Hex,
        Some(word) if word.contains('=') => Kind::Values,
        Some(_) if words.next().is_some_and(|word| word.starts_with('=')) => Kind::Values,
        _ => Kind::Text,
    }
}

#[cfg(test)]
mod tests {
    use super::*;

    #[test]
    fn files_by_their_bytes() {
        let old_k = [2, 0, 1, 0, 1, 0, 1, 0, 2, 0, 2, 0, 0, 0, 1, 0, 0, 0];
        let mut proof = [0; 70];
        proof[..6].copy_from_slice(&[145, 0, 66, 0, 8, 0]);
        let circuit: &[u8] = include_bytes!("../../../examples/both.circuit");
        let statement: &[u8] = include_bytes!("../../../examples/both.statement");
        let values: &[u8] = include_bytes!("../../../examples/both.values");
        let known: [(&[u8], Kind); 19] = [
            (b"", Kind::Empty),
            (circuit, Kind::Circuit),
            (&old_k, Kind::OldCircuit),
            (&proof, Kind::Proof),
            (b"wivulameno log 1 00", Kind::Log),
            (b"wivulameno log 2", Kind::Log),
            (b"wivulameno row 1 a: 4\n\x0f", Kind::Row),
            (b"wivulameno row 2", Kind::Row),
            (b"1 3\n2 1 1\n1 1\n\n2 1 0 1 2 AND\n", Kind::Bristol),
            (b"1 3\r\n2 1 1\r\n1 1\r\n2 1 0 1 2 NAND\r\n", Kind::Bristol),
            (statement, Kind::Statement),
            (b"# what?\n\nrow a: 4", Kind::Statement),
            (values, Kind::Values),
            (b"on_hand = 4", Kind::Values),
            (b"f50100\n", Kind::Hex),
            (b"row_of=3", Kind::Values),
            (b"Dear depot,\n", Kind::Text),
            (&[0xe8, 3, 0xfa, 0], Kind::Other),
            (&circuit[..40], Kind::Other),
        ];
        for (bytes, kind) in known {
            assert_eq!(Kind::of(bytes), kind, "{bytes:?}");
        }
    }

    /// A new page, one with a root, one with all; not one that is cut or has another
    /// header.
    #[test]
    fn pages_of_a_shelf() {
        let mut page = vec![0; 12 + 3 * 18];
        page[0] = 3;
        page[4] = 1;
        (page[12], page[30]) = (2, 3);
        assert_eq!(Kind::of(&page), Kind::Page);
        wivulameno::shelf::stock(&mut page, &[7; 16]).expect("there is room");
        assert_eq!(Kind::of(&page), Kind::Page);
        for _ in 0..2 {
            wivulameno::shelf::stock(&mut page, &[7; 16]).expect("there is room");
        }
        assert_eq!(Kind::of(&page), Kind::Page);
        let mut damaged = page.clone();
        damaged[12] ^= 0xff;
        assert_eq!(Kind::of(&damaged), Kind::Page, "a page, if a damaged one");
        assert_ne!(Kind::of(&page[..page.len() - 1]), Kind::Page);
        for place in [0, 1, 3, 5, 6, 7] {
            let mut other = page.clone();
            other[place] ^= 0x40;
            assert_ne!(Kind::of(&other), Kind::Page, "{place}");
        }
    }
}
