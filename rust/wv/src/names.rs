//! Names and numbers in messages.

use std::ffi::OsStr;

/// A name that can be printed: what is no text, and what a terminal would obey,
/// is escaped.
pub fn shown(name: impl AsRef<OsStr>) -> String {
    let mut text = String::new();
    for part in name.as_ref().as_encoded_bytes().utf8_chunks() {
        for char in part.valid().chars() {
            match char.is_control() {
                true => text.extend(char.escape_default()),
                false => text.push(char),
            }
        }
        for byte in part.invalid() {
            text += &format!("\\x{byte:02x}");
        }
    }
    text
}

/// A name as a word of the shell.
pub fn as_word(name: impl AsRef<OsStr>) -> String {
    let name = shown(name);
    let is_plain = |char: char| char.is_ascii_alphanumeric() || "/._-+:,=@%".contains(char);
    match !name.is_empty() && name.chars().all(is_plain) {
        true => name,
        false => format!("'{}'", name.replace('\'', "'\\''")),
    }
}

/// `1 byte`, `2 bytes`.
pub fn counted(number: impl Into<u64>, one: &str) -> String {
    match number.into() {
        1 => format!("1 {one}"),
        number => format!("{number} {one}s"),
    }
}

#[cfg(test)]
mod tests {
    use super::*;

    #[test]
    fn names_are_printable() {
        assert_eq!(shown("Bestellung für 7"), "Bestellung für 7");
        assert_eq!(shown("a\nb\x1b[2J"), "a\\nb\\u{1b}[2J");
        #[cfg(unix)]
        {
            use std::os::unix::ffi::OsStrExt;
            let name = OsStr::from_bytes(b"page\xff\xc3.x");
            assert_eq!(shown(name), "page\\xff\\xc3.x");
        }
    }

    #[test]
    fn words_of_the_shell() {
        for plain in ["shelf.page", "/var/lib/depot/shelf-2.log"] {
            assert_eq!(as_word(plain), plain);
        }
        assert_eq!(as_word("my shelf"), "'my shelf'");
        assert_eq!(as_word("it's"), "'it'\\''s'");
        assert_eq!(as_word(""), "''");
    }

    #[test]
    fn one_and_many() {
        let bytes: [String; 3] = [0_u32, 1, 2].map(|number| counted(number, "byte"));
        assert_eq!(bytes, ["0 bytes", "1 byte", "2 bytes"]);
    }
}
