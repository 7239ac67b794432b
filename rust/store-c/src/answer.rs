//! The numbers that the functions answer with.

use std::collections::BTreeMap;
use std::ffi::{CStr, CString};
use std::sync::OnceLock;
use wivulameno::store::{Name, Standing, Trouble};
use wivulameno::Refusal;

/// What went wrong: the number for C, and the sentence for
/// [`wv_store_explain`](crate::wv_store_explain).
#[derive(Debug)]
pub struct Failed {
    pub number: u32,
    pub sentence: String,
}

/// A trouble of the store that is no refusal of the library. The numbers of
/// refusals are the library's own, below these.
#[derive(Clone, Copy, Debug, PartialEq, Eq)]
#[repr(u32)]
#[allow(missing_docs)] // the header says what each is
pub enum Answer {
    Argument = 101,
    NoPage = 102,
    NoLog = 103,
    PageExists = 104,
    LogExists = 105,
    SameFile = 106,
    Busy = 107,
    NotALog = 108,
    DamagedLog = 109,
    File = 110,
    Stopped = 111,
    Replaced = 112,
    Foreign = 113,
    Unknown = 114,
    Fault = 115,
}

impl Answer {
    /// All of them, by their numbers.
    pub const ALL: [Answer; 15] = [
        Answer::Argument,
        Answer::NoPage,
        Answer::NoLog,
        Answer::PageExists,
        Answer::LogExists,
        Answer::SameFile,
        Answer::Busy,
        Answer::NotALog,
        Answer::DamagedLog,
        Answer::File,
        Answer::Stopped,
        Answer::Replaced,
        Answer::Foreign,
        Answer::Unknown,
        Answer::Fault,
    ];

    /// The number in the C interface.
    pub fn number(self) -> u32 {
        self as u32
    }

    /// What is wrong, in a sentence without its full stop.
    pub fn sentence(self) -> &'static str {
        match self {
            Answer::Argument => "an argument is NULL, or the slots are not 1 to 255",
            Answer::NoPage => "the shelf page is not there",
            Answer::NoLog => "the log is not there",
            Answer::PageExists => "the shelf page is there already",
            Answer::LogExists => "the log is there already, and had a page",
            Answer::SameFile => "the shelf page and the log must be two files",
            Answer::Busy => "the shelf is open elsewhere",
            Answer::NotALog => "the log is no log: it does not begin as one",
            Answer::DamagedLog => "a line of the log is damaged",
            Answer::File => "a file could not be read or written",
            Answer::Stopped => {
                "an earlier write failed, or the process was forked: open the shelf again"
            }
            Answer::Replaced => "the page is from before a new page was begun under this log",
            Answer::Foreign => "page and log belong to different shelves",
            Answer::Unknown => "the log has never seen this page",
            Answer::Fault => "a fault in this library: open the shelf again",
        }
    }
}

impl From<Answer> for Failed {
    fn from(answer: Answer) -> Failed {
        Failed {
            number: answer.number(),
            sentence: answer.sentence().into(),
        }
    }
}

impl From<Trouble> for Failed {
    fn from(trouble: Trouble) -> Failed {
        Failed {
            number: number_of(&trouble),
            sentence: trouble.to_string(),
        }
    }
}

/// The number of a trouble: that of its refusal, if it has one.
pub fn number_of(trouble: &Trouble) -> u32 {
    if let Some(refusal) = trouble.refusal() {
        return refusal.number();
    }
    let answer = match trouble {
        Trouble::Missing(Name::Log) => Answer::NoLog,
        Trouble::Missing(_) => Answer::NoPage,
        Trouble::Exists(Name::Log) => Answer::LogExists,
        Trouble::Exists(_) => Answer::PageExists,
        Trouble::SameFile => Answer::SameFile,
        Trouble::Busy => Answer::Busy,
        Trouble::NotALog => Answer::NotALog,
        Trouble::Damaged { .. } => Answer::DamagedLog,
        Trouble::File(..) => Answer::File,
        Trouble::Stopped => Answer::Stopped,
        Trouble::Page(Standing::Replaced) => Answer::Replaced,
        Trouble::Page(Standing::Foreign) => Answer::Foreign,
        Trouble::Page(_) => Answer::Unknown,
        _ => Answer::Fault,
    };
    answer.number()
}

/// The sentence of a number, for as long as the process lives.
pub fn text_of(number: u32) -> &'static CStr {
    static TEXTS: OnceLock<BTreeMap<u32, CString>> = OnceLock::new();
    let texts = TEXTS.get_or_init(|| {
        let refusals = Refusal::ALL.map(|refusal| (refusal.number(), refusal.sentence()));
        let answers = Answer::ALL.map(|answer| (answer.number(), answer.sentence()));
        let all = [(0, "done")].into_iter().chain(refusals).chain(answers);
        let in_c = |text| CString::new(text).expect("no zero byte");
        all.map(|(number, text)| (number, in_c(text))).collect()
    });
    let text = texts.get(&number).map(CString::as_c_str);
    text.unwrap_or(c"no answer of this library")
}

#[cfg(test)]
mod tests {
    use super::*;
    use std::collections::HashSet;

    #[test]
    fn numbers_and_sentences_are_different() {
        let numbers: HashSet<u32> = Answer::ALL.map(Answer::number).into();
        let refused = Refusal::ALL.map(Refusal::number);
        assert_eq!(numbers.len(), Answer::ALL.len());
        assert!(refused.iter().all(|number| !numbers.contains(number)));
        let texts = numbers
            .iter()
            .chain(&refused)
            .map(|&number| text_of(number));
        let texts: HashSet<_> = texts.chain([text_of(0), text_of(4)]).collect();
        assert_eq!(texts.len(), Answer::ALL.len() + Refusal::ALL.len() + 2);
    }

    /// A page that is not drawn from has the number that the Rust store gives, or
    /// one of its own.
    #[test]
    fn pages_that_are_refused() {
        let number = |standing| number_of(&Trouble::Page(standing));
        assert_eq!(number(Standing::Behind { draws: 1 }), 15);
        assert_eq!(number(Standing::Ahead { draws: 1 }), 15);
        assert_eq!(number(Standing::SetBack), 15);
        assert_eq!(number(Standing::Replaced), 112);
        assert_eq!(number(Standing::Foreign), 113);
        assert_eq!(number(Standing::Unknown), 114);
    }
}
