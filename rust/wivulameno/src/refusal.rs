//! The refusals: a number and a sentence for each.

use std::error::Error;
use std::fmt;

/// Why a call was refused. Every lent byte is as it was, but for a [`Work`](crate::Work) buffer.
#[derive(Clone, Copy, Debug, PartialEq, Eq, Hash)]
#[non_exhaustive]
pub enum Refusal {
    /// The circuit's length is not what its header asks for.
    CircuitLength = 1,
    /// The circuit has more inputs, outputs or gates than allowed, or no input or no
    /// output.
    CircuitSizes = 2,
    /// A gate record has an unknown kind or a field that should be zero.
    Gate = 3,
    /// A gate reads a wire that is not written by then, or an output is no wire.
    Wire = 5,
    /// An input or a buffer does not have the length that is asked for.
    Length = 6,
    /// A bit that must be zero is not.
    UnusedBits = 7,
    /// M, tau, n or a quota is not allowed.
    Counts = 8,
    /// There is no such party or leaf, no leaf is hidden, or the cut is behind the last
    /// gate.
    Party = 9,
    /// The output is not the claimed one.
    Output = 10,
    /// The proof does not begin with a proof's header.
    ProofHeader = 11,
    /// The proof's length is not what its challenge asks for.
    ProofLength = 12,
    /// The proof does not fit its own digest.
    ProofDigest = 13,
    /// The shelf page is damaged.
    Unsound = 14,
    /// The shelf page is not the present one: its draws are not the log's count.
    AnotherCount = 15,
    /// The shelf has no root ready.
    Empty = 16,
    /// The shelf has no room for another root.
    Full = 17,
    /// The shelf has counted as many draws as it can.
    Spent = 18,
    /// A link of the chain leads beyond the last slot.
    ChainBeyond = 19,
    /// The chain ends before every slot is visited.
    ChainShort = 20,
    /// The chain does not end after as many slots as there are.
    ChainLong = 21,
    /// A text breaks the rules of Bristol Fashion.
    Text = 22,
    /// A gate of a text is none of XOR, AND and INV.
    GateKind = 23,
    /// A text has more gates, inputs or outputs than allowed, or no input or no
    /// output.
    TextLimits = 24,
    /// The two circuits have different numbers of inputs.
    InputCounts = 25,
    /// There is no such caller of a shared checker.
    Caller = 26,
    /// The caller has a proof waiting.
    Waiting = 27,
    /// No proof is waiting.
    NoneWaiting = 28,
    /// The sizes are not those of a small circuit.
    SmallSizes = 29,
    /// The list of outputs is empty or too long.
    OutputList = 30,
}

impl Refusal {
    /// All of them, by their numbers. There is no 4.
    pub const ALL: [Refusal; 29] = [
        Refusal::CircuitLength,
        Refusal::CircuitSizes,
        Refusal::Gate,
        Refusal::Wire,
        Refusal::Length,
        Refusal::UnusedBits,
        Refusal::Counts,
        Refusal::Party,
        Refusal::Output,
        Refusal::ProofHeader,
        Refusal::ProofLength,
        Refusal::ProofDigest,
        Refusal::Unsound,
        Refusal::AnotherCount,
        Refusal::Empty,
        Refusal::Full,
        Refusal::Spent,
        Refusal::ChainBeyond,
        Refusal::ChainShort,
        Refusal::ChainLong,
        Refusal::Text,
        Refusal::GateKind,
        Refusal::TextLimits,
        Refusal::InputCounts,
        Refusal::Caller,
        Refusal::Waiting,
        Refusal::NoneWaiting,
        Refusal::SmallSizes,
        Refusal::OutputList,
    ];

    /// The number in the C interface.
    pub fn number(self) -> u32 {
        self as u32
    }

    /// The refusal that has this number.
    pub fn from_number(number: u32) -> Option<Refusal> {
        let mut all = Refusal::ALL.into_iter();
        all.find(|refusal| refusal.number() == number)
    }

    /// Is it about the chain of a circuit? Then
    /// [`fault_slot`](crate::circuit::fault_slot) tells where.
    pub fn is_of_chain(self) -> bool {
        matches!(
            self,
            Refusal::ChainBeyond | Refusal::ChainShort | Refusal::ChainLong
        )
    }

    /// The refusal that has this number, which must be one of the library's.
    pub fn of(number: u32) -> Refusal {
        let refusal = Refusal::from_number(number);
        refusal.unwrap_or_else(|| panic!("no refusal has the number {number}"))
    }

    /// What is wrong, in a sentence without its full stop.
    pub fn sentence(self) -> &'static str {
        match self {
            Refusal::CircuitLength => "the circuit's length is not what its header asks for",
            Refusal::CircuitSizes => {
                "the circuit has more inputs, outputs or gates than allowed, or no input or no output"
            }
            Refusal::Gate => "a gate record has an unknown kind or a field that should be zero",
            Refusal::Wire => {
                "a gate reads a wire that is not written by then, or an output is no wire"
            }
            Refusal::Length => "an input or a buffer does not have the length that is asked for",
            Refusal::UnusedBits => "a bit that must be zero is not",
            Refusal::Counts => {
                "the number of instances, of chosen ones or of parties, or a quota, is not allowed"
            }
            Refusal::Party => {
                "there is no such party or leaf, no leaf is hidden, or the cut is behind the last gate"
            }
            Refusal::Output => "the output is not the claimed one",
            Refusal::ProofHeader => "the proof does not begin with a proof's header",
            Refusal::ProofLength => "the proof's length is not what its challenge asks for",
            Refusal::ProofDigest => "the proof does not fit its own digest",
            Refusal::Unsound => "the shelf page is damaged",
            Refusal::AnotherCount => {
                "the shelf page is not the present one: its draws are not the log's count"
            }
            Refusal::Empty => "the shelf has no root ready",
            Refusal::Full => "the shelf has no room for another root",
            Refusal::Spent => "the shelf has counted as many draws as it can",
            Refusal::ChainBeyond => "a link of the chain leads beyond the last slot",
            Refusal::ChainShort => "the chain ends before every slot is visited",
            Refusal::ChainLong => "the chain does not end after as many slots as there are",
            Refusal::Text => "the text breaks the rules of Bristol Fashion",
            Refusal::GateKind => "a gate of the text is none of XOR, AND and INV",
            Refusal::TextLimits => {
                "the text has more gates, inputs or outputs than allowed, or no input or no output"
            }
            Refusal::InputCounts => "the two circuits have different numbers of inputs",
            Refusal::Caller => "there is no such caller: they are 0 to 15",
            Refusal::Waiting => "the caller has a proof waiting",
            Refusal::NoneWaiting => "no proof is waiting",
            Refusal::SmallSizes => {
                "the sizes are not those of a small circuit: 1 or 2 inputs, 1 output, at most 2 gates"
            }
            Refusal::OutputList => "the list of outputs is empty, or has more than 16 of them",
        }
    }
}

impl fmt::Display for Refusal {
    fn fmt(&self, f: &mut fmt::Formatter) -> fmt::Result {
        write!(f, "refused {}: {}", self.number(), self.sentence())
    }
}

impl Error for Refusal {}

#[cfg(test)]
mod tests {
    use super::*;
    use std::collections::HashSet;

    #[test]
    fn numbers_go_both_ways() {
        let numbers = (1..=3).chain(5..=30);
        let found = Refusal::ALL.map(Refusal::number);
        assert_eq!(found.to_vec(), numbers.collect::<Vec<_>>());
        for refusal in Refusal::ALL {
            assert_eq!(Refusal::from_number(refusal.number()), Some(refusal));
        }
        for number in [0, 4, 31, 255, u32::MAX] {
            assert_eq!(Refusal::from_number(number), None);
        }
    }

    #[test]
    fn three_are_of_the_chain() {
        let of_chain = Refusal::ALL
            .into_iter()
            .filter(|refusal| refusal.is_of_chain());
        let numbers: Vec<u32> = of_chain.map(Refusal::number).collect();
        assert_eq!(numbers, [19, 20, 21]);
    }

    #[test]
    fn each_has_a_sentence_of_its_own() {
        let sentences: HashSet<_> = Refusal::ALL.map(Refusal::sentence).into();
        assert_eq!(sentences.len(), 29);
        assert!(sentences.iter().all(|text| !text.ends_with('.')));
    }

    #[test]
    fn number_and_sentence_are_shown() {
        let shown = Refusal::Empty.to_string();
        assert_eq!(shown, "refused 16: the shelf has no root ready");
    }
}
