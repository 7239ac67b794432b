//! Where the chain of a circuit goes wrong, and what to do.

use wivulameno::circuit;
use wivulameno::Refusal;

/// The slot that holds the wrong link, 0 for the head, if the refusal of these bytes
/// is about their chain.
pub fn fault_slot(refusal: Refusal, bytes: &[u8]) -> Option<u32> {
    refusal.is_of_chain().then(|| circuit::fault_slot(bytes))
}

/// What is wrong with the chain and what to do, if the refusal is about it.
pub fn advice(refusal: Refusal, slot: u32) -> Option<String> {
    let text = match (refusal, slot) {
        _ if !refusal.is_of_chain() => return None,
        (Refusal::ChainBeyond, 0) => {
            "the head leads beyond the last slot: set it to the first slot of the chain, or to 0 \
             if there are no gates"
                .into()
        }
        (Refusal::ChainBeyond, _) => format!(
            "the link of slot {slot} leads beyond the last slot: set it to the next slot of the \
             chain, or to 0 if slot {slot} is the last"
        ),
        (Refusal::ChainShort, 0) => {
            "the head is 0, but there are gates: set it to the first slot of the chain".into()
        }
        (Refusal::ChainShort, _) => format!(
            "the link of slot {slot} ends the chain, but a slot is left out: set the link to the \
             next slot of the chain"
        ),
        _ => format!(
            "the link of slot {slot} goes on after as many slots as there are: set it to 0, or if \
             the chain came to a slot twice, mend the link that led back"
        ),
    };
    Some(text)
}
