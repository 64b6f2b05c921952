//! The lines of both sheets of S-5 (paper 02), read back: from the bytes to what they tell. Only the exact bytes of a line are
//! taken, so that two lines which are read as the same are the same. The words are those of the manual, put down here once more:
//! what prints them in the second program is not asked.

use second::core::Outcome;
use second::sheet::{Fact, View};

/// The beginnings of the operator's sentences, in which `#` stands for a number.
const PACKET: &str = "Client # sent packet # of # bytes with # bytes of padding";
const DUMMY: &str = "Client # sent a dummy packet";
const IDLE: &str = "Client # had nothing to send";

/// Why the client had the slot.
const DRAWN: &str = ", drawn at target # of a rate sum of #.\n";
const FIRST_COME: &str = ", first come first served.\n";

const NOBODY: &str = "Nobody had the slot.\n";
const REFUSED: &str = "(refused #)\n";

/// The two sentences that a tenant's sheet has beside its own slots.
const INDIFFERENT: &str = "The slot went to an indifferent client.\n";
const ANOTHER_PRIVATE: &str = "The slot went to another private client.\n";

/// A line of the operator's sheet; nothing if it is none. First come first served is for packets alone.
pub fn fact_of(line: &[u8]) -> Option<Fact> {
    if let Some(number) = refusal_of(line) {
        return Some(Fact::Refused(number));
    }
    let (outcome, draw) = if line == NOBODY.as_bytes() {
        (Outcome::Nobody, None)
    } else if let Some(numbers) = numbers_in(&[PACKET, FIRST_COME].concat(), line) {
        (packet_of(&numbers)?, None)
    } else if let Some(numbers) = numbers_in(&[PACKET, DRAWN].concat(), line) {
        (packet_of(&numbers)?, Some((numbers[4], numbers[5])))
    } else if let Some(numbers) = numbers_in(&[DUMMY, DRAWN].concat(), line) {
        (Outcome::Dummy { id: short(numbers[0])? }, Some((numbers[1], numbers[2])))
    } else {
        let numbers = numbers_in(&[IDLE, DRAWN].concat(), line)?;
        (Outcome::Idle { id: short(numbers[0])? }, Some((numbers[1], numbers[2])))
    };
    Some(Fact::Slot { outcome, draw })
}

/// A line of a tenant's sheet; nothing if it is none. Where nobody has the slot no private client is active.
pub fn view_of(line: &[u8]) -> Option<View> {
    if line == INDIFFERENT.as_bytes() {
        return Some(View::Indifferent);
    }
    if line == ANOTHER_PRIVATE.as_bytes() {
        return Some(View::AnotherPrivate);
    }
    match fact_of(line)? {
        Fact::Refused(number) => Some(View::Refused(number)),
        Fact::Slot { outcome: Outcome::Nobody, .. } => None,
        fact => Some(View::Own(fact)),
    }
}

fn refusal_of(line: &[u8]) -> Option<u32> {
    short(numbers_in(REFUSED, line)?[0])
}

fn packet_of(numbers: &[u64]) -> Option<Outcome> {
    let (id, length, padding) = (short(numbers[0])?, short(numbers[2])?, short(numbers[3])?);
    Some(Outcome::Real { id, handle: numbers[1], length, padding })
}

/// Every number but a handle has 32 bits.
fn short(number: u64) -> Option<u32> {
    u32::try_from(number).ok()
}

/// The numbers of a line that has the shape of a sentence, and nothing else in it.
fn numbers_in(sentence: &str, line: &[u8]) -> Option<Vec<u64>> {
    let line = std::str::from_utf8(line).ok()?;
    let mut parts = sentence.split('#');
    let mut rest = line.strip_prefix(parts.next()?)?;
    let mut numbers = Vec::new();
    for part in parts {
        let digits = rest.find(|letter: char| !letter.is_ascii_digit())?;
        numbers.push(number(&rest[..digits])?);
        rest = rest[digits..].strip_prefix(part)?;
    }
    rest.is_empty().then_some(numbers)
}

/// "Numbers are spelt as in a printout": no leading zero, except 0 itself.
fn number(digits: &str) -> Option<u64> {
    let number: u64 = digits.parse().ok()?;
    (number.to_string() == digits).then_some(number)
}
