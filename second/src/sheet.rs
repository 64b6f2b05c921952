//! The reason for each slot, in words (paper 02, S-5): the operator's sheet and a private tenant's.
//! What is told stands in the papers, the bytes of the sentences in docs/MANUAL.md. Sentences
//! quoted without a source are S-5's.

use crate::core::{Answer, Call, Core, Outcome, INDIFFERENT};
use crate::script::{lines, print, Line};

/// "For each tick the operator's sheet has one English sentence with the outcome, its fields and,
/// if there was a draw, target and rate sum." `draw` has these two; without one the slot was
/// nobody's or went by order of acceptance. On an unopened core there is no slot, and 19 instead.
#[derive(Debug, Clone, PartialEq, Eq)]
pub enum Fact {
    Refused(u32),
    Slot { outcome: Outcome, draw: Option<(u64, u64)> },
}

/// What a private tenant is told of a tick: "its own slot in the operator's sentence, or that the
/// slot went to an indifferent client or to another private one, the three never alike", or the
/// number with which its sheet is refused there.
#[derive(Debug, Clone, PartialEq, Eq)]
pub enum View {
    Own(Fact),
    Indifferent,
    AnotherPrivate,
    Refused(u32),
}

/// The facts of a script's ticks, in order; nothing for a text over 60,000 bytes.
pub fn facts(script: &[u8]) -> Option<Vec<Fact>> {
    of_each_tick(script, fact)
}

/// What the client with this id is told of a script's ticks, in order; nothing for a text over
/// 60,000 bytes.
pub fn views(script: &[u8], id: u32) -> Option<Vec<View>> {
    of_each_tick(script, |core| view(core, id))
}

/// docs/MANUAL.md: "It reads a script as ever and carries it out"; "one line for each tick ..., and
/// nothing for any other line of the script, whether it holds a call or not". What `tick` gives for
/// each tick, which it makes; every other call is performed, and its answer is dropped.
fn of_each_tick<T>(script: &[u8], tick: impl Fn(&mut Core) -> T) -> Option<Vec<T>> {
    let mut core = Core::new();
    let mut told = Vec::new();
    for line in lines(script)? {
        match line {
            Line::Form(Call::Tick) => told.push(tick(&mut core)),
            Line::Form(call) => drop(core.perform(&call)),
            Line::Refused(_) => {}
        }
    }
    Some(told)
}

/// Makes one tick, which is refused only by "every call but open | 19 | core unopened" (paper 01).
fn fact(core: &mut Core) -> Fact {
    match core.tick() {
        Some((outcome, draw)) => Fact::Slot { outcome, draw },
        None => Fact::Refused(19),
    }
}

/// Makes one tick, and tells it to the client "as it is just before that tick" (docs/MANUAL.md). A
/// tick changes nobody's type, so that the other's is looked up behind it.
fn view(core: &mut Core, id: u32) -> View {
    let refusal = refusal(core, id);
    let fact = fact(core);
    if let Some(number) = refusal {
        return View::Refused(number);
    }
    match owner(&fact) {
        Some(owner) if owner == id => View::Own(fact),
        Some(owner) if core.is_private(owner) => View::AnotherPrivate,
        Some(_) => View::Indifferent,
        None => panic!("a private client is active, so that the slot is somebody's"),
    }
}

/// "for an id not active then it gives 5, for an indifferent one 11". docs/MANUAL.md: "the first of
/// these numbers that applies: 19 on an unopened core, 4 for an id above 63, 5 for an id that is
/// not active then, 11 for one that is indifferent then."
fn refusal(core: &Core, id: u32) -> Option<u32> {
    let Some(opened) = &core.opened else {
        return Some(19);
    };
    if id > 63 {
        return Some(4);
    }
    let Some(client) = &opened.clients[id as usize] else {
        return Some(5);
    };
    if client.kind == INDIFFERENT {
        return Some(11);
    }
    None
}

/// Whose slot it was: paper 01's "slots whose outcome bears its id".
fn owner(fact: &Fact) -> Option<u32> {
    let Fact::Slot { outcome, .. } = fact else {
        return None;
    };
    match *outcome {
        Outcome::Real { id, .. } | Outcome::Dummy { id } | Outcome::Idle { id } => Some(id),
        Outcome::Nobody => None,
    }
}

/// A line of the operator's sheet (docs/MANUAL.md, "The operator's sheet"). "Slots that differ in
/// any of these have different sentences".
pub fn sentence(fact: &Fact) -> String {
    match fact {
        Fact::Refused(number) => print(&Answer::Refused(*number)),
        Fact::Slot { outcome, draw } => format!("{}{}.\n", deed(outcome), reason(outcome, draw)),
    }
}

/// "the outcome, its fields"
fn deed(outcome: &Outcome) -> String {
    match outcome {
        Outcome::Real { id, handle, length, padding } => format!(
            "Client {} sent packet {} of {} bytes with {} bytes of padding",
            id, handle, length, padding
        ),
        Outcome::Dummy { id } => format!("Client {} sent a dummy packet", id),
        Outcome::Idle { id } => format!("Client {} had nothing to send", id),
        Outcome::Nobody => "Nobody had the slot".to_string(),
    }
}

/// "if there was a draw, target and rate sum". docs/MANUAL.md: "First come first served is
/// discipline 0 among indifferent clients"; nobody's slot has no reason.
fn reason(outcome: &Outcome, draw: &Option<(u64, u64)>) -> String {
    match (outcome, draw) {
        (_, Some((target, sum))) => {
            format!(", drawn at target {} of a rate sum of {}", target, sum)
        }
        (Outcome::Nobody, None) => String::new(),
        (_, None) => ", first come first served".to_string(),
    }
}

/// A line of a private tenant's sheet (docs/MANUAL.md, "A private tenant's sheet").
pub fn line(view: &View) -> String {
    match view {
        View::Own(fact) => sentence(fact),
        View::Indifferent => "The slot went to an indifferent client.\n".to_string(),
        View::AnotherPrivate => "The slot went to another private client.\n".to_string(),
        View::Refused(number) => print(&Answer::Refused(*number)),
    }
}

/// The operator's sheet. "18 | whole text over 60,000 bytes; the only line printed" (paper 01).
pub fn operator(script: &[u8]) -> Vec<u8> {
    let Some(facts) = facts(script) else {
        return print(&Answer::Refused(18)).into_bytes();
    };
    let mut sheet = String::new();
    for fact in &facts {
        sheet.push_str(&sentence(fact));
    }
    sheet.into_bytes()
}

/// "A private tenant's own sheet has a sentence a tick too"; 18 as above.
pub fn tenant(script: &[u8], id: u32) -> Vec<u8> {
    let Some(views) = views(script, id) else {
        return print(&Answer::Refused(18)).into_bytes();
    };
    let mut sheet = String::new();
    for view in &views {
        sheet.push_str(&line(view));
    }
    sheet.into_bytes()
}
