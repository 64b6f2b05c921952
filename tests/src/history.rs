//! A script as a history in the sense of "Two histories", and the comparison of two of them.
//! Quoted sentences are the paper's.

use crate::program::Run;
use second::core::{Answer, Call, Core, Outcome, INDIFFERENT};
use second::script::{parse, print, Line};
use std::rc::Rc;

/// One kept call with what the settings calls say of its place.
struct Kept {
    call: Call,
    /// Which line of the script it is; "Each line prints one line".
    line: usize,
    settings: Rc<Core>,
}

pub struct History {
    chosen: u32,
    kept: Vec<Kept>,
    lines: usize,
    struck_out: u64,
}

impl History {
    /// "Struck out are the arrives and loads naming another id that is not indifferent at their
    /// place, an inactive one or one above 63 too. All other calls are kept". A line answered 16
    /// or 17 is no call.
    pub fn of(text: &[u8], chosen: u32) -> History {
        let mut history = History { chosen, kept: Vec::new(), lines: 0, struck_out: 0 };
        let mut settings = Rc::new(Core::new());
        for line in text.split_inclusive(|&byte| byte == b'\n') {
            let parsed = line.strip_suffix(b"\n").map(parse);
            if let Some(Line::Form(call)) = parsed {
                history.add(call, &mut settings);
            }
            history.lines += 1;
        }
        history
    }

    fn add(&mut self, call: Call, settings: &mut Rc<Core>) {
        if let Call::Arrive { id, .. } | Call::Load { id, .. } = call {
            if id != self.chosen && !is_indifferent(settings, id) {
                self.struck_out += 1;
                return;
            }
        }
        self.kept.push(Kept { call: call.clone(), line: self.lines, settings: settings.clone() });
        // "Which opens, joins, changes and leaves are accepted follows from these four alone":
        // the core that tells of places is given no other call.
        match call {
            Call::Arrive { .. } | Call::Load { .. } | Call::Tick => {}
            _ => {
                Rc::make_mut(settings).perform(&call);
            }
        }
    }

    /// "they agree in order and arguments"
    pub fn keeps_the_same_as(&self, other: &History) -> bool {
        self.kept.len() == other.kept.len()
            && self.kept.iter().zip(&other.kept).all(|(one, other)| one.call == other.call)
    }
}

/// "An id is indifferent there if, since the last accepted open before it, its last accepted join
/// or change gave type 1 and no accepted leave of it came later."
pub fn is_indifferent(settings: &Core, id: u32) -> bool {
    kind_of(settings, id) == Some(INDIFFERENT)
}

fn kind_of(settings: &Core, id: u32) -> Option<u32> {
    let clients = &settings.opened.as_ref()?.clients;
    Some(clients.get(id as usize)?.as_ref()?.kind)
}

/// What came up over a run, to show that it was not idle.
pub struct Seen {
    pub kept_calls: u64,
    pub struck_out: u64,
    kinds: [u64; KINDS.len()],
}

const KINDS: [&str; 16] = [
    "answers to opens",
    "answers to joins, changes and leaves",
    "of these, accepted changes of type",
    "accepted arrives and loads of the chosen client",
    "refused arrives and loads of the chosen client",
    "accepted arrives of other indifferent clients",
    "drops of indifferent clients, 14, discipline 0",
    "drops of indifferent clients, 14, discipline 1",
    "drops of indifferent clients, 15",
    "departures under rule 1",
    "slots of the chosen client under rule 2",
    "picks of another client under rule 2",
    "of these, picks that sent something else in the other history",
    "slots without anyone",
    "ticks of an unopened core",
    "drops of the chosen client while private, 14",
];

impl Seen {
    pub fn new() -> Seen {
        Seen { kept_calls: 0, struck_out: 0, kinds: [0; KINDS.len()] }
    }

    /// Prints the counts; false if one is 0.
    pub fn print(&self) -> bool {
        for (name, count) in KINDS.iter().zip(&self.kinds) {
            println!("{}: {}", name, count);
        }
        self.kinds.iter().all(|&count| count > 0)
    }

    fn add_call(&mut self, chosen: u32, kept: &Kept, answer: &[u8]) {
        let (accepted, full) = (answer == b"(ok)\n", answer == b"(refused 14)\n");
        match kept.call {
            Call::Open { .. } => self.kinds[0] += 1,
            Call::Arrive { id, .. } | Call::Load { id, .. } if id == chosen => {
                self.kinds[if accepted { 3 } else { 4 }] += 1;
            }
            Call::Arrive { .. } => self.kinds[5] += u64::from(accepted),
            Call::Load { .. } | Call::Tick => {}
            _ => self.kinds[1] += 1,
        }
        match kept.call {
            Call::Change { id, kind, .. } => {
                let other = kind_of(&kept.settings, id) != Some(kind);
                self.kinds[2] += u64::from(accepted && other);
            }
            Call::Arrive { id, .. } if is_indifferent(&kept.settings, id) => {
                let discipline = kept.settings.opened.as_ref().map_or(0, |opened| opened.discipline);
                self.kinds[6 + discipline as usize] += u64::from(full);
                self.kinds[8] += u64::from(answer == b"(refused 15)\n");
            }
            Call::Arrive { .. } => self.kinds[15] += u64::from(full),
            _ => {}
        }
    }

    fn add_slot(&mut self, chosen: u32, settings: &Core, outcome: &Outcome, same: bool) {
        let Some(id) = id_of(outcome) else {
            self.kinds[13] += 1;
            return;
        };
        if is_indifferent(settings, id) {
            self.kinds[9] += 1;
        } else if id == chosen {
            self.kinds[10] += 1;
        } else {
            self.kinds[11] += 1;
            self.kinds[12] += u64::from(!same);
        }
    }
}

/// The first difference in what the paper compares, if there is one.
pub fn compare(
    one: &History, one_run: &Run, other: &History, other_run: &Run, seen: &mut Seen,
) -> Option<String> {
    let one_printed = match printed_lines(one.lines, one_run) {
        Ok(lines) => lines,
        Err(words) => return Some(format!("first text: {}", words)),
    };
    let other_printed = match printed_lines(other.lines, other_run) {
        Ok(lines) => lines,
        Err(words) => return Some(format!("second text: {}", words)),
    };
    // "the n-th kept call of one history is compared with the n-th of the other"
    for (number, (kept, twin)) in one.kept.iter().zip(&other.kept).enumerate() {
        let answers = (one_printed[kept.line], other_printed[twin.line]);
        if let Err(words) = compare_answers(one.chosen, kept, answers, seen) {
            return Some(format!("kept call {} ({:?}): {}", number + 1, kept.call, words));
        }
        seen.kept_calls += 1;
    }
    seen.struck_out += one.struck_out + other.struck_out;
    None
}

/// "Each line prints one line", "Each printed line is closed by a line feed": with a line missing
/// or too many, no call could be matched with its answer.
pub fn printed_lines(wanted: usize, run: &Run) -> Result<Vec<&[u8]>, String> {
    let lines: Vec<&[u8]> = run.printout.split_inclusive(|&byte| byte == b'\n').collect();
    if !run.ended_well {
        return Err("the program did not end well".to_string());
    }
    if lines.len() != wanted {
        return Err(format!("{} lines printed for {} lines", lines.len(), wanted));
    }
    if lines.last().is_some_and(|line| !line.ends_with(b"\n")) {
        return Err("the last printed line has no line feed".to_string());
    }
    Ok(lines)
}

/// One kept call's answers in the two histories.
fn compare_answers(
    chosen: u32, kept: &Kept, answers: (&[u8], &[u8]), seen: &mut Seen,
) -> Result<(), String> {
    let (one, other) = answers;
    let differ = || format!("{} and {}", one.escape_ascii(), other.escape_ascii());
    if kept.call != Call::Tick {
        // Opens; "the answers to its joins, changes and leaves" of any client; and arrives and
        // loads, which are kept only if they are the chosen client's or if "at whose place it is
        // indifferent": "accepted or the number", its drops (14 or 15) among them.
        seen.add_call(chosen, kept, one);
        return if one == other { Ok(()) } else { Err(differ()) };
    }
    if kept.settings.opened.is_none() {
        // "An unopened core's tick has no slot and gets 19 in both."
        seen.kinds[14] += 1;
        let right = one == b"(refused 19)\n" && other == b"(refused 19)\n";
        return if right { Ok(()) } else { Err(differ()) };
    }
    let (Some(slot), Some(twin)) = (slot(one), slot(other)) else {
        return Err(format!("no slot: {}", differ()));
    };
    seen.add_slot(chosen, &kept.settings, &slot, slot == twin);
    if slot == twin || may_differ(chosen, kept, &slot, &twin) { Ok(()) } else { Err(differ()) }
}

/// "A slot goes by the first of the tick's rules 1 to 3 that applies. Rule 2 picks the client
/// drawn, whatever it sends." The id printed tells the rule: rule 1's is indifferent at the place,
/// rule 2's private, rule 3 has none. "Of any client but the chosen one ... only those answers,
/// departures and drops are compared at whose place it is indifferent; what else it got or sent
/// while private is not." So two slots may differ only in what one and the same private client
/// other than the chosen one sent.
fn may_differ(chosen: u32, kept: &Kept, slot: &Outcome, twin: &Outcome) -> bool {
    let Some(id) = id_of(slot) else {
        return false;
    };
    let active = kind_of(&kept.settings, id).is_some();
    let private = active && !is_indifferent(&kept.settings, id);
    id_of(twin) == Some(id) && private && id != chosen
}

/// "the slots whose outcome bears its id"
pub fn id_of(outcome: &Outcome) -> Option<u32> {
    match *outcome {
        Outcome::Real { id, .. } | Outcome::Dummy { id } | Outcome::Idle { id } => Some(id),
        Outcome::Nobody => None,
    }
}

/// Reads a printed slot. Only the exact bytes that such a slot prints are taken.
pub fn slot(line: &[u8]) -> Option<Outcome> {
    let inside = line.strip_prefix(b"(slot (")?.strip_suffix(b"))\n")?;
    let words: Vec<&str> = std::str::from_utf8(inside).ok()?.split(' ').collect();
    let numbers: Vec<u64> = words[1..].iter().filter_map(|word| word.parse().ok()).collect();
    let short = |number: u64| u32::try_from(number).ok();
    let outcome = match (words[0], &numbers[..]) {
        ("real", &[id, handle, length, padding]) => {
            Outcome::Real { id: short(id)?, handle, length: short(length)?, padding: short(padding)? }
        }
        ("dummy", &[id]) => Outcome::Dummy { id: short(id)? },
        ("idle", &[id]) => Outcome::Idle { id: short(id)? },
        ("none", &[]) => Outcome::Nobody,
        _ => return None,
    };
    let exact = print(&Answer::Slot(outcome.clone())).into_bytes() == line;
    if exact { Some(outcome) } else { None }
}
