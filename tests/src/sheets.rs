//! `sheets PROGRAM FIRST_SEED COUNT [alone]`: S-5 of paper 02, the reason for each slot, in words.
//!
//! For each seed a script goes through `PROGRAM --operator`, and through `PROGRAM --tenant I` for
//! several ids. Each sheet must have one line a tick; each line is read back (src/sentences.rs),
//! and what it tells must be what the second program knows of that tick. So no two slots that
//! differ in what is told have the same sentence. Then a pair of scripts that have the same kept
//! calls for a chosen client, as in `pairs`: its sheets must be the same bytes.
//!
//! With `alone` there are the pairs alone, and the second program is not asked what the slots were.

use second::core::{Call, Core, Outcome, INDIFFERENT, PRIVATE};
use second::script::{parse, Line};
use second::sheet::{Fact, View};
use tests::arguments::Arguments;
use tests::history::printed_lines;
use tests::pair::{Pair, Side};
use tests::program::{run_operator, run_tenant, shown, Run};
use tests::random::Random;
use tests::scripts;
use tests::sentences::{fact_of, view_of};
use tests::shrink;

/// A run of this many seeds must have met everything that is counted.
const ENOUGH: u64 = 200;

/// How often what came up, to show that the run was not idle. The last are of the pairs, the others
/// of the scripts.
struct Tally {
    counts: [u64; KINDS.len()],
    lines: u64,
    sheets: u64,
    lines_of_pairs: u64,
}

const KINDS: [&str; 20] = [
    "operator: packets drawn under rule 1",
    "operator: packets drawn under rule 2",
    "operator: packets first come first served",
    "operator: dummies",
    "operator: idle slots",
    "operator: slots of nobody",
    "operator: ticks refused with 19",
    "operator: texts refused with 18",
    "tenant: own packets",
    "tenant: own dummies",
    "tenant: own idle slots",
    "tenant: slots of an indifferent client",
    "tenant: slots of another private client",
    "tenant: ticks refused with 19",
    "tenant: ticks refused with 4",
    "tenant: ticks refused with 5",
    "tenant: ticks refused with 11",
    "tenant: texts refused with 18",
    "pairs whose operator's sheets differ",
    "of these, with own slots in the tenant's sheet",
];

/// How many of the kinds are of scripts.
const OF_SCRIPTS: usize = 18;

impl Tally {
    /// What was read of a sheet; nothing for a text that is too long.
    fn add_sheet(&mut self, sheet: Sheet, told: Option<&[View]>, ticks: &[Types]) {
        self.sheets += 1;
        let Some(told) = told else {
            self.counts[if sheet == Sheet::Operator { 7 } else { 17 }] += 1;
            return;
        };
        for (view, types) in told.iter().zip(ticks) {
            let place = match (sheet, view) {
                (Sheet::Operator, View::Own(fact)) => kind_for_operator(fact, types),
                _ => kind_for_tenant(view),
            };
            self.counts[place] += 1;
        }
        self.lines += told.len() as u64;
    }

    fn add_pair(&mut self, held: &Held) {
        self.counts[18] += u64::from(held.operator_differs);
        self.counts[19] += u64::from(held.operator_differs && held.own_slots);
        self.lines_of_pairs += held.lines;
    }

    /// Prints the counts; false if one is 0.
    fn print(&self, alone: bool) -> bool {
        let first = if alone { OF_SCRIPTS } else { 0 };
        for (name, count) in KINDS.iter().zip(&self.counts).skip(first) {
            println!("{}: {}", name, count);
        }
        self.counts[first..].iter().all(|&count| count > 0)
    }
}

fn kind_for_operator(fact: &Fact, types: &Types) -> usize {
    let Fact::Slot { outcome, draw } = fact else {
        return 6;
    };
    match *outcome {
        Outcome::Real { .. } if draw.is_none() => 2,
        Outcome::Real { id, .. } => usize::from(type_of(types, id) == PRIVATE),
        Outcome::Dummy { .. } => 3,
        Outcome::Idle { .. } => 4,
        Outcome::Nobody => 5,
    }
}

fn kind_for_tenant(view: &View) -> usize {
    match view {
        View::Own(Fact::Slot { outcome: Outcome::Real { .. }, .. }) => 8,
        View::Own(Fact::Slot { outcome: Outcome::Dummy { .. }, .. }) => 9,
        View::Own(_) => 10,
        View::Indifferent => 11,
        View::AnotherPrivate => 12,
        View::Refused(19) => 13,
        View::Refused(4) => 14,
        View::Refused(5) => 15,
        View::Refused(_) => 16,
    }
}

/// The type of each id just before a tick, 0 if it is not active; nothing on an unopened core.
type Types = Option<Vec<u32>>;

fn type_of(types: &Types, id: u32) -> u32 {
    types.as_ref().map_or(0, |types| types[id as usize])
}

/// One for each tick of a script. A line without a line feed is none.
fn ticks_of(text: &[u8]) -> Vec<Types> {
    let mut core = Core::new();
    let mut ticks = Vec::new();
    for line in text.split_inclusive(|&byte| byte == b'\n') {
        let Some(Line::Form(call)) = line.strip_suffix(b"\n").map(parse) else {
            continue;
        };
        if call == Call::Tick {
            ticks.push(types_of(&core));
        }
        core.perform(&call);
    }
    ticks
}

fn types_of(core: &Core) -> Types {
    let clients = &core.opened.as_ref()?.clients;
    Some(clients.iter().map(|client| client.as_ref().map_or(0, |client| client.kind)).collect())
}

/// Ids of each kind that the script has at one of its ticks: private ones, an indifferent one and
/// one never active. And both sides of the last id, and now and then a number far above it.
fn some_ids(random: &mut Random, ticks: &[Types]) -> Vec<u32> {
    let at_a_tick = |kind: u32, id: u32| ticks.iter().any(|types| type_of(types, id) == kind);
    let private: Vec<u32> = (0..64).filter(|&id| at_a_tick(PRIVATE, id)).collect();
    let indifferent: Vec<u32> = (0..64).filter(|&id| at_a_tick(INDIFFERENT, id)).collect();
    let other = |id: &u32| !private.contains(id) && !indifferent.contains(id);
    let others: Vec<u32> = (0..64).filter(other).collect();
    let mut ids = vec![63, 64];
    for list in [&private, &private, &indifferent, &others] {
        ids.extend((!list.is_empty()).then(|| random.pick(list)));
    }
    let big = random.word();
    ids.extend(random.one_in(4).then(|| random.pick(&[65, 127, 256, big, 4294967295])));
    ids.sort();
    ids.dedup();
    ids
}

/// A sheet of a script: the operator's, or that of the client with this id.
#[derive(Debug, Clone, Copy, PartialEq, Eq)]
enum Sheet {
    Operator,
    Tenant(u32),
}

impl Sheet {
    fn name(self) -> String {
        match self {
            Sheet::Operator => "the operator's sheet".to_string(),
            Sheet::Tenant(id) => format!("the sheet of tenant {}", id),
        }
    }

    fn run(self, program: &str, text: &[u8]) -> Run {
        match self {
            Sheet::Operator => run_operator(program, text),
            Sheet::Tenant(id) => run_tenant(program, id, text),
        }
    }

    /// To the operator every slot is told as to its owner.
    fn read(self, line: &[u8]) -> Option<View> {
        match self {
            Sheet::Operator => fact_of(line).map(View::Own),
            Sheet::Tenant(_) => view_of(line),
        }
    }

    /// What the second program knows of each tick; nothing for a text over 60,000 bytes.
    fn known(self, text: &[u8]) -> Option<Vec<View>> {
        match self {
            Sheet::Operator => Some(second::sheet::facts(text)?.into_iter().map(View::Own).collect()),
            Sheet::Tenant(id) => second::sheet::views(text, id),
        }
    }
}

/// Reads a sheet back and holds it against what is known of the ticks; in words, what is wrong.
fn hold(program: &str, sheet: Sheet, text: &[u8], ticks: usize) -> Result<Option<Vec<View>>, String> {
    let run = sheet.run(program, text);
    let Some(known) = sheet.known(text) else {
        let refused = run.ended_well && run.printout == b"(refused 18)\n";
        let words = || format!("{}: too long a text is not refused with 18", sheet.name());
        return if refused { Ok(None) } else { Err(words()) };
    };
    assert_eq!(known.len(), ticks, "the second program knows something of each tick");
    let mut told = Vec::new();
    for (place, (line, known)) in lines_of(sheet, &run, ticks)?.iter().zip(known).enumerate() {
        let words = format!("{}, tick {}: {}", sheet.name(), place + 1, line.escape_ascii());
        match sheet.read(line) {
            Some(view) if view == known => told.push(view),
            Some(_) => return Err(format!("{} is told of {:?}", words, known)),
            None => return Err(format!("{} is no line of such a sheet", words)),
        }
    }
    Ok(Some(told))
}

/// "one line for each tick"
fn lines_of(sheet: Sheet, run: &Run, ticks: usize) -> Result<Vec<&[u8]>, String> {
    printed_lines(ticks, run).map_err(|words| format!("{}, {} ticks: {}", sheet.name(), ticks, words))
}

fn report_script(program: &str, seed: u64, sheet: Sheet, text: &[u8], words: &str) {
    println!("seed {}: {}", seed, words);
    let lines: Vec<&[u8]> = text.split_inclusive(|&byte| byte == b'\n').collect();
    let fails = &mut |lines: &[&[u8]]| {
        let text = lines.concat();
        hold(program, sheet, &text, ticks_of(&text).len()).is_err()
    };
    let small = shrink::fewest(&lines, fails).concat();
    println!("smallest script, {} bytes:\n{}", small.len(), shown(&small));
    println!("{}, by {}:\n{}", sheet.name(), program, shown(&sheet.run(program, &small).printout));
    println!("what is known of its ticks: {:?}", sheet.known(&small));
}

/// What came of a pair that holds.
struct Held {
    lines: u64,
    own_slots: bool,
    operator_differs: bool,
}

/// "Nothing that other private tenants send or load alters a line of it." In words, what is wrong.
fn hold_pair(program: &str, pair: &Pair) -> Result<Held, String> {
    let (first, second) = (pair.text(Side::First), pair.text(Side::Second));
    let ticks = (ticks_of(&first).len(), ticks_of(&second).len());
    let sheet = Sheet::Tenant(pair.chosen);
    let (one, other) = (sheet.run(program, &first), sheet.run(program, &second));
    let (lines, twins) = (lines_of(sheet, &one, ticks.0)?, lines_of(sheet, &other, ticks.1)?);
    if let Some(place) = (0..lines.len()).find(|&place| lines[place] != twins[place]) {
        let (line, twin) = (lines[place].escape_ascii(), twins[place].escape_ascii());
        return Err(format!("the sheets of tenant {} differ, tick {}: {} and {}", pair.chosen, place + 1, line, twin));
    }
    let operator = Sheet::Operator;
    Ok(Held {
        lines: lines.len() as u64,
        own_slots: lines.iter().any(|line| line.starts_with(b"Client ")),
        operator_differs: operator.run(program, &first) != operator.run(program, &second),
    })
}

/// Prints the smallest pair found that fails. What is left must have the same kept calls.
fn report_pair(program: &str, seed: u64, pair: &Pair, words: &str) {
    println!("seed {}: {}", seed, words);
    let chosen = pair.chosen;
    let lines = shrink::fewest(&pair.lines, &mut |lines| {
        let candidate = Pair { chosen, lines: lines.to_vec() };
        candidate.agrees() && hold_pair(program, &candidate).is_err()
    });
    let small = Pair { chosen, lines };
    println!("smallest pair: {}", hold_pair(program, &small).err().unwrap_or_default());
    for side in [Side::First, Side::Second] {
        let text = small.text(side);
        println!("\n{:?} text, {} bytes:\n{}", side, text.len(), shown(&text));
        println!("its sheet:\n{}", shown(&run_tenant(program, chosen, &text).printout));
    }
}

/// The script of a seed. Most scripts open first, so that one in eight gets a tick in front, for 19.
fn script_of(seed: u64) -> Vec<u8> {
    let in_front: &[u8] = if seed % 8 == 3 { b"(tick)\n" } else { b"" };
    [in_front, &scripts::script(seed)].concat()
}

/// All sheets of one seed's script; ends the program if one of them fails.
fn one_script(program: &str, seed: u64, tally: &mut Tally) {
    let text = script_of(seed);
    let ticks = ticks_of(&text);
    let tenants = some_ids(&mut Random::new(!seed), &ticks).into_iter().map(Sheet::Tenant);
    for sheet in [Sheet::Operator].into_iter().chain(tenants) {
        match hold(program, sheet, &text, ticks.len()) {
            Ok(told) => tally.add_sheet(sheet, told.as_deref(), &ticks),
            Err(words) => {
                report_script(program, seed, sheet, &text, &words);
                std::process::exit(1);
            }
        }
    }
}

/// The sheets of one seed's pair; ends the program if they differ.
fn one_pair(program: &str, seed: u64, tally: &mut Tally) {
    let pair = Pair::from_seed(seed);
    assert!(pair.agrees(), "seed {} gives no pair", seed);
    match hold_pair(program, &pair) {
        Ok(held) => tally.add_pair(&held),
        Err(words) => {
            report_pair(program, seed, &pair, &words);
            std::process::exit(1);
        }
    }
}

fn main() {
    let arguments = Arguments::read("sheets PROGRAM FIRST_SEED COUNT [alone]");
    let program = &arguments.program;
    let mut tally = Tally { counts: [0; KINDS.len()], lines: 0, sheets: 0, lines_of_pairs: 0 };
    for seed in arguments.seeds() {
        if !arguments.alone {
            one_script(program, seed, &mut tally);
        }
        one_pair(program, seed, &mut tally);
    }
    let complete = tally.print(arguments.alone);
    let read = match arguments.alone {
        true => String::new(),
        false => format!("read back {} lines of {} sheets, and ", tally.lines, tally.sheets),
    };
    println!(
        "{}compared the tenants' sheets of {} pairs, {} lines: no difference",
        read, arguments.count, tally.lines_of_pairs
    );
    if arguments.count >= ENOUGH && !complete {
        println!("but not everything that is counted came up");
        std::process::exit(1);
    }
}
