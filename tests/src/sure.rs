//! `sure SLOTS FIRST_SEED COUNT [alone]`: S-14 of paper 02, what the private side is sure to get.
//!
//! For each seed a script goes through `SLOTS --sure N` and through the second program, and the
//! lines are compared. Then a steady stretch of n ticks: the figure for n is asked of the program
//! behind the beginning, and the picks of private clients are counted in what the program prints
//! for the ticks. They may not be fewer, and the figure has to be the second program's.
//!
//! With `alone` the second program is not asked for a figure, and there are no scripts but the
//! stretches: what fails then is the program's own figure by its own picks.

use second::core::{Call, Core, INDIFFERENT, PLACES, PRIVATE};
use second::script::{parse, Line};
use tests::arguments::Arguments;
use tests::history::{id_of, printed_lines, slot};
use tests::program::{run, run_sure, shown, Run};
use tests::random::Random;
use tests::scripts;
use tests::shrink;
use tests::steady::{is_settings, Part, Stretch};

/// A run of this many seeds must have met everything that is counted.
const ENOUGH: u64 = 1000;

/// How often what came up, to show that the run was not idle. The first are of the scripts, the
/// others of the stretches.
struct Tally {
    counts: [u64; KINDS.len()],
    scripts: u64,
    stretches: u64,
    ticks: u64,
}

const KINDS: [&str; 13] = [
    "scripts with a figure above 0",
    "scripts with a figure of 0",
    "scripts refused with 18",
    "scripts refused with 19",
    "stretches with a figure above 0",
    "of these, picks exactly as many as the figure",
    "of these, picks more than the figure",
    "picks exactly as many as the figure, and indifferent clients had the other slots",
    "stretches without a private client",
    "stretches with a private client and a demand past n, so that the figure is 0",
    "stretches of no tick",
    "opens, joins, changes and leaves in stretches, all refused",
    "stretches with a figure above 0 that begin with a full queue of an indifferent client",
];

/// How many of the kinds are of scripts.
const OF_SCRIPTS: usize = 4;

impl Tally {
    fn add_script(&mut self, line: &[u8]) {
        let place = match line {
            b"(refused 18)\n" => 2,
            b"(refused 19)\n" => 3,
            line if line.ends_with(b" 0)\n") => 1,
            _ => 0,
        };
        self.counts[place] += 1;
        self.scripts += 1;
    }

    fn add_stretch(&mut self, stretch: &Stretch, held: &Held) {
        let (start, n) = (stretch.start(), stretch.ticks());
        let nobody = (0..64).all(|id| !start.is_private(id));
        let exact = held.figure > 0 && held.picks == held.figure;
        let settings =
            stretch.lines.iter().filter(|(part, line)| *part == Part::Steady && is_settings(line));
        self.counts[4] += u64::from(held.figure > 0);
        self.counts[5] += u64::from(exact);
        self.counts[6] += u64::from(held.figure > 0 && held.picks > held.figure);
        self.counts[7] += u64::from(exact && held.picks < n);
        self.counts[8] += u64::from(nobody);
        self.counts[9] += u64::from(!nobody && demand(&start, n) > u64::from(n));
        self.counts[10] += u64::from(n == 0);
        self.counts[11] += settings.count() as u64;
        self.counts[12] += u64::from(held.figure > 0 && is_full(&start));
        self.stretches += 1;
        self.ticks += u64::from(n);
    }

    /// Prints the counts; false if one is 0.
    fn print(&self, alone: bool) -> bool {
        let first = if alone { OF_SCRIPTS } else { 0 };
        for (name, count) in KINDS.iter().zip(&self.counts).skip(first) {
            println!("{}: {}", name, count);
        }
        self.counts[first..].iter().all(|&count| count > 0)
    }
}

/// "the indifferent packets waiting there at the start" and "the sum, over indifferent clients, of
/// (level at the start + n × rate) / 1024 rounded down".
fn demand(start: &Core, n: u32) -> u64 {
    let clients = start.opened.iter().flat_map(|opened| opened.clients.iter().flatten());
    let indifferent = clients.filter(|client| client.kind == INDIFFERENT);
    let bought = |rate: u32, level: u32| (u64::from(level) + u64::from(n) * u64::from(rate)) / 1024;
    indifferent.map(|client| client.queue.len() as u64 + bought(client.rate, client.level)).sum()
}

/// Whether an indifferent client has all its places in use.
fn is_full(start: &Core) -> bool {
    let mut clients = start.opened.iter().flat_map(|opened| opened.clients.iter().flatten());
    clients.any(|client| client.kind == INDIFFERENT && client.queue.len() == PLACES)
}

/// How many ticks a script's figure is asked for: few, numbers round multiples of 1024, where a
/// client's share comes to a whole number, and any.
fn some_ticks(random: &mut Random) -> u32 {
    let few = random.between(1, 70);
    let multiple = 1024 * random.pick(&[1, 2, 3, few, 4194303]);
    match random.below(9) {
        0 => 0,
        1 => 4294967295,
        2..=4 => few,
        5 | 6 => multiple - 1 + random.between(0, 2),
        7 => random.between(70, 100_000),
        _ => random.word(),
    }
}

/// Whether the program and the second program have different lines for a script.
fn differs(program: &str, n: u32, text: &[u8]) -> bool {
    run_sure(program, n, text) != Run { printout: second::script::sure(text, n), ended_well: true }
}

fn report_script(program: &str, seed: u64, n: u32, text: &[u8]) {
    println!("seed {}: the lines for --sure {} differ", seed, n);
    let lines: Vec<&[u8]> = text.split_inclusive(|&byte| byte == b'\n').collect();
    let fails = &mut |lines: &[&[u8]]| differs(program, n, &lines.concat());
    let small = shrink::fewest(&lines, fails).concat();
    let Run { printout, ended_well } = run_sure(program, n, &small);
    let end = if ended_well { "" } else { " (it did not end well)" };
    println!("smallest script, {} bytes:\n{}", small.len(), shown(&small));
    println!("{}{}:\n{}", program, end, shown(&printout));
    println!("second program:\n{}", shown(&second::script::sure(&small, n)));
}

/// What came of a stretch that holds.
struct Held {
    figure: u32,
    picks: u32,
}

/// Asks for the figure and counts the picks; in words, what is wrong.
fn hold(program: &str, stretch: &Stretch, alone: bool) -> Result<Held, String> {
    let (n, beginning) = (stretch.ticks(), stretch.beginning());
    let line = run_sure(program, n, &beginning);
    let figure = figure_of(&line, n)?;
    let whole = run(program, &stretch.text());
    let picks = picks(stretch, &printed_lines(stretch.lines.len(), &whole)?)?;
    if picks < figure {
        return Err(format!("{} picks in {} ticks, fewer than {}, the figure", picks, n, figure));
    }
    let wanted = second::script::sure(&beginning, n);
    if !alone && line.printout != wanted {
        return Err(format!("the figure is {}, not as in {}", figure, wanted.escape_ascii()));
    }
    Ok(Held { figure, picks })
}

/// Reads `(sure N K)`. Only the exact bytes are taken.
fn figure_of(line: &Run, n: u32) -> Result<u32, String> {
    let words = std::str::from_utf8(&line.printout).unwrap_or_default();
    let last = words.trim_end_matches(")\n").rsplit(' ').next().unwrap_or_default();
    let figure = last.parse().unwrap_or(0);
    if line.ended_well && words == format!("(sure {} {})\n", n, figure) {
        Ok(figure)
    } else {
        Err(format!("no figure for {} ticks: {}", n, line.printout.escape_ascii()))
    }
}

/// The picks of private clients in the ticks of a stretch, by what the program printed alone: who
/// is private is said by the joins, changes and leaves that it accepted. "Rule 2 picks the client
/// drawn, whatever it sends": each slot whose outcome bears the id of a private client is one.
fn picks(stretch: &Stretch, answers: &[&[u8]]) -> Result<u32, String> {
    let (mut private, mut picks) = (Vec::new(), 0);
    for ((part, line), answer) in stretch.lines.iter().zip(answers) {
        let Line::Form(call) = parse(line) else {
            continue;
        };
        if *part == Part::Steady && call == Call::Tick {
            let no_slot = || format!("no slot: {}", answer.escape_ascii());
            let outcome = slot(answer).ok_or_else(no_slot)?;
            picks += id_of(&outcome).map_or(0, |id| u32::from(private.contains(&id)));
        } else if *part == Part::Steady && is_settings(line) && *answer == b"(ok)\n" {
            return Err(format!("accepted in a stretch: {}", line.escape_ascii()));
        } else if *answer == b"(ok)\n" {
            settle(&mut private, &call);
        }
    }
    Ok(picks)
}

/// What an accepted call says of who is private.
fn settle(private: &mut Vec<u32>, call: &Call) {
    match *call {
        Call::Open { .. } => private.clear(),
        Call::Join { id, kind, .. } | Call::Change { id, kind, .. } => {
            private.retain(|&other| other != id);
            private.extend((kind == PRIVATE).then_some(id));
        }
        Call::Leave { id } => private.retain(|&other| other != id),
        Call::Load { .. } | Call::Arrive { .. } | Call::Tick => {}
    }
}

/// Prints the smallest stretch found that fails. What is left must be a stretch still: without a
/// join, say, one that was refused may be accepted.
fn report_stretch(program: &str, seed: u64, stretch: &Stretch, words: &str, alone: bool) {
    println!("seed {}: {}", seed, words);
    let lines = shrink::fewest(&stretch.lines, &mut |lines| {
        let candidate = Stretch { lines: lines.to_vec() };
        candidate.is_steady() && hold(program, &candidate, alone).is_err()
    });
    let small = Stretch { lines };
    let (n, beginning, text) = (small.ticks(), small.beginning(), small.text());
    println!("smallest stretch: {}", hold(program, &small, alone).err().unwrap_or_default());
    println!("its beginning, {} bytes:\n{}", beginning.len(), shown(&beginning));
    println!("its line for --sure {}:\n{}", n, shown(&run_sure(program, n, &beginning).printout));
    println!("the stretch behind it:\n{}", shown(&text[beginning.len()..]));
    println!("printout of both:\n{}", shown(&run(program, &text).printout));
}

/// The script and the stretch of one seed; ends the program if one of them fails.
fn one_seed(program: &str, seed: u64, alone: bool, tally: &mut Tally) {
    let (text, n) = (scripts::script(seed), some_ticks(&mut Random::new(!seed)));
    if !alone && differs(program, n, &text) {
        report_script(program, seed, n, &text);
        std::process::exit(1);
    }
    if !alone {
        tally.add_script(&second::script::sure(&text, n));
    }
    let stretch = Stretch::from_seed(seed);
    assert!(stretch.is_steady(), "seed {} gives no steady stretch", seed);
    match hold(program, &stretch, alone) {
        Ok(held) => tally.add_stretch(&stretch, &held),
        Err(words) => {
            report_stretch(program, seed, &stretch, &words, alone);
            std::process::exit(1);
        }
    }
}

fn main() {
    let arguments = Arguments::read("sure SLOTS FIRST_SEED COUNT [alone]");
    let program = &arguments.program;
    let mut tally = Tally { counts: [0; KINDS.len()], scripts: 0, stretches: 0, ticks: 0 };
    for seed in arguments.seeds() {
        one_seed(program, seed, arguments.alone, &mut tally);
    }
    let complete = tally.print(arguments.alone);
    let compared = match arguments.alone {
        true => String::new(),
        false => format!(", and compared the figures of {} scripts", tally.scripts),
    };
    println!(
        "held {} stretches against the figure, {} ticks{}: none was fewer",
        tally.stretches, tally.ticks, compared
    );
    if arguments.count >= ENOUGH && !complete {
        println!("but not everything that is counted came up");
        std::process::exit(1);
    }
}
