//! `counts PROGRAM FIRST_SEED COUNT [alone]`: S-7 of paper 02, a count sheet for every client.
//!
//! For each seed a script goes through `PROGRAM --counts` and through the second program, and the lines are compared. They are
//! counted anew, too, from the script and from what the program printed for it (src/recount.rs), and have to be the same. Then a
//! pair of scripts that have the same kept calls for a chosen client, as in `pairs`: its line has to be the same in both, and so
//! have the gains of every other client that is indifferent at the end, since the join or change of type that made it so.
//!
//! With `alone` the second program is not asked for counts: what fails then are the program's counts by its own printout.

use second::core::{Call, INDIFFERENT, PLACES, PRIVATE};
use tests::arguments::Arguments;
use tests::lines::line_of;
use tests::pair::{Pair, Side};
use tests::program::{run, run_counts, shown};
use tests::random::Random;
use tests::recount::{Account, Accounts, Counts};
use tests::scripts;
use tests::shrink;

/// A run of this many seeds must have met everything that is counted.
const ENOUGH: u64 = 200;

/// The longest text that is read.
const LONGEST: usize = 60_000;

/// How often what came up, to show that the run was not idle. The last are of the pairs, the others of the scripts.
struct Tally {
    counts: [u64; KINDS.len()],
    lines: u64,
    lines_of_pairs: u64,
}

const KINDS: [&str; 21] = [
    "sheets with packets accepted",
    "sheets with packets sent",
    "sheets with packets refused with 14",
    "sheets with packets refused with 15",
    "sheets with packets emptied out",
    "sheets with dummies sent",
    "sheets with packets waiting",
    "sheets of private clients",
    "sheets of indifferent clients",
    "sheets of clients that changed their type",
    "sheets of clients that left and joined again",
    "sheets with nothing but zeros",
    "sheets with a 14 and a 15",
    "sheets with all six counts above zero",
    "texts without a sheet",
    "texts refused with 18",
    "pairs with a sheet of the chosen client that is not all zeros",
    "indifferent clients at the end of a pair, besides the chosen one",
    "of these, with a gain",
    "of these, with a gain behind a change of type",
    "indifferent clients whose whole sheets differ, but not the gains",
];

/// How many of the kinds are of scripts.
const OF_SCRIPTS: usize = 16;

impl Tally {
    /// What was held of a script; nothing for a text that is too long.
    fn add_script(&mut self, accounts: Option<&Accounts>) {
        let Some(accounts) = accounts else {
            self.counts[15] += 1;
            return;
        };
        for (_, account) in accounts.active() {
            self.add_sheet(account);
            self.lines += 1;
        }
        self.counts[14] += u64::from(accounts.active().next().is_none());
    }

    fn add_sheet(&mut self, account: &Account) {
        let counts = account.counts;
        for (place, count) in counts.iter().enumerate() {
            self.counts[place] += u64::from(*count > 0);
        }
        let met = [
            account.waiting() > 0,
            !account.is_indifferent(),
            account.is_indifferent(),
            account.changed_type,
            account.joined_again,
            counts == [0; 6],
            counts[2] > 0 && counts[3] > 0,
            counts.iter().all(|&count| count > 0),
        ];
        for (count, met) in self.counts[6..].iter_mut().zip(met) {
            *count += u64::from(met);
        }
    }

    fn add_pair(&mut self, held: &Held) {
        for (count, more) in self.counts[OF_SCRIPTS..].iter_mut().zip(held.met) {
            *count += more;
        }
        self.lines_of_pairs += held.lines;
    }

    /// Prints the counts; false if one is 0.
    fn print(&self) -> bool {
        for (name, count) in KINDS.iter().zip(&self.counts) {
            println!("{}: {}", name, count);
        }
        self.counts.iter().all(|&count| count > 0)
    }
}

/// The first line in which two printouts differ, in words.
fn difference(is: &[u8], should: &[u8]) -> String {
    let lines = |text: &[u8]| -> Vec<String> { text.split_inclusive(|&byte| byte == b'\n').map(shown).collect() };
    let (is, should) = (lines(is), lines(should));
    let at = (0..is.len().max(should.len())).find(|&at| is.get(at) != should.get(at)).unwrap_or(0);
    let line = |of: &[String]| of.get(at).map_or("nothing".to_string(), |line| line.trim_end().to_string());
    format!("line {} is {}, not {}", at + 1, line(&is), line(&should))
}

/// Holds the lines of `--counts` against the second program's, and against those that the printout gives; in words, what is wrong.
/// No accounts come of a text that is too long.
fn hold(program: &str, text: &[u8], alone: bool) -> Result<Option<Accounts>, String> {
    let sheets = run_counts(program, text);
    if !sheets.ended_well {
        return Err("the program did not end well".to_string());
    }
    let wanted = second::counts::sheets(text);
    if !alone && sheets.printout != wanted {
        return Err(format!("not as in the second program: {}", difference(&sheets.printout, &wanted)));
    }
    if text.len() > LONGEST {
        let refused = sheets.printout == b"(refused 18)\n";
        return if refused { Ok(None) } else { Err("too long a text is not refused with 18".to_string()) };
    }
    let accounts = Accounts::of(text, &run(program, text))?;
    let recounted = accounts.lines().into_bytes();
    if sheets.printout != recounted {
        return Err(format!("not as recounted from the printout: {}", difference(&sheets.printout, &recounted)));
    }
    Ok(Some(accounts))
}

/// What came of a pair that holds: how often each kind of it was met.
struct Held {
    met: [u64; KINDS.len() - OF_SCRIPTS],
    lines: u64,
}

/// "The chosen client's sheet is as private as its queue. [..] for a client that is indifferent, what is the same is what each
/// count has gained after the join or change that made it so". In words, what is wrong. The lines of either text are held as those
/// of a script, so that the accounts have what the program printed.
fn hold_pair(program: &str, pair: &Pair, alone: bool) -> Result<Held, String> {
    let of_text = |side: Side| {
        let held = hold(program, &pair.text(side), alone).map_err(|words| format!("{:?} text: {}", side, words));
        held.map(|accounts| accounts.expect("a pair is short enough"))
    };
    let (one, other) = (of_text(Side::First)?, of_text(Side::Second)?);
    let (line, twin) = (one.line(pair.chosen), other.line(pair.chosen));
    if line != twin {
        return Err(format!("the sheets of client {} differ: {}", pair.chosen, both(line, twin)));
    }
    let mut held = Held { met: [0; KINDS.len() - OF_SCRIPTS], lines: u64::from(line.is_some()) };
    held.met[0] = u64::from(one.get(pair.chosen).is_some_and(|account| account.counts != [0; 6]));
    for id in (0..64).filter(|&id| id != pair.chosen) {
        let (gains, twins) = (gains_of(&one, id), gains_of(&other, id));
        if gains != twins {
            return Err(format!("the gains of client {} differ: {:?} and {:?}", id, gains, twins));
        }
        let Some(gains) = gains else {
            continue;
        };
        let gained = gains != [0; 6];
        let changed = one.get(id).is_some_and(|account| account.changed_type);
        let met = [true, gained, gained && changed, one.line(id) != other.line(id)];
        for (count, met) in held.met[1..].iter_mut().zip(met) {
            *count += u64::from(met);
        }
        held.lines += 1;
    }
    Ok(held)
}

/// Of a client that is indifferent at the end.
fn gains_of(accounts: &Accounts, id: u32) -> Option<Counts> {
    accounts.get(id).filter(|account| account.is_indifferent()).map(Account::gains)
}

fn both(line: Option<String>, twin: Option<String>) -> String {
    let word = |line: Option<String>| line.map_or("no line".to_string(), |line| line.trim_end().to_string());
    format!("{} and {}", word(line), word(twin))
}

fn report_script(program: &str, seed: u64, text: &[u8], words: &str, alone: bool) {
    println!("seed {}: {}", seed, words);
    let lines: Vec<&[u8]> = text.split_inclusive(|&byte| byte == b'\n').collect();
    let fails = &mut |lines: &[&[u8]]| hold(program, &lines.concat(), alone).is_err();
    let small = shrink::fewest(&lines, fails).concat();
    println!("smallest script: {}", hold(program, &small, alone).err().unwrap_or_default());
    report_text(program, &small);
}

fn report_text(program: &str, text: &[u8]) {
    println!("{} bytes:\n{}", text.len(), shown(text));
    println!("its printout:\n{}", shown(&run(program, text).printout));
    println!("its counts:\n{}", shown(&run_counts(program, text).printout));
}

/// Prints the smallest pair found that fails. What is left must have the same kept calls.
fn report_pair(program: &str, seed: u64, pair: &Pair, words: &str, alone: bool) {
    println!("seed {}: {}", seed, words);
    let chosen = pair.chosen;
    let lines = shrink::fewest(&pair.lines, &mut |lines| {
        let candidate = Pair { chosen, lines: lines.to_vec() };
        candidate.agrees() && hold_pair(program, &candidate, alone).is_err()
    });
    let small = Pair { chosen, lines };
    println!("smallest pair, chosen client {}: {}", chosen, hold_pair(program, &small, alone).err().unwrap_or_default());
    for side in [Side::First, Side::Second] {
        print!("\n{:?} text, ", side);
        report_text(program, &small.text(side));
    }
}

/// The script of a seed. Few clients meet a full queue, send dummies and change their type, all behind one join, so that one script in
/// eight ends with a client that does. What is in front of it may have no line feed at its end.
fn script_of(seed: u64) -> Vec<u8> {
    let mut text = scripts::script(seed);
    if seed % 8 == 3 {
        for call in busy(&mut Random::new(!seed)) {
            text.push(b'\n');
            text.extend(line_of(&call));
        }
        text.push(b'\n');
    }
    text
}

/// The calls of a client that is alone, with something for each of the six counts.
fn busy(random: &mut Random) -> Vec<Call> {
    let id = random.between(0, 63);
    let (discipline, seed) = (random.between(0, 1), random.between(1, 4294967295));
    let mut calls = vec![
        Call::Open { threshold: 1024, discipline, seed },
        Call::Join { id, kind: PRIVATE, rate: random.between(1, 1024), burst: 0 },
        Call::Load { id, count: random.between(1, 255) },
    ];
    let (rate, burst) = (random.between(1, 1024), random.between(1, 64));
    let packet = Call::Arrive { id, handle: random.handle(), length: random.between(64, 1518) };
    let parts = [
        (0, Call::Tick),
        (PLACES, packet.clone()),
        (0, Call::Tick),
        (0, packet.clone()),
        (0, Call::Change { id, kind: INDIFFERENT, rate, burst }),
        (0, packet.clone()),
        (random.below(40), Call::Tick),
        (0, packet),
        (0, Call::Tick),
    ];
    for (more, call) in parts {
        calls.extend(vec![call; more + 1 + random.below(4)]);
    }
    calls
}

/// The script and the pair of one seed; ends the program if one of them fails.
fn one_seed(program: &str, seed: u64, alone: bool, tally: &mut Tally) {
    let text = script_of(seed);
    match hold(program, &text, alone) {
        Ok(accounts) => tally.add_script(accounts.as_ref()),
        Err(words) => {
            report_script(program, seed, &text, &words, alone);
            std::process::exit(1);
        }
    }
    let pair = Pair::from_seed(seed);
    assert!(pair.agrees(), "seed {} gives no pair", seed);
    match hold_pair(program, &pair, alone) {
        Ok(held) => tally.add_pair(&held),
        Err(words) => {
            report_pair(program, seed, &pair, &words, alone);
            std::process::exit(1);
        }
    }
}

fn main() {
    let arguments = Arguments::read("counts PROGRAM FIRST_SEED COUNT [alone]");
    let mut tally = Tally { counts: [0; KINDS.len()], lines: 0, lines_of_pairs: 0 };
    for seed in arguments.seeds() {
        one_seed(&arguments.program, seed, arguments.alone, &mut tally);
    }
    let complete = tally.print();
    let compared = if arguments.alone { "" } else { "compared and " };
    println!(
        "{}recounted {} count sheets of {} scripts, and compared {} of the two texts of as many pairs: no difference",
        compared, tally.lines, arguments.count, tally.lines_of_pairs
    );
    if arguments.count >= ENOUGH && !complete {
        println!("but not everything that is counted came up");
        std::process::exit(1);
    }
}
