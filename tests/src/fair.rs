//! `fair FAIR FIRST_SEED COUNT [alone]`: S-8 of paper 02, fair rates when all want more.
//!
//! For each seed a text goes through the program FAIR and through the second program, and every
//! byte is compared. Then what FAIR printed is held against the sentences of the request and two
//! more: a larger threshold takes from nobody, and raising one's own demand does not lower one's rate.
//! For these the program is run again with such a text.
//!
//! With `alone` the second program is not asked: what fails then is a sentence.

use tests::arguments::Arguments;
use tests::demands::{self, List, MAKERS, OVER_64, REASONS};
use tests::difference::{print_run, smallest};
use tests::program::{run, shown};
use tests::random::Random;

/// A run of this many texts must have met everything that is counted.
const ENOUGH: u64 = 1000;

/// What is counted beside the reasons and the makers; the first four are answers.
const KINDS: [&str; 12] = [
    "(refused 16)",
    "(refused 17)",
    "(refused 18)",
    "(refused 22)",
    "empty lists, which print nothing",
    "all demands met, and less than the threshold used",
    "all demands met, and the threshold used up",
    "demands cut, and no share left over",
    "demands cut, and shares left over",
    "demands cut, and a demand that is the level",
    "larger thresholds tried",
    "raised demands tried",
];

/// How often what came up, to show that the run was not idle.
struct Tally {
    kinds: [u64; KINDS.len()],
    reasons: [u64; REASONS.len()],
    makers: [u64; MAKERS.len()],
    texts: u64,
    bytes: u64,
}

impl Tally {
    fn add(&mut self, maker: usize, held: &Held) {
        self.makers[maker] += 1;
        self.texts += 1;
        self.bytes += held.printout.len() as u64;
        for (count, answer) in self.kinds.iter_mut().zip(&KINDS[..4]) {
            *count += u64::from(held.printout == format!("{}\n", answer).as_bytes());
        }
        if let Some(list) = &held.list {
            self.add_list(list, &held.rates);
        }
    }

    fn add_list(&mut self, list: &List, rates: &[u32]) {
        let reasons = list.reasons();
        let there = reasons.iter().filter(|&&reason| reason).count();
        for (place, &reason) in reasons.iter().enumerate() {
            self.reasons[place] += u64::from(reason && (there == 1 || place == OVER_64));
        }
        if there > 0 {
            return;
        }
        self.kinds[10] += u64::from(list.threshold < 1024);
        if rates.is_empty() {
            self.kinds[4] += 1;
            return;
        }
        self.kinds[11] += u64::from(raised(list, 0).is_some());
        let cut = |((_, demand), rate): (&(u32, u32), &u32)| (rate < demand).then_some(*rate);
        // Not all who are above the level get a share more, and who gets none is cut.
        let Some(level) = list.demands.iter().zip(rates).filter_map(cut).min() else {
            let used_up = rates.iter().sum::<u32>() == list.threshold;
            self.kinds[if used_up { 6 } else { 5 }] += 1;
            return;
        };
        let left_over = rates.iter().any(|&rate| rate > level);
        self.kinds[if left_over { 8 } else { 7 }] += 1;
        self.kinds[9] += u64::from(list.demands.iter().any(|&(_, demand)| demand == level));
    }

    /// Prints the counts and the sum; false if a count is 0.
    fn print(&self, alone: bool) -> bool {
        let kinds = KINDS.iter().map(|name| name.to_string());
        let reasons = REASONS.iter().enumerate().map(|(place, name)| match place {
            OVER_64 => format!("22 for {}", name),
            _ => format!("22 for {} alone", name),
        });
        let makers = MAKERS.iter().map(|(name, _)| format!("texts: {}", name));
        let counts = [&self.kinds[..], &self.reasons, &self.makers].concat();
        for (name, count) in kinds.chain(reasons).chain(makers).zip(&counts) {
            println!("{}: {}", name, count);
        }
        let (did, found) = match alone {
            true => ("held", "against the sentences: none is broken"),
            false => ("compared", "and held them against the sentences: no difference"),
        };
        let (texts, bytes) = (self.texts, self.bytes);
        println!("{} {} texts of demands, {} bytes printed, {}", did, texts, bytes, found);
        counts.iter().all(|&count| count > 0)
    }
}

/// What came of a text of which nothing is wrong. A text that is no list has none, and a list that
/// is refused has no rates.
struct Held {
    list: Option<List>,
    printout: Vec<u8>,
    rates: Vec<u32>,
}

/// Runs the program on a text; in words, what is wrong. The seed says with what it is run again.
fn hold(program: &str, seed: u64, text: &[u8], alone: bool) -> Result<Held, String> {
    let found = run(program, text);
    if !found.ended_well {
        return Err("it did not end well".to_string());
    }
    if !alone && found.printout != second::fair::run(text) {
        return Err("the printouts differ".to_string());
    }
    let (list, printout) = (List::of_text(text), found.printout);
    let rates = match &list {
        None => no_rates(&[16, 17, 18], &printout)?,
        Some(list) if list.reasons().contains(&true) => no_rates(&[22], &printout)?,
        Some(list) => {
            let rates = rates_of(list, &printout)?;
            sentences(list, &rates)?;
            try_larger(program, seed, list, &rates)?;
            try_raised(program, seed, list, &rates)?;
            rates
        }
    };
    Ok(Held { list, printout, rates })
}

/// "no rate is then given": one of these refusals is all that is printed.
fn no_rates(numbers: &[u32], printout: &[u8]) -> Result<Vec<u32>, String> {
    let refusal = |number: &u32| format!("(refused {})\n", number).as_bytes() == printout;
    match numbers.iter().any(refusal) {
        true => Ok(Vec::new()),
        false => Err(format!("it should be refused with one of {:?}", numbers)),
    }
}

/// The rates of a list that there is no reason to refuse. Only the exact bytes are taken.
fn rates_of(list: &List, printout: &[u8]) -> Result<Vec<u32>, String> {
    if printout.starts_with(b"(refused ") {
        return Err("it is refused without a reason".to_string());
    }
    let words = String::from_utf8_lossy(printout);
    let last = |line: &str| line.trim_end_matches(')').rsplit(' ').next()?.parse().ok();
    let rates: Vec<u32> = words.lines().filter_map(last).collect();
    let line = |((id, _), rate): (&(u32, u32), &u32)| format!("(rate {} {})\n", id, rate);
    let lines: String = list.demands.iter().zip(&rates).map(line).collect();
    if rates.len() == list.demands.len() && lines.as_bytes() == printout {
        Ok(rates)
    } else {
        Err("it has not the line of a rate for each demand in its order".to_string())
    }
}

/// The sentences on the rates of one list; the first that does not hold.
fn sentences(list: &List, rates: &[u32]) -> Result<(), String> {
    let demands = || list.demands.iter().map(|&(_, demand)| demand).zip(rates.iter().copied());
    let sum: u64 = rates.iter().map(|&rate| u64::from(rate)).sum();
    let most = rates.iter().copied().max().unwrap_or(0);
    // Behind whoever got less than demanded nobody has more: that one was above the level too, and
    // would have had the share first.
    let overtaken = |place: usize, rate: u32| rates[place..].iter().any(|&other| other > rate);
    let cut = || demands().enumerate().filter(|(_, (demand, rate))| rate < demand);
    let broken = if demands().any(|(demand, rate)| rate > demand) {
        "a demand is exceeded"
    } else if rates.contains(&0) {
        "a demand gets no share"
    } else if sum > u64::from(list.threshold) {
        "the rates pass the threshold"
    } else if cut().count() > 0 && sum < u64::from(list.threshold) {
        "the threshold is not used up, though not all demands are met"
    } else if cut().any(|(_, (_, rate))| rate + 1 < most) {
        "one that got less than demanded has two shares less than another"
    } else if cut().any(|(place, (_, rate))| overtaken(place, rate)) {
        "what is left does not go by rising id"
    } else {
        return Ok(());
    };
    Err(broken.to_string())
}

/// A larger threshold takes from nobody.
fn try_larger(program: &str, seed: u64, list: &List, rates: &[u32]) -> Result<(), String> {
    if list.threshold == 1024 {
        return Ok(());
    }
    let mut random = Random::new(seed);
    let any = random.between(list.threshold + 1, 1024);
    let threshold = random.pick(&[list.threshold + 1, any]);
    let larger = List { threshold, ..list.clone() };
    let with = |words: String| format!("with the threshold {}: {}", threshold, words);
    let given = rates_of(&larger, &run(program, &larger.text()).printout).map_err(with)?;
    match given.iter().zip(rates).any(|(given, rate)| given < rate) {
        true => Err(with("a larger threshold takes from someone".to_string())),
        false => Ok(()),
    }
}

/// The list with one demand raised, and its place; nothing if no demand can be.
fn raised(list: &List, seed: u64) -> Option<(usize, List)> {
    let raisable: Vec<usize> =
        (0..list.demands.len()).filter(|&place| list.demands[place].1 < 1024).collect();
    if raisable.is_empty() {
        return None;
    }
    let (mut random, mut list) = (Random::new(!seed), list.clone());
    let place = random.pick(&raisable);
    let next = list.demands[place].1 + 1;
    let any = random.between(next, 1024);
    list.demands[place].1 = random.pick(&[next, any, 1024]);
    Some((place, list))
}

/// With one demand raised its own rate is not lower.
fn try_raised(program: &str, seed: u64, list: &List, rates: &[u32]) -> Result<(), String> {
    let Some((place, raised)) = raised(list, seed) else {
        return Ok(());
    };
    let (id, demand) = raised.demands[place];
    let with = |words: String| format!("with a demand of {} for {}: {}", demand, id, words);
    let given = rates_of(&raised, &run(program, &raised.text()).printout).map_err(with)?;
    match given[place] < rates[place] {
        true => Err(with("a demand that is raised gets less".to_string())),
        false => Ok(()),
    }
}

/// Leaves out demands while the list still fails, each with the shares that it got: without these a
/// line that is left out would raise the level.
fn fewer_demands(program: &str, list: &List, fails: &mut dyn FnMut(&[u8]) -> bool) -> List {
    let mut list = list.clone();
    for place in (0..list.demands.len()).rev() {
        let rates = rates_of(&list, &run(program, &list.text()).printout);
        let mut fewer = list.clone();
        fewer.demands.remove(place);
        fewer.threshold = list.threshold.saturating_sub(rates.map_or(1, |rates| rates[place]));
        if fails(&fewer.text()) {
            list = fewer;
        }
    }
    list
}

/// The smallest text found that still fails.
fn smallest_text(program: &str, text: &[u8], fails: &mut dyn FnMut(&[u8]) -> bool) -> Vec<u8> {
    let mut text = text.to_vec();
    loop {
        let before = text.clone();
        if let Some(list) = List::of_text(&text).filter(|list| !list.reasons().contains(&true)) {
            text = fewer_demands(program, &list, fails).text();
        }
        text = smallest(&text, fails);
        if text == before {
            return text;
        }
    }
}

/// Prints the smallest text found of which something is wrong.
fn report(program: &str, seed: u64, text: &[u8], words: &str, alone: bool) {
    println!("seed {}: {}", seed, words);
    let fails = &mut |text: &[u8]| hold(program, seed, text, alone).is_err();
    let small = smallest_text(program, text, fails);
    let words = hold(program, seed, &small, alone).err().unwrap_or_default();
    println!("smallest text, {} bytes: {}\n{}", small.len(), words, shown(&small));
    print_run(program, &small);
    if !alone {
        println!("printout of the second program:\n{}", shown(&second::fair::run(&small)));
    }
}

fn main() {
    let arguments = Arguments::read("fair FAIR FIRST_SEED COUNT [alone]");
    let program = &arguments.program;
    let mut tally = Tally {
        kinds: [0; KINDS.len()],
        reasons: [0; REASONS.len()],
        makers: [0; MAKERS.len()],
        texts: 0,
        bytes: 0,
    };
    for seed in arguments.seeds() {
        let (maker, text) = demands::text(seed);
        match hold(program, seed, &text, arguments.alone) {
            Ok(held) => tally.add(maker, &held),
            Err(words) => {
                report(program, seed, &text, &words, arguments.alone);
                std::process::exit(1);
            }
        }
    }
    let complete = tally.print(arguments.alone);
    if arguments.count >= ENOUGH && !complete {
        println!("but not everything that is counted came up");
        std::process::exit(1);
    }
}
