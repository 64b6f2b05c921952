//! `switching PROGRAM FIRST_SEED COUNT`: S-4 of paper 02, "Buckets begin empty". Two bounds on a client that switches its type.
//!
//! For each seed a script goes through a program. In it a client joins, switches its type, changes its rate and burst, leaves,
//! joins again, and offers packets all the time. Its spells are its times as an indifferent client, each from the join or change
//! that made it so to the call that ends it. Of the packets that it offers in spells no more may be accepted than n × R / 1024, with
//! n its ticks in spells and R the largest rate that it had at one of them; nor, in any one spell and so in all of them together,
//! more than the sum of the rates that it had at the spell's ticks / 1024, rounded down for each spell.
//!
//! All of this is read off the script and the printout: no core of the second program says what is accepted.

use second::core::{Call, INDIFFERENT};
use second::script::{parse, Line};
use tests::arguments::Arguments;
use tests::history::{printed_lines, slot};
use tests::program::{run, shown};
use tests::scripts::switches::Switching;
use tests::shrink;

/// A run of this many scripts must have met everything that is counted.
const ENOUGH: u64 = 1000;

/// A packet takes so many shares from the bucket.
const TOKEN: u64 = 1024;

/// One spell: its ticks, the rates at them together, and the packets accepted.
struct Spell {
    ticks: u64,
    shares: u64,
    accepted: u64,
}

/// What a script and its printout say of one client.
struct Account {
    id: u32,
    /// Its rate, within a spell.
    rate: Option<u32>,
    highest_rate: u64,
    spells: Vec<Spell>,
    counts: [u64; OF_CALLS.len()],
}

/// What its calls met.
const OF_CALLS: [&str; 5] = [
    "spells that a join began",
    "spells that a change began",
    "changes of rate and burst in a spell",
    "joins and changes of it in a spell that were refused",
    "packets in a spell that were refused",
];

impl Account {
    fn new(id: u32) -> Account {
        Account { id, rate: None, highest_rate: 0, spells: Vec::new(), counts: [0; OF_CALLS.len()] }
    }

    /// What a call that was accepted says.
    fn accepted(&mut self, call: &Call) {
        match *call {
            Call::Open { .. } => self.rate = None,
            Call::Leave { id } if id == self.id => self.rate = None,
            Call::Join { id, kind, rate, .. } if id == self.id => self.settle(0, kind, rate),
            Call::Change { id, kind, rate, .. } if id == self.id => self.settle(1, kind, rate),
            Call::Arrive { id, .. } if id == self.id && self.rate.is_some() => {
                self.spell().accepted += 1;
            }
            _ => {}
        }
    }

    /// A join or change: `begun` is the count of spells that its kind of call began.
    fn settle(&mut self, begun: usize, kind: u32, rate: u32) {
        if kind != INDIFFERENT {
            self.rate = None;
            return;
        }
        if self.rate.is_none() {
            self.spells.push(Spell { ticks: 0, shares: 0, accepted: 0 });
        }
        self.counts[if self.rate.is_none() { begun } else { 2 }] += 1;
        self.rate = Some(rate);
    }

    fn refused(&mut self, call: &Call) {
        match *call {
            _ if self.rate.is_none() => {}
            Call::Join { id, .. } | Call::Change { id, .. } if id == self.id => self.counts[3] += 1,
            Call::Arrive { id, .. } if id == self.id => self.counts[4] += 1,
            _ => {}
        }
    }

    fn tick(&mut self) {
        if let Some(rate) = self.rate {
            self.spell().ticks += 1;
            self.spell().shares += u64::from(rate);
            self.highest_rate = self.highest_rate.max(u64::from(rate));
        }
    }

    fn spell(&mut self) -> &mut Spell {
        self.spells.last_mut().expect("a rate is that of a spell")
    }

    /// All packets accepted in spells.
    fn packets(&self) -> u64 {
        self.spells.iter().map(|spell| spell.accepted).sum()
    }

    /// (n × R) / 1024.
    fn most(&self) -> u64 {
        let ticks: u64 = self.spells.iter().map(|spell| spell.ticks).sum();
        ticks * self.highest_rate / TOKEN
    }

    /// The sum over the spells.
    fn bought(&self) -> u64 {
        self.spells.iter().map(|spell| spell.shares / TOKEN).sum()
    }

    /// What is wrong, in words.
    fn judge(self) -> Result<Account, String> {
        let (packets, most) = (self.packets(), self.most());
        let over = |spell: &&Spell| spell.accepted > spell.shares / TOKEN;
        if packets > most {
            return Err(format!("{} packets accepted, and n × R / 1024 is {}", packets, most));
        }
        if let Some(spell) = self.spells.iter().find(over) {
            return Err(format!("{} packets in a spell of {} shares", spell.accepted, spell.shares));
        }
        Ok(self)
    }
}

/// Runs a script and holds what the client got against both bounds.
fn hold(program: &str, id: u32, text: &[u8]) -> Result<Account, String> {
    let lines: Vec<&[u8]> = text.split_inclusive(|&byte| byte == b'\n').collect();
    let run = run(program, text);
    let mut account = Account::new(id);
    for (line, answer) in lines.iter().zip(printed_lines(lines.len(), &run)?) {
        let Some(Line::Form(call)) = line.strip_suffix(b"\n").map(parse) else {
            continue;
        };
        match answer {
            b"(ok)\n" => account.accepted(&call),
            answer if answer.starts_with(b"(refused ") => account.refused(&call),
            answer if call == Call::Tick && slot(answer).is_some() => account.tick(),
            answer => return Err(format!("no answer: {}", answer.escape_ascii())),
        }
    }
    account.judge()
}

/// How often what came up, to show that the run was not idle.
struct Tally {
    of_calls: [u64; OF_CALLS.len()],
    of_scripts: [u64; OF_SCRIPTS.len()],
    spells: u64,
    packets: u64,
}

const OF_SCRIPTS: [&str; 8] = [
    "scripts with exactly n × R / 1024 packets",
    "of these, with packets in several spells",
    "scripts with fewer than n × R / 1024",
    "scripts with exactly as many packets as the spells bought",
    "of these, with packets in several spells",
    "scripts with fewer than the spells bought",
    "scripts in which nothing was bought",
    "spells without a tick",
];

impl Tally {
    fn add(&mut self, account: &Account) {
        let (packets, most, bought) = (account.packets(), account.most(), account.bought());
        let several = account.spells.iter().filter(|spell| spell.accepted > 0).count() > 1;
        let met = [
            most > 0 && packets == most,
            most > 0 && packets == most && several,
            packets < most,
            bought > 0 && packets == bought,
            bought > 0 && packets == bought && several,
            packets < bought,
            bought == 0,
        ];
        for (count, met) in self.of_scripts.iter_mut().zip(met) {
            *count += u64::from(met);
        }
        for (count, more) in self.of_calls.iter_mut().zip(account.counts) {
            *count += more;
        }
        self.of_scripts[7] += account.spells.iter().filter(|spell| spell.ticks == 0).count() as u64;
        self.spells += account.spells.len() as u64;
        self.packets += packets;
    }

    /// Prints the counts; false if one is 0.
    fn print(&self) -> bool {
        let names = OF_SCRIPTS.iter().chain(&OF_CALLS);
        let counts = self.of_scripts.iter().chain(&self.of_calls);
        for (name, count) in names.zip(counts.clone()) {
            println!("{}: {}", name, count);
        }
        counts.min() > Some(&0)
    }
}

/// Prints the smallest script found that still breaks a bound.
fn report(program: &str, seed: u64, script: &Switching, words: &str) {
    println!("seed {}: client {}: {}", seed, script.id, words);
    let lines: Vec<&[u8]> = script.text.split_inclusive(|&byte| byte == b'\n').collect();
    let fails = &mut |lines: &[&[u8]]| hold(program, script.id, &lines.concat()).is_err();
    let small = shrink::fewest(&lines, fails).concat();
    let words = hold(program, script.id, &small).err().unwrap_or_default();
    println!("smallest script, {} bytes: {}\n{}", small.len(), words, shown(&small));
    println!("its printout:\n{}", shown(&run(program, &small).printout));
}

fn main() {
    let arguments = Arguments::read("switching PROGRAM FIRST_SEED COUNT");
    let program = &arguments.program;
    let mut tally = Tally {
        of_calls: [0; OF_CALLS.len()], of_scripts: [0; OF_SCRIPTS.len()], spells: 0, packets: 0,
    };
    for seed in arguments.seeds() {
        let script = Switching::from_seed(seed);
        match hold(program, script.id, &script.text) {
            Ok(account) => tally.add(&account),
            Err(words) => {
                report(program, seed, &script, &words);
                std::process::exit(1);
            }
        }
    }
    let complete = tally.print();
    println!(
        "held {} scripts of a client that switches against what it bought, {} spells, {} packets: none had more",
        arguments.count, tally.spells, tally.packets
    );
    if arguments.count >= ENOUGH && !complete {
        println!("but not everything that is counted came up");
        std::process::exit(1);
    }
}
