//! `compare SLOTS FIRST_SEED COUNT`: sends scripts through a program and through the second
//! program and compares every byte of the printouts.

use second::core::{Answer, Call, Core, Outcome, INDIFFERENT};
use second::script::{parse, Line, LARGEST_HANDLE};
use tests::arguments::Arguments;
use tests::buckets::Buckets;
use tests::difference::{expected, report};
use tests::program::run;
use tests::scripts;

/// How often each number and each outcome came up, and what was met at buckets and queues, to show
/// that the run was not idle.
struct Tally {
    numbers: [u64; 20],
    outcomes: [u64; 5],
    long_handles: u64,
    buckets: Buckets,
    lines: u64,
    bytes: u64,
}

const OUTCOMES: [&str; 5] = ["real of indifferent", "real of private", "dummy", "idle", "none"];

/// A run of this many scripts must have met everything that is counted and that a script can reach.
const ENOUGH: u64 = 1000;

/// "type not 1 or 2": no form of the grammar can carry such a type.
const UNREACHABLE: usize = 7;

impl Tally {
    /// Follows a script line by line, since the printout alone does not tell the type of the
    /// client that sent a packet.
    fn add(&mut self, text: &[u8], printout: &[u8]) {
        self.lines += printout.iter().filter(|&&byte| byte == b'\n').count() as u64;
        self.bytes += printout.len() as u64;
        if printout == b"(refused 18)\n" && text.len() > 60_000 {
            self.numbers[18] += 1;
            return;
        }
        let mut core = Core::new();
        for line in text.split_inclusive(|&byte| byte == b'\n') {
            let Some(line) = line.strip_suffix(b"\n") else {
                self.numbers[16] += 1;
                return;
            };
            match parse(line) {
                Line::Refused(number) => self.numbers[number as usize] += 1,
                Line::Form(call) => self.add_call(&mut core, &call),
            }
        }
    }

    fn add_call(&mut self, core: &mut Core, call: &Call) {
        match self.buckets.perform(core, call) {
            Answer::Accepted => {}
            Answer::Refused(number) => self.numbers[number as usize] += 1,
            Answer::Slot(outcome) => {
                if let Outcome::Real { handle, .. } = outcome {
                    self.long_handles += u64::from(handle > 4294967295);
                }
                let place = match outcome {
                    Outcome::Real { id, .. } if is_indifferent(core, id) => 0,
                    Outcome::Real { .. } => 1,
                    Outcome::Dummy { .. } => 2,
                    Outcome::Idle { .. } => 3,
                    Outcome::Nobody => 4,
                };
                self.outcomes[place] += 1;
            }
        }
    }

    /// Prints the counts; false if something that a script can reach never came up.
    fn print(&self) -> bool {
        let mut complete = true;
        for number in 1..20 {
            println!("number {}: {}", number, self.numbers[number]);
            complete &= self.numbers[number] > 0 || number == UNREACHABLE;
        }
        for place in 0..5 {
            println!("{}: {}", OUTCOMES[place], self.outcomes[place]);
            complete &= self.outcomes[place] > 0;
        }
        println!("real, with a handle above 4294967295: {}", self.long_handles);
        complete &= self.long_handles > 0 || LARGEST_HANDLE <= 4294967295;
        self.buckets.print() && complete
    }
}

/// A tick changes no type, so the type after it is the type at it.
fn is_indifferent(core: &Core, id: u32) -> bool {
    let opened = core.opened.as_ref().expect("a slot comes from an opened core");
    opened.clients[id as usize].as_ref().is_some_and(|client| client.kind == INDIFFERENT)
}

fn main() {
    let arguments = Arguments::read("compare SLOTS FIRST_SEED COUNT");
    let program = &arguments.program;
    let mut tally =
        Tally { numbers: [0; 20], outcomes: [0; 5], long_handles: 0, buckets: Buckets::new(), lines: 0, bytes: 0 };
    for seed in arguments.seeds() {
        let text = scripts::script(seed);
        let wanted = expected(second::script::run, &text);
        if run(program, &text) != wanted {
            println!("seed {}: the printouts differ", seed);
            report(program, second::script::run, &text);
            std::process::exit(1);
        }
        tally.add(&text, &wanted.printout);
    }
    let complete = tally.print();
    println!(
        "compared {} scripts, {} lines, {} bytes: no difference",
        arguments.count, tally.lines, tally.bytes
    );
    if arguments.count >= ENOUGH && !complete {
        println!("but not everything that is counted came up");
        std::process::exit(1);
    }
}
