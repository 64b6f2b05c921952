//! A long run with a greedy client: `greedy SEED BLOCKS` makes calls from a seed, among which
//! client 9 "offers packets until it is refused 15" (paper 02, S-10), and prints, after each block,
//! the check, how many offerings ended and how many of them were exact. Sentences quoted without a
//! paper's number are those of docs/LONG_RUNS.md, "With a greedy client".

mod core;
#[allow(dead_code)] // `next_call` is of the other long runs
mod maker;
mod tally;

use crate::core::{Answer, Call, Core, INDIFFERENT};
use crate::maker::{arrival, call, Maker, Time};
use crate::tally::{arguments, mix_answer, BLOCK};

/// "a long run in which client 9 offers so"
const GREEDY: u32 = 9;

/// "Beside them the run keeps a phase; of the stretch its rate R, its level at the start L, its
/// ticks n and the packets accepted g; and two sums, the offerings F that ended and those E that
/// were exact. All are numbers of 32 bits, 0 at first".
#[derive(Default)]
struct Run {
    phase: u32,
    rate: u32,     // R
    level: u32,    // L
    ticks: u32,    // n
    accepted: u32, // g
    ended: u32,    // F
    exact: u32,    // E
}

/// "rate 1 + c mod 1024"
fn rate_of(c: u32) -> u32 {
    1 + c % 1024
}

/// "On an unopened core the level of client 9 is 0"; and so it is where 9 is not active.
fn level_of(core: &Core) -> u32 {
    if let Some(opened) = &core.opened {
        if let Some(client) = &opened.clients[GREEDY as usize] {
            return client.level;
        }
    }
    0
}

/// "a count begins again at 0 behind 4294967295."
fn one_more(count: u32) -> u32 {
    count.wrapping_add(1)
}

impl Run {
    /// "The phase says which call comes next": the column "call".
    fn next_call(&self, [a, b, c, d]: [u32; 4]) -> Call {
        match self.phase {
            0 => Call::Open { threshold: 1024, discipline: c % 2, seed: d },
            1 => Call::Join { id: GREEDY, kind: INDIFFERENT, rate: rate_of(c), burst: 2 + d % 63 },
            3 => arrival(GREEDY, c, d),
            4..=7 => call(Time::Busy, 1 + a % 15600, b % 65536, c, d),
            _ => Call::Tick, // phases 2 and 8
        }
    }

    /// The column "then". "A phase goes on as said whatever its call got, where nothing else is
    /// said." `level` is that of client 9 after the call.
    fn then(&mut self, [_, _, c, d]: [u32; 4], answer: &Answer, level: u32) {
        self.phase = match self.phase {
            1 => {
                self.rate = rate_of(c);
                2
            }
            2 if d % 64 == 0 => self.start(level),
            2 => 2,
            3 => self.after_offer(answer),
            8 => {
                self.ticks = one_more(self.ticks);
                if d % 1024 == 0 { 0 } else { 3 }
            }
            phase => phase + 1, // 0, and 4 to 7: "the next phase"
        };
    }

    /// "the stretch starts: L becomes the level of client 9 after this tick, n and g become 0,
    /// phase 3".
    fn start(&mut self, level: u32) -> u32 {
        self.level = level;
        self.ticks = 0;
        self.accepted = 0;
        3
    }

    /// "if it was accepted, g + 1 and phase 3. If it was refused with 15 the offering ends: F + 1;
    /// E + 1 if g = (L + n · R) / 1024; phase 4. If with 14, phase 0; else phase 3".
    fn after_offer(&mut self, answer: &Answer) -> u32 {
        match *answer {
            Answer::Accepted => {
                self.accepted = one_more(self.accepted);
                3
            }
            Answer::Refused(15) => {
                self.ended = one_more(self.ended);
                if u64::from(self.accepted) == self.bought() {
                    self.exact = one_more(self.exact);
                }
                4
            }
            Answer::Refused(14) => 0,
            _ => 3,
        }
    }

    /// Paper 02, S-10: "exactly (level at the start + n × rate) / 1024, rounded down."
    fn bought(&self) -> u64 {
        (u64::from(self.level) + u64::from(self.ticks) * u64::from(self.rate)) / 1024
    }
}

fn main() {
    let (seed, blocks) = arguments("greedy");
    let mut maker = Maker::new(seed);
    let mut core = Core::new(); // "The first call is made on an unopened core."
    let mut check: u32 = 0;
    let mut run = Run::default();
    for block in 1..=blocks {
        for _ in 0..BLOCK {
            let draws = maker.draws();
            let answer = core.perform(&run.next_call(draws));
            run.then(draws, &answer, level_of(&core));
            check = mix_answer(check, &answer);
        }
        println!("(calls {} check {} offerings {} exact {})", block * BLOCK, check, run.ended,
                 run.exact);
    }
}
