//! The calls of a long run, made from a seed (docs/LONG_RUNS.md, "The calls").

use crate::core::{xorshift32, Call, INDIFFERENT};

/// "Busy times and quiet times take turns".
#[derive(Debug, Clone, Copy, PartialEq, Eq)]
pub enum Time {
    Busy,
    Quiet,
}

impl Time {
    /// "a busy time ends with it and a quiet one begins, or the other way round."
    fn other(self) -> Time {
        match self {
            Time::Busy => Time::Quiet,
            Time::Quiet => Time::Busy,
        }
    }
}

/// "A maker of calls keeps one 32-bit value v, at first the seed", and whether its time is busy or
/// quiet.
pub struct Maker {
    v: u32,
    time: Time,
}

impl Maker {
    /// "the first is busy."
    pub fn new(seed: u32) -> Maker {
        Maker { v: seed, time: Time::Busy }
    }

    /// "A draw steps it by xorshift32 ... and gives the new v."
    fn draw(&mut self) -> u32 {
        self.v = xorshift32(self.v);
        self.v
    }

    /// "Each call takes four draws, a, b, c and d, in this order, whatever call it is."
    pub fn draws(&mut self) -> [u32; 4] {
        let a = self.draw();
        let b = self.draw();
        let c = self.draw();
        let d = self.draw();
        [a, b, c, d]
    }

    /// The next call of a long run: the table of calls, "With k = a mod 16384". "A call with
    /// k = 16380 or above is the last of its time".
    pub fn next_call(&mut self) -> Call {
        let [a, b, c, d] = self.draws();
        let k = a % 16384;
        let call = call(self.time, k, b, c, d);
        if k >= 16380 {
            self.time = self.time.other();
        }
        call
    }
}

/// "if b / 65536 is odd", and the same of d.
fn is_odd(draw: u32) -> bool {
    (draw / 65536) % 2 == 1
}

/// "An id is made from b: b mod 66 if b / 65536 is odd, b mod 8 if it is even."
fn id_of(b: u32) -> u32 {
    if is_odd(b) {
        b % 66
    } else {
        b % 8
    }
}

/// "A rate is d mod 1025 for id 0, and d mod 17 for any other id."
fn rate_of(id: u32, d: u32) -> u32 {
    if id == 0 {
        d % 1025
    } else {
        d % 17
    }
}

/// "A burst for type 1 is (d / 64) mod 66 if d / 65536 is odd, 64 if it is even; for any other type
/// it is ((d / 64) mod 66) / 65."
fn burst_of(kind: u32, d: u32) -> u32 {
    let burst = (d / 64) % 66;
    if kind != INDIFFERENT {
        burst / 65
    } else if is_odd(d) {
        burst
    } else {
        64
    }
}

/// Of an open: "threshold b mod 1026 if b / 65536 is odd, 1024 if it is even".
fn threshold_of(b: u32) -> u32 {
    if is_odd(b) {
        b % 1026
    } else {
        1024
    }
}

/// "arrive: id, a packet with handle c · 4294967296 + d and length 63 + c mod 1457"
pub fn arrival(id: u32, c: u32, d: u32) -> Call {
    let handle = u64::from(c) * 4294967296 + u64::from(d);
    Call::Arrive { id, handle, length: 63 + c % 1457 }
}

/// The table of calls, by k. From 1765 to 15600 it is "in a busy time arrive ...; in a quiet time
/// tick".
pub fn call(time: Time, k: u32, b: u32, c: u32, d: u32) -> Call {
    let id = id_of(b);
    let kind = c % 3; // "A type is c mod 3."
    let rate = rate_of(id, d);
    let burst = burst_of(kind, d);
    match k {
        0 => Call::Open { threshold: threshold_of(b), discipline: c % 3, seed: d % 6 * 316840187 },
        1..=640 => Call::Join { id, kind, rate, burst },
        641..=720 => Call::Change { id, kind, rate, burst },
        721..=740 => Call::Leave { id },
        741..=1764 => Call::Load { id, count: c % 130 },
        1765..=15600 if time == Time::Busy => arrival(id, c, d),
        _ => Call::Tick,
    }
}
