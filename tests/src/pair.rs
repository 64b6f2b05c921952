//! Pairs of scripts with the same kept calls, from a seed.

use crate::crowds::Crowd;
use crate::history::{is_indifferent, History};
use crate::lines::{line_of, near_miss};
use crate::random::Random;
use crate::seeds::high_seed;
use second::core::{Call, Client, Core, INDIFFERENT, PLACES, PRIVATE};
use second::script::{parse, Line};

/// Which text a line stands in.
#[derive(Debug, Clone, Copy, PartialEq, Eq)]
pub enum Side {
    Both,
    First,
    Second,
}

/// Both texts, woven into one list of lines (without line feeds).
pub struct Pair {
    pub chosen: u32,
    pub lines: Vec<(Side, Vec<u8>)>,
}

/// The longest text that is read.
const LONGEST: usize = 60_000;

/// Struck-out lines stop here, so that the kept ones have room.
const MOST_BYTES: usize = 50_000;
const ROOM_FOR_KEPT: usize = 59_900;

impl Pair {
    pub fn from_seed(seed: u64) -> Pair {
        let mut maker = Maker::new(seed);
        maker.make();
        Pair { chosen: maker.chosen, lines: maker.lines }
    }

    pub fn text(&self, side: Side) -> Vec<u8> {
        let mut text = Vec::new();
        for (of, line) in &self.lines {
            if *of == side || *of == Side::Both {
                text.extend(line);
                text.push(b'\n');
            }
        }
        text
    }

    /// Whether the two texts have the same kept calls, as a pair must, and are short enough to
    /// be read at all.
    pub fn agrees(&self) -> bool {
        let (first, second) = (self.text(Side::First), self.text(Side::Second));
        let one = History::of(&first, self.chosen);
        let other = History::of(&second, self.chosen);
        first.len().max(second.len()) <= LONGEST && one.keeps_the_same_as(&other)
    }
}

struct Maker {
    random: Random,
    chosen: u32,
    /// The ids that most calls name, so that calls meet; the chosen one may be among them.
    ids: Vec<u32>,
    /// Follows the kept calls only; it tells which ids are indifferent at a place.
    core: Core,
    lines: Vec<(Side, Vec<u8>)>,
    bytes: [usize; 2],
}

impl Maker {
    fn new(seed: u64) -> Maker {
        let mut random = Random::new(seed);
        let chosen = random.between(0, 63);
        let mut ids = Vec::new();
        for _ in 0..random.between(2, 9) {
            ids.push(random.between(0, 63));
        }
        // In one pair of eight nothing but arrivals, loads and chance names the chosen client.
        if !random.one_in(8) {
            ids.push(chosen);
        }
        Maker { random, chosen, ids, core: Core::new(), lines: Vec::new(), bytes: [0, 0] }
    }

    fn make(&mut self) {
        let most = self.random.pick(&[30, 100, 100, 200, 200, 1500]);
        let kept = 10 + self.random.below(most);
        let wild = self.random.pick(&[3, 6, 12, 40]);
        let quiet = self.random.one_in(3);
        let early = if self.random.one_in(4) { 5 } else { 0 };
        let crowded = if self.random.one_in(16) { self.random.below(kept) } else { kept };
        for place in 0..kept {
            if place == crowded {
                self.crowd(wild, quiet);
            }
            self.struck_out_here(wild, quiet);
            let call = if place < early { self.any_call() } else { self.next_call() };
            self.keep(call);
            if self.random.one_in(40) {
                self.rest();
            }
        }
        if self.random.one_in(8) {
            self.overrun();
        }
        // What waits at the end shows only when it is asked for.
        for _ in 0..10 {
            self.keep(Call::Tick);
            let call = self.packet(self.chosen);
            self.keep(call);
        }
    }

    /// In either text, in one place of so many, or in the first alone.
    fn struck_out_here(&mut self, wild: usize, quiet: bool) {
        if self.random.one_in(wild) {
            self.struck_out(Side::First);
        }
        if !quiet && self.random.one_in(wild) {
            self.struck_out(Side::Second);
        }
    }

    /// The chosen client, or another one, as an indifferent client past its places.
    fn crowd(&mut self, wild: usize, quiet: bool) {
        let discipline = self.random.between(0, 1);
        let id = self.random.pick(&[self.chosen, self.ids[0]]);
        for call in Crowd::calls(&mut self.random, discipline, id) {
            self.struck_out_here(4 * wild, quiet);
            self.keep(call);
        }
    }

    /// The chosen client's packets, past its places or its tokens.
    fn overrun(&mut self) {
        for _ in 0..2 * PLACES {
            if self.client(self.chosen).is_some_and(|client| client.queue.len() < PLACES) {
                let call = self.packet(self.chosen);
                self.keep(call);
            }
        }
        for _ in 0..2 {
            self.keep(Call::Arrive { id: self.chosen, handle: 0, length: 64 });
        }
    }

    /// Ticks in which the bucket of a client fills, since it begins empty, and then its packets,
    /// some more than its tokens.
    fn rest(&mut self) {
        let Some(id) = self.one_indifferent() else {
            return;
        };
        let most = self.random.pick(&[10, 40, 150]);
        for _ in 0..self.ticks_to_fill(id).min(most) {
            self.keep(Call::Tick);
        }
        let tokens = self.client(id).map_or(0, |client| client.level / 1024);
        for _ in 0..tokens + self.random.between(0, 3) {
            let call = self.packet(id);
            self.keep(call);
        }
    }

    fn ticks_to_fill(&self, id: u32) -> u32 {
        let missing = |client: &Client| (client.burst * 1024 - client.level).div_ceil(client.rate);
        self.client(id).map_or(0, missing)
    }

    fn keep(&mut self, call: Call) {
        let line = line_of(&call);
        if self.bytes[0].max(self.bytes[1]) + line.len() > ROOM_FOR_KEPT {
            return;
        }
        self.core.perform(&call);
        self.write(Side::Both, line);
    }

    fn write(&mut self, side: Side, line: Vec<u8>) {
        if side != Side::Second {
            self.bytes[0] += line.len() + 1;
        }
        if side != Side::First {
            self.bytes[1] += line.len() + 1;
        }
        self.lines.push((side, line));
    }

    /// An id that is indifferent at this place.
    fn one_indifferent(&mut self) -> Option<u32> {
        let ids: Vec<u32> = (0..64).filter(|&id| is_indifferent(&self.core, id)).collect();
        if ids.is_empty() { None } else { Some(self.random.pick(&ids)) }
    }

    fn client(&self, id: u32) -> Option<&Client> {
        self.core.opened.as_ref()?.clients.get(id as usize)?.as_ref()
    }

    fn kind(&self, id: u32) -> Option<u32> {
        self.client(id).map(|client| client.kind)
    }
}

/// The kept calls.
impl Maker {
    /// Opens first, then any call.
    fn next_call(&mut self) -> Call {
        if self.core.opened.is_none() && !self.random.one_in(4) {
            return self.open();
        }
        let active = self.ids.iter().filter(|&&id| self.kind(id).is_some()).count();
        if 2 * active < self.ids.len() && self.random.one_in(2) {
            return self.join();
        }
        self.any_call()
    }

    fn any_call(&mut self) -> Call {
        match self.random.below(64) {
            0 => self.open(),
            1..=4 => self.join(),
            5..=10 => self.change(),
            11 => Call::Leave { id: self.settings_id() },
            12..=19 => self.packet(self.chosen),
            20..=22 => self.load(self.chosen),
            23..=34 => self.indifferent_call(),
            _ => Call::Tick,
        }
    }

    fn open(&mut self) -> Call {
        let threshold = self.random.pick(&[1024, 1024, 1000, 900, 300, 0, 1025]);
        let discipline = self.random.pick(&[0, 1, 0, 1, 0, 1, 2]);
        let word = self.random.word();
        let high = high_seed(&mut self.random);
        let seed = self.random.pick(&[word, word, high, 1, 0]);
        Call::Open { threshold, discipline, seed }
    }

    fn settings_id(&mut self) -> u32 {
        let any = self.random.between(0, 65);
        if self.random.one_in(20) { any } else { self.random.pick(&self.ids) }
    }

    fn terms(&mut self) -> (u32, u32, u32) {
        let kind = self.random.between(INDIFFERENT, PRIVATE);
        let (any, brisk) = (self.random.between(1, 100), self.random.between(100, 400));
        let rate = self.random.pick(&[any, any, any, brisk, brisk, 1, 0, 1025]);
        let any = self.random.between(1, 64);
        let burst = self.random.pick(&[any, any, any, 1, 2, 64, 65]);
        (kind, rate, if kind == PRIVATE { 0 } else { burst })
    }

    fn join(&mut self) -> Call {
        let id = self.settings_id();
        let (kind, rate, burst) = self.terms();
        Call::Join { id, kind, rate, burst }
    }

    fn change(&mut self) -> Call {
        let id = self.settings_id();
        let (kind, rate, burst) = self.terms();
        Call::Change { id, kind, rate, burst }
    }

    fn packet(&mut self, id: u32) -> Call {
        let handle = self.random.handle();
        let any = self.random.between(64, 1518);
        let length = self.random.pick(&[any, any, any, any, any, any, 63, 64, 1518, 1519]);
        Call::Arrive { id, handle, length }
    }

    fn load(&mut self, id: u32) -> Call {
        let few = self.random.between(0, 9);
        let count = self.random.pick(&[few, few, few, few, 100, 255, 256, 4294967295]);
        Call::Load { id, count }
    }

    /// An arrival, rarely a load, of an id that is indifferent at this place; else a tick.
    fn indifferent_call(&mut self) -> Call {
        let Some(id) = self.one_indifferent() else {
            return Call::Tick;
        };
        if self.random.one_in(12) { self.load(id) } else { self.packet(id) }
    }
}

/// The struck-out lines, and lines without a form.
impl Maker {
    /// A few lines or many, of one client, so that queues and pools come to their limits.
    fn struck_out(&mut self, side: Side) {
        if self.random.one_in(6) {
            return self.no_form(side);
        }
        let id = self.other_id();
        if id == self.chosen || is_indifferent(&self.core, id) {
            return;
        }
        let most = self.random.pick(&[1, 3, 3, PLACES as u32 + 20]);
        for _ in 0..self.random.between(1, most) {
            let call = if self.random.one_in(5) { self.load(id) } else { self.packet(id) };
            self.insert(side, line_of(&call));
        }
    }

    /// Mostly a private client, else an inactive id or one above 63.
    fn other_id(&mut self) -> u32 {
        let chosen = self.chosen;
        let private: Vec<u32> =
            (0..64).filter(|&id| id != chosen && self.kind(id) == Some(PRIVATE)).collect();
        if !private.is_empty() && !self.random.one_in(5) {
            return self.random.pick(&private);
        }
        let any = self.random.between(0, 63);
        // 64 above the chosen id, and others that a wrong mask would take for it.
        self.random.pick(&[any, any, any, 64, 65, chosen + 64, chosen + 256, 4294967295])
    }

    fn no_form(&mut self, side: Side) {
        let id = self.settings_id();
        let call = if self.random.one_in(2) { self.packet(id) } else { self.join() };
        let line = near_miss(&mut self.random, &line_of(&call));
        if !line.contains(&b'\n') && matches!(parse(&line), Line::Refused(_)) {
            self.insert(side, line);
        }
    }

    fn insert(&mut self, side: Side, line: Vec<u8>) {
        let bytes = self.bytes[if side == Side::First { 0 } else { 1 }];
        if bytes + line.len() < MOST_BYTES {
            self.write(side, line);
        }
    }
}
