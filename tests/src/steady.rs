//! Steady stretches (paper 02, S-14), from a seed: a beginning that makes a core, and behind it "n
//! ticks without open, hand-over, join, change, leave or change of type by timetable". Between the
//! ticks stand arrivals, loads, and opens, joins, changes and leaves that are refused.

use crate::crowds::Crowd;
use crate::lines::{line_of, near_miss};
use crate::random::Random;
use crate::seeds::high_seed;
use second::core::{Answer, Call, Client, Core, INDIFFERENT, PLACES, PRIVATE};
use second::script::{parse, Line};

/// Where a line stands.
#[derive(Debug, Clone, Copy, PartialEq, Eq)]
pub enum Part {
    Beginning,
    Steady,
}

/// The lines (without line feeds), those of the beginning first.
pub struct Stretch {
    pub lines: Vec<(Part, Vec<u8>)>,
}

/// The longest text that is read, and where a stretch ends so that it is never passed.
const LONGEST: usize = 60_000;
const ROOM: usize = 59_000;

/// How many ticks are spent on one bucket at most.
const LONGEST_FILL: u32 = 150;

impl Stretch {
    pub fn from_seed(seed: u64) -> Stretch {
        let mut maker = Maker { random: Random::new(seed), core: Core::new(), lines: Vec::new(),
                                bytes: 0, part: Part::Beginning };
        maker.beginning();
        maker.stretch();
        Stretch { lines: maker.lines }
    }

    /// The script behind which the figure is asked for.
    pub fn beginning(&self) -> Vec<u8> {
        text_of(self.lines.iter().filter(|(part, _)| *part == Part::Beginning))
    }

    /// The whole script.
    pub fn text(&self) -> Vec<u8> {
        text_of(self.lines.iter())
    }

    /// The n of S-14.
    pub fn ticks(&self) -> u32 {
        let ticks = |(part, line): &&(Part, Vec<u8>)| *part == Part::Steady && line == b"(tick)";
        self.lines.iter().filter(ticks).count() as u32
    }

    /// The core at the start of the stretch.
    pub fn start(&self) -> Core {
        let mut core = Core::new();
        for (_, line) in self.lines.iter().filter(|(part, _)| *part == Part::Beginning) {
            perform(&mut core, line);
        }
        core
    }

    /// Whether this is a stretch as S-14 has it, and short enough to be read at all.
    pub fn is_steady(&self) -> bool {
        let mut core = self.start();
        let mut steady = core.opened.is_some() && self.text().len() <= LONGEST;
        for (_, line) in self.lines.iter().filter(|(part, _)| *part == Part::Steady) {
            let accepted = perform(&mut core, line) == Some(Answer::Accepted);
            steady &= !(accepted && is_settings(line));
        }
        steady
    }
}

fn text_of<'a>(lines: impl Iterator<Item = &'a (Part, Vec<u8>)>) -> Vec<u8> {
    let mut text = Vec::new();
    for (_, line) in lines {
        text.extend(line);
        text.push(b'\n');
    }
    text
}

/// The answer to a line, if it is a form.
fn perform(core: &mut Core, line: &[u8]) -> Option<Answer> {
    match parse(line) {
        Line::Form(call) => Some(core.perform(&call)),
        Line::Refused(_) => None,
    }
}

/// "open, ..., join, change, leave": the calls that a stretch is without.
pub fn is_settings(line: &[u8]) -> bool {
    match parse(line) {
        Line::Form(Call::Arrive { .. } | Call::Load { .. } | Call::Tick) => false,
        Line::Form(_) => true,
        Line::Refused(_) => false,
    }
}

/// How the indifferent clients use a stretch: with no packet, one now and then, one before each
/// tick, or each with all that it is granted. The last takes from the private side what it can.
#[derive(Clone, Copy, PartialEq, Eq)]
enum Offers {
    Nothing,
    Few,
    Steadily,
    All,
}

struct Maker {
    random: Random,
    core: Core,
    lines: Vec<(Part, Vec<u8>)>,
    bytes: usize,
    part: Part,
}

/// Writing, and looking at the state.
impl Maker {
    fn call(&mut self, call: &Call) {
        if self.bytes < ROOM {
            self.core.perform(call);
            self.line(line_of(call));
        }
    }

    fn line(&mut self, line: Vec<u8>) {
        self.bytes += line.len() + 1;
        self.lines.push((self.part, line));
    }

    fn client(&self, id: u32) -> Option<&Client> {
        self.core.opened.as_ref()?.clients.get(id as usize)?.as_ref()
    }

    fn active(&self, kind: u32) -> Vec<u32> {
        (0..64).filter(|&id| self.client(id).is_some_and(|client| client.kind == kind)).collect()
    }

    /// An id of a type; any id where no client has it.
    fn one_of(&mut self, kind: u32) -> u32 {
        let ids = self.active(kind);
        if ids.is_empty() { self.random.between(0, 65) } else { self.random.pick(&ids) }
    }

    /// The largest rate that `id` could have now.
    fn room(&self, id: u32) -> u32 {
        let Some(opened) = &self.core.opened else {
            return 0;
        };
        let others = (0..64).filter(|&other| other != id).filter_map(|other| self.client(other));
        opened.threshold - others.map(|client| client.rate).sum::<u32>()
    }

    fn is_full(&self, id: u32) -> bool {
        self.client(id).is_some_and(|client| client.queue.len() == PLACES)
    }

    /// Whether the next packet of `id` goes into its queue.
    fn is_granted(&self, id: u32) -> bool {
        self.client(id).is_some_and(|client| client.level >= 1024) && !self.is_full(id)
    }
}

/// The beginning.
impl Maker {
    /// One core or, now and then, another before it; rarely one with a full queue of an indifferent
    /// client.
    fn beginning(&mut self) {
        if self.random.one_in(8) {
            self.opened();
        }
        if self.random.one_in(24) {
            return self.crowd();
        }
        self.opened();
    }

    fn crowd(&mut self) {
        let (discipline, id) = (self.random.between(0, 1), self.random.between(0, 63));
        for call in Crowd::calls_to_full(&mut self.random, discipline, id) {
            self.call(&call);
        }
    }

    fn opened(&mut self) {
        let any = self.random.between(1, 1024);
        let few = self.random.pick(&[1, 2, 20]);
        let threshold = self.random.pick(&[1024, 1024, 1000, any, any, any, any, few]);
        let (word, high) = (self.random.between(1, 4294967295), high_seed(&mut self.random));
        let (discipline, seed) = (self.random.between(0, 1), self.random.pick(&[word, high]));
        self.call(&Call::Open { threshold, discipline, seed });
        self.company(threshold);
        if self.random.one_in(3) {
            self.unrest();
        }
        for _ in 0..self.random.pick(&[0, 2, 4, 8]) {
            self.fill();
        }
        self.traffic();
    }

    /// From none of a type to many. The indifferent have few of the shares together, so that most
    /// slots are sure, or nearly all; a private client mostly comes before they are gone.
    fn company(&mut self, threshold: u32) {
        let private = self.random.pick(&[0, 1, 1, 1, 1, 2, 2, 5, 20]);
        let indifferent = self.random.pick(&[0, 1, 1, 2, 2, 3, 8, 40]);
        let shares = threshold * self.random.pick(&[1, 5, 20, 50, 97]) / 100;
        let mut kinds = vec![INDIFFERENT; indifferent];
        for _ in 0..private {
            kinds.insert(self.random.below(kinds.len() + 1), PRIVATE);
        }
        let first = kinds.iter().position(|&kind| kind == PRIVATE).unwrap_or(0);
        if !self.random.one_in(4) && !kinds.is_empty() {
            kinds.swap(0, first);
        }
        for kind in kinds {
            match kind {
                PRIVATE => self.join(kind, 24 / private as u32),
                _ => self.join(kind, (shares / indifferent as u32).max(1)),
            }
        }
    }

    fn join(&mut self, kind: u32, highest_rate: u32) {
        let id = self.random.between(0, 63);
        let rate = self.random.between(1, highest_rate).min(self.room(id)).max(1);
        let burst = self.burst(kind);
        self.call(&Call::Join { id, kind, rate, burst });
    }

    fn burst(&mut self, kind: u32) -> u32 {
        let (few, any) = (self.random.between(1, 4), self.random.between(1, 64));
        if kind == PRIVATE { 0 } else { self.random.pick(&[1, 2, few, any]) }
    }

    /// Changes of rate, burst and type, and leaves, with packets waiting.
    fn unrest(&mut self) {
        for _ in 0..self.random.between(1, 8) {
            let old = self.random.pick(&[INDIFFERENT, PRIVATE]);
            let id = self.one_of(old);
            let kind = self.random.pick(&[INDIFFERENT, PRIVATE, old, old]);
            let rate = self.random.between(1, 60);
            let burst = self.burst(kind);
            let count = self.random.between(0, 5);
            self.packets(id, count);
            match self.random.below(5) {
                0 => self.call(&Call::Leave { id }),
                _ => self.call(&Call::Change { id, kind, rate, burst }),
            }
        }
    }

    /// The bucket of one client, which began empty, filled or nearly so: by ticks at the highest rate
    /// that there is room for. Then the rate is what it was.
    fn fill(&mut self) {
        let (id, kind) = (self.one_of(INDIFFERENT), INDIFFERENT);
        let client = self.client(id).filter(|client| client.kind == kind);
        let Some(&Client { rate, burst, level, .. }) = client else {
            return;
        };
        let fast = self.room(id);
        self.call(&Call::Change { id, kind, rate: fast, burst });
        let ticks = (burst * 1024 - level).div_ceil(fast);
        let fewer = self.random.pick(&[0, 0, 0, 1, 3]);
        for _ in 0..ticks.saturating_sub(fewer).min(LONGEST_FILL) {
            self.call(&Call::Tick);
        }
        self.call(&Call::Change { id, kind, rate, burst });
    }

    /// Packets, ticks and loads in a mix that fills the queues, empties them or takes the tokens,
    /// and at times all packets that the indifferent are granted, or ticks till none of them waits.
    fn traffic(&mut self) {
        let steps = self.random.pick(&[0, 3, 20, 60, 200]);
        let arrivals = self.random.between(1, 11) as usize;
        for _ in 0..steps {
            let kind = self.random.pick(&[INDIFFERENT, INDIFFERENT, PRIVATE]);
            let id = self.one_of(kind);
            match self.random.below(12) {
                0 => self.load(id),
                place if place <= arrivals => self.packets(id, 1),
                _ => self.call(&Call::Tick),
            }
        }
        if self.random.one_in(3) {
            self.offer_all();
        }
        if self.random.one_in(3) {
            while self.active(INDIFFERENT).iter().any(|&id| self.waits(id)) && self.bytes < ROOM {
                self.call(&Call::Tick);
            }
        }
    }

    fn waits(&self, id: u32) -> bool {
        self.client(id).is_some_and(|client| !client.queue.is_empty())
    }

    fn packets(&mut self, id: u32, count: u32) {
        for _ in 0..count {
            let (handle, any) = (u64::from(self.random.between(0, 999)), self.random.between(64, 1518));
            let length = self.random.pick(&[64, any, any, any, any, any, any, 1518, 63, 1519]);
            self.call(&Call::Arrive { id, handle, length });
        }
    }

    fn load(&mut self, id: u32) {
        let few = self.random.between(0, 9);
        let count = self.random.pick(&[few, few, few, 255, 256]);
        self.call(&Call::Load { id, count });
    }
}

/// The stretch.
impl Maker {
    fn stretch(&mut self) {
        self.part = Part::Steady;
        let usual = [1, 2, 8, 30, 30, 100, 100, 400, 2000];
        // Behind a full queue it takes many ticks till something is sure.
        let full = self.active(INDIFFERENT).iter().any(|&id| self.is_full(id));
        let most = if full { self.random.pick(&[100, 1000, 2000]) } else { self.random.pick(&usual) };
        let ticks = self.random.between(most / 3, most);
        let offers = [Offers::Nothing, Offers::Few, Offers::Steadily, Offers::All, Offers::All];
        let offers = self.random.pick(&offers);
        // How much else goes on: one line between two ticks, or one in so many.
        let quiet = self.random.pick(&[1, 4, 16]);
        for _ in 0..ticks {
            self.between(offers, quiet);
            if self.bytes < ROOM {
                self.call(&Call::Tick);
            }
        }
        self.between(offers, quiet);
    }

    /// What stands before a tick, and behind the last one.
    fn between(&mut self, offers: Offers, quiet: usize) {
        if self.random.one_in(quiet) {
            self.beside();
        }
        let id = self.one_of(INDIFFERENT);
        match offers {
            Offers::Nothing => {}
            Offers::Few if self.random.one_in(10) => self.packets(id, 1),
            Offers::Few => {}
            Offers::Steadily => self.packets(id, 1),
            Offers::All => self.offer_all(),
        }
    }

    /// Each indifferent client's packets as long as they are granted, and now and then one more.
    fn offer_all(&mut self) {
        for id in self.active(INDIFFERENT) {
            while self.is_granted(id) && self.bytes < ROOM {
                self.packets(id, 1);
            }
            if self.random.one_in(30) {
                self.packets(id, 1);
            }
        }
    }

    /// What takes no slot from the private side: their own packets and loads, calls that are
    /// refused, and lines that are no form.
    fn beside(&mut self) {
        let id = self.one_of(PRIVATE);
        match self.random.below(8) {
            0 => self.load(id),
            1 | 2 => self.packets(id, 1),
            3 => self.no_form(),
            _ => self.refused(),
        }
    }

    fn no_form(&mut self) {
        let call = self.settings();
        let line = near_miss(&mut self.random, &line_of(&call));
        let plain = !line.contains(&b'\n') && matches!(parse(&line), Line::Refused(_));
        if plain && self.bytes + line.len() < ROOM {
            self.line(line);
        }
    }

    /// An open, join, change or leave, if it is refused as things are.
    fn refused(&mut self) {
        let call = self.settings();
        if matches!(self.core.clone().perform(&call), Answer::Refused(_)) {
            self.call(&call);
        }
    }

    /// One that mostly is: with a number outside its limits, one share past the room, an id that
    /// is active or is not.
    fn settings(&mut self) -> Call {
        let kind = self.random.pick(&[INDIFFERENT, PRIVATE]);
        let (active, any) = (self.one_of(kind), self.random.between(0, 65));
        let id = self.random.pick(&[active, active, active, any]);
        let kind = self.random.pick(&[INDIFFERENT, PRIVATE]);
        let few = self.random.between(1, 20);
        let rate = self.random.pick(&[0, 1, few, self.room(id) + 1, 1024, 1025, 4294967295]);
        let burst = self.random.pick(&[0, 1, 2, 64, 65]);
        let burst = if kind == PRIVATE { 0 } else { burst };
        match self.random.below(8) {
            0 => self.bad_open(),
            1..=3 => Call::Join { id, kind, rate, burst },
            4..=6 => Call::Change { id, kind, rate, burst },
            _ => Call::Leave { id: any },
        }
    }

    fn bad_open(&mut self) -> Call {
        let (threshold, discipline, seed) = self.random.pick(&[
            (0, 0, 1), (1025, 1, 1), (4294967295, 0, 1), (1024, 2, 1), (1, 4294967295, 1),
            (1024, 0, 0),
        ]);
        Call::Open { threshold, discipline, seed }
    }
}
