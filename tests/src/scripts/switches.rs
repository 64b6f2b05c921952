//! Scripts in which one client switches its type as often as it likes and offers packets (paper 02,
//! S-4): a family of the scripts, and the scripts of the test `switching`.

use super::Writer;
use second::core::{Call, INDIFFERENT, PLACES, PRIVATE};

/// A script and the client in it that switches.
pub struct Switching {
    pub id: u32,
    pub text: Vec<u8>,
}

impl Switching {
    pub fn from_seed(seed: u64) -> Switching {
        let mut writer = Writer::new(seed);
        let size = writer.random.pick(&[200, 1000, 2000, 4000, 8000]);
        let id = writer.switching(size);
        Switching { id, text: writer.text }
    }
}

/// How a client uses its spells of being indifferent: with one rate for all of them, in whole
/// tokens, so that nothing is lost by a switch; with all that it is granted, after each tick; with
/// a packet now and then; or hardly staying, so that there is little to be had.
#[derive(Clone, Copy, PartialEq, Eq)]
enum Way {
    Whole,
    Greedy,
    Loose,
    Restless,
}

/// The client that switches, and what it does.
struct Switcher {
    id: u32,
    way: Way,
    /// The rate of all spells, where they are in whole tokens.
    rate: u32,
}

impl Writer {
    /// Writes at least `size` bytes, and gives the client that switches.
    pub(super) fn switching(&mut self, size: usize) -> u32 {
        let id = self.random.between(0, 63);
        let ways = [Way::Whole, Way::Greedy, Way::Greedy, Way::Loose, Way::Restless];
        let way = self.random.pick(&ways);
        let rate = self.random.pick(&[64, 128, 256, 512]);
        let switcher = Switcher { id, way, rate };
        self.open_for(&switcher);
        while self.text.len() < size {
            self.begin_spell(&switcher);
            self.spell(&switcher);
            self.end_spell(&switcher);
        }
        id
    }

    /// An open, and some neighbours of few shares.
    fn open_for(&mut self, switcher: &Switcher) {
        self.open_any();
        for _ in 0..self.random.between(0, 4) {
            let (id, kind) = (self.random.between(0, 63), self.random.pick(&[INDIFFERENT, PRIVATE]));
            let rate = self.random.between(1, 60);
            let burst = if kind == PRIVATE { 0 } else { self.random.between(1, 8) };
            if id != switcher.id {
                self.call(Call::Join { id, kind, rate, burst });
            }
        }
    }

    /// A join, or a change from private, to indifferent.
    fn begin_spell(&mut self, switcher: &Switcher) {
        let (id, kind) = (switcher.id, INDIFFERENT);
        let (rate, burst) = self.spell_terms(switcher);
        match self.client(id) {
            Some(_) => self.call(Call::Change { id, kind, rate, burst }),
            None => self.call(Call::Join { id, kind, rate, burst }),
        }
    }

    fn spell_terms(&mut self, switcher: &Switcher) -> (u32, u32) {
        let (any, large) = (self.random.between(1, 600), self.random.between(2, 64));
        let small = self.random.between(1, 3);
        match switcher.way {
            Way::Whole => (switcher.rate, large),
            Way::Greedy => (any, large),
            Way::Loose => (any, self.random.pick(&[small, small, large])),
            Way::Restless => (any, self.random.pick(&[1, 20, 64])),
        }
    }

    /// Ticks as an indifferent client, with offers before the first and behind each.
    fn spell(&mut self, switcher: &Switcher) {
        let ticks = match switcher.way {
            Way::Whole => self.random.between(0, 4) * (1024 / switcher.rate),
            Way::Greedy | Way::Loose => self.random.between(0, 20),
            Way::Restless => self.random.between(0, 4).saturating_sub(2),
        };
        self.offer(switcher);
        for _ in 0..ticks {
            self.ticks(1);
            self.offer(switcher);
            self.beside(switcher);
        }
    }

    /// Packets till one is refused, and at times more; a loose one offers now and then.
    fn offer(&mut self, switcher: &Switcher) {
        let id = switcher.id;
        if switcher.way == Way::Loose && !self.random.one_in(4) {
            return;
        }
        while self.client(id).is_some_and(|client| client.queue.len() < PLACES && client.level >= 1024) {
            self.arrives(id, 1);
        }
        let more = self.random.pick(&[1, 1, 1, 3]);
        self.arrives(id, more);
    }

    /// Now and then something else: a change of rate and burst, calls of its own that are refused,
    /// and neighbours.
    fn beside(&mut self, switcher: &Switcher) {
        match self.random.below(24) {
            0 => self.retune(switcher),
            1 => self.refused_call(switcher),
            2 | 3 => self.neighbour(switcher),
            _ => {}
        }
    }

    /// To other terms, or to those that it has.
    fn retune(&mut self, switcher: &Switcher) {
        let id = switcher.id;
        let other = self.spell_terms(switcher);
        let own = self.client(id).map_or(other, |client| (client.rate, client.burst));
        let (rate, burst) = self.random.pick(&[other, other, own]);
        self.call(Call::Change { id, kind: INDIFFERENT, rate, burst });
        self.offer(switcher);
    }

    /// A change of it, to either type, or a join, that is refused, and offers behind it.
    fn refused_call(&mut self, switcher: &Switcher) {
        let (id, kind) = (switcher.id, self.random.pick(&[INDIFFERENT, PRIVATE]));
        let burst = if kind == PRIVATE { 0 } else { self.random.between(1, 64) };
        let past = self.room(id) + 1;
        let rate = self.random.pick(&[0, past, past, 1025]);
        self.call(Call::Change { id, kind, rate, burst });
        self.call(Call::Join { id, kind, rate: 1, burst });
        self.offer(switcher);
    }

    /// A packet, a load or a change of another client; an arrival of an id that is not active.
    fn neighbour(&mut self, switcher: &Switcher) {
        let id = self.one_active();
        if id == switcher.id {
            return;
        }
        let Some(client) = self.client(id) else {
            return self.arrives(id, 1);
        };
        let (kind, burst, rate) = (client.kind, client.burst, self.random.between(1, 60));
        match self.random.below(6) {
            0 => self.call(Call::Change { id, kind, rate, burst }),
            1 => self.call(Call::Leave { id }),
            2 => self.call(Call::Load { id, count: 2 }),
            _ => self.arrives(id, 2),
        }
    }

    /// A change to private, with packets, loads and ticks there or without, or a leave, or now and
    /// then an open; what the bucket still has is gone with it.
    fn end_spell(&mut self, switcher: &Switcher) {
        let id = switcher.id;
        match self.random.below(16) {
            0 => self.open_for(switcher),
            1..=3 => {
                self.call(Call::Leave { id });
                self.arrives(id, 1);
            }
            _ => {
                let rate = self.random.between(1, 300);
                self.call(Call::Change { id, kind: PRIVATE, rate, burst: 0 });
                self.private_spell(switcher);
            }
        }
    }

    fn private_spell(&mut self, switcher: &Switcher) {
        let count = self.random.pick(&[0, 0, 1, 3, 8]);
        if self.random.one_in(2) {
            self.arrives(switcher.id, count);
        }
        if self.random.one_in(4) {
            self.call(Call::Load { id: switcher.id, count });
        }
        for _ in 0..count {
            self.ticks(1);
            self.beside_private(switcher);
        }
    }

    /// As private, a change of rate now and then, and neighbours.
    fn beside_private(&mut self, switcher: &Switcher) {
        let rate = self.random.between(1, 300);
        match self.random.below(12) {
            0 => self.call(Call::Change { id: switcher.id, kind: PRIVATE, rate, burst: 0 }),
            1 => self.neighbour(switcher),
            _ => {}
        }
    }
}
