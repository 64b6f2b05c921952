//! An indifferent client's queue brought to its last place (paper 02, S-9), under either discipline. It takes as many tokens as places,
//! and a bucket holds 64 at most: so packets of others have to go out before its own, while its bucket fills again. Under discipline 0
//! these were accepted earlier. Under discipline 1 it is a draw, so before each tick the client gets a rate with which it is not drawn.

use crate::random::Random;
use crate::seeds::high_seed;
use second::core::{Answer, Call, Client, Core, Outcome, INDIFFERENT, PLACES, PRIVATE};

/// How many tokens a bucket holds at most.
const FULL: u32 = 64;

/// How many rates are tried for a tick.
const TRIES: u32 = 40;

pub struct Crowd<'a> {
    random: &'a mut Random,
    core: Core,
    /// The client whose queue gets full.
    id: u32,
    /// Indifferent clients at the ids beside it, so that a place too far would be one of theirs.
    others: Vec<u32>,
    calls: Vec<Call>,
}

impl Crowd<'_> {
    /// The calls, from an open to what comes behind a full queue.
    pub fn calls(random: &mut Random, discipline: u32, id: u32) -> Vec<Call> {
        let mut crowd = Crowd::full(random, discipline, id);
        if !crowd.random.one_in(3) {
            crowd.one_by_one();
        }
        crowd.end();
        crowd.calls
    }

    /// The calls up to the full queue and what it refuses.
    pub fn calls_to_full(random: &mut Random, discipline: u32, id: u32) -> Vec<Call> {
        Crowd::full(random, discipline, id).calls
    }

    fn full(random: &mut Random, discipline: u32, id: u32) -> Crowd<'_> {
        let count = (PLACES as u32).div_ceil(FULL) + random.between(0, 1);
        let beside = |n: u32| (id + if n % 2 == 1 { n } else { 64 - n }) % 64;
        let others = (1..=count).map(beside).collect();
        let mut crowd = Crowd { random, core: Core::new(), id, others, calls: Vec::new() };
        crowd.gather(discipline);
        crowd.hand_in(discipline);
        crowd.fill_up();
        crowd.overrun();
        crowd
    }

    fn call(&mut self, call: Call) {
        self.core.perform(&call);
        self.calls.push(call);
    }

    fn client(&self, id: u32) -> Option<&Client> {
        self.core.opened.as_ref()?.clients.get(id as usize)?.as_ref()
    }

    fn waiting(&self, id: u32) -> usize {
        self.client(id).map_or(0, |client| client.queue.len())
    }

    fn tokens(&self, id: u32) -> u32 {
        self.client(id).map_or(0, |client| client.level / 1024)
    }

    fn arrives(&mut self, id: u32, count: u32) {
        for _ in 0..count {
            let (handle, length) = (self.random.handle(), self.random.between(64, 1518));
            self.call(Call::Arrive { id, handle, length });
        }
    }

    fn ticks(&mut self, count: u32) {
        for _ in 0..count {
            self.call(Call::Tick);
        }
    }

    fn retune(&mut self, id: u32, rate: u32) {
        self.call(Call::Change { id, kind: INDIFFERENT, rate, burst: FULL });
    }

    /// What the others leave of the threshold.
    fn room(&self) -> u32 {
        let others = (0..64).filter(|&id| id != self.id).filter_map(|id| self.client(id));
        let threshold = self.core.opened.as_ref().map_or(0, |opened| opened.threshold);
        threshold - others.map(|client| client.rate).sum::<u32>()
    }
}

impl Crowd<'_> {
    /// An open, a private client or none, and the crowd, whose buckets fill together.
    fn gather(&mut self, discipline: u32) {
        let (any, high) = (self.random.between(1, 4294967295), high_seed(self.random));
        let (threshold, seed) = (self.random.between(980, 1024), self.random.pick(&[any, high]));
        self.call(Call::Open { threshold, discipline, seed });
        for _ in 0..self.random.between(0, 1) {
            let id = (self.id + self.random.between(8, 50)) % 64;
            let rate = self.random.between(1, 9);
            self.call(Call::Join { id, kind: PRIVATE, rate, burst: 0 });
            self.arrives(id, 3);
        }
        let rate = self.room() / (self.others.len() as u32 + 1);
        for id in [&[self.id], &self.others[..]].concat() {
            self.call(Call::Join { id, kind: INDIFFERENT, rate, burst: FULL });
        }
        self.ticks((FULL * 1024).div_ceil(rate));
    }

    /// The others' packets, and then low rates for them, so that there is room for the client's own: just so high that a draw among
    /// those that wait may fall on them.
    fn hand_in(&mut self, discipline: u32) {
        for id in self.others.clone() {
            self.arrives(id, FULL.min(PLACES as u32));
            let rate = if discipline == 0 { self.random.between(1, 60) } else { self.random.between(60, 100) };
            self.retune(id, rate);
        }
    }

    /// The client's packets, as many as it is granted, till the last place is taken or no other has a packet.
    fn fill_up(&mut self) {
        while self.waiting(self.id) < PLACES {
            if self.tokens(self.id) > 0 {
                self.arrives(self.id, 1);
            } else if self.others.iter().all(|&id| self.waiting(id) == 0) {
                return;
            } else {
                self.spared_tick();
            }
        }
    }

    /// A tick that sends no packet of the client, with the highest rate found for it.
    fn spared_tick(&mut self) {
        let room = self.room();
        let rate = (0..TRIES.min(room)).map(|less| room - less).find(|&rate| self.spares(rate)).unwrap_or(1);
        if self.client(self.id).is_some_and(|client| client.rate != rate) {
            self.retune(self.id, rate);
        }
        self.ticks(1);
    }

    fn spares(&self, rate: u32) -> bool {
        let mut core = self.core.clone();
        core.perform(&Call::Change { id: self.id, kind: INDIFFERENT, rate, burst: FULL });
        !matches!(core.perform(&Call::Tick), Answer::Slot(Outcome::Real { id, .. }) if id == self.id)
    }

    /// 14 as the tokens end, and again with some left. The rate is low then, so that a token taken for a 14 shows.
    fn overrun(&mut self) {
        self.arrives(self.id, 1);
        for _ in 0..self.random.pick(&[0, 1, 3, 5, 20]) {
            self.spared_tick();
        }
        let slow = self.random.between(1, 8);
        self.retune(self.id, slow);
        let past = self.random.between(1, 4);
        self.arrives(self.id, past);
    }

    /// A place is free again with each packet that goes, and each tick has an arrival behind it. Where the others leave first, or become
    /// private, the client's own packets go at once, and its tokens end soon.
    fn one_by_one(&mut self) {
        if self.random.one_in(2) {
            for id in self.others.clone() {
                let kind = self.random.pick(&[INDIFFERENT, PRIVATE]);
                self.call(if kind == PRIVATE { Call::Change { id, kind, rate: 1, burst: 0 } } else { Call::Leave { id } });
            }
        }
        for _ in 0..self.random.between(1, 40) {
            self.ticks(1);
            self.arrives(self.id, 1);
        }
    }

    /// The queue emptied by a leave or a change of type, or left as it is; then packets, past the last place or few, and ticks.
    fn end(&mut self) {
        let (id, rate) = (self.id, self.random.between(1, 200));
        let (any, all) = (self.random.between(1, 5), PLACES as u32 + 1);
        match self.random.below(5) {
            0 => {
                self.call(Call::Leave { id });
                self.call(Call::Join { id, kind: INDIFFERENT, rate, burst: FULL });
            }
            1 => {
                self.call(Call::Leave { id });
                self.call(Call::Join { id, kind: PRIVATE, rate, burst: 0 });
            }
            2 | 3 => self.call(Call::Change { id, kind: PRIVATE, rate, burst: 0 }),
            _ => {}
        }
        let private = self.client(id).is_some_and(|client| client.kind == PRIVATE);
        let past = if private { self.random.pick(&[any, any, all]) } else { any };
        self.arrives(id, past);
        self.ticks(any);
        self.arrives(id, 2);
    }
}
