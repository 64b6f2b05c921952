//! Scripts from a 64-bit seed. Several families, each after a part of the paper that a program may
//! get wrong. The second core follows what is written, so that calls can aim at limits that
//! depend on the state (room left under the threshold, pool, queue, level). A bucket begins empty
//! (paper 02, S-4), so what needs tokens has ticks before it.

use crate::crowds::Crowd;
use crate::lines::{big_number, line_of, near_miss, odd_byte};
use crate::random::Random;
use crate::seeds::high_seed;
use second::core::{Call, Client, Core, INDIFFERENT, PLACES, PRIVATE};
use second::script::{parse, Line, LARGEST_HANDLE};

pub mod switches;

/// The largest text that is read.
const LIMIT: usize = 60_000;

/// How many ticks a script spends on one bucket at most, so that there is room for other lines.
const PATIENCE: u32 = 120;

/// The script of a seed. One in sixteen has a size at or past the limit, the others are small.
pub fn script(seed: u64) -> Vec<u8> {
    let mut writer = Writer::new(seed);
    if seed % 16 == 5 {
        writer.large();
    } else {
        let size = writer.random.pick(&[200, 500, 1000, 2000, 4000]);
        writer.family(size);
        if writer.random.one_in(12) {
            writer.text.pop();
        }
    }
    writer.text
}

struct Writer {
    random: Random,
    core: Core,
    text: Vec<u8>,
}

/// Writing, and looking at the state.
impl Writer {
    fn new(seed: u64) -> Writer {
        Writer { random: Random::new(seed), core: Core::new(), text: Vec::new() }
    }

    fn call(&mut self, call: Call) {
        self.text.extend(line_of(&call));
        self.text.push(b'\n');
        self.core.perform(&call);
    }

    /// Any bytes with a line feed behind them; the core follows if they are a form after all.
    fn bytes(&mut self, bytes: &[u8]) {
        self.text.extend(bytes);
        self.text.push(b'\n');
        for line in bytes.split(|&byte| byte == b'\n') {
            if let Line::Form(call) = parse(line) {
                self.core.perform(&call);
            }
        }
    }

    fn client(&self, id: u32) -> Option<&Client> {
        self.core.opened.as_ref()?.clients.get(id as usize)?.as_ref()
    }

    fn active(&self, kind: u32) -> Vec<u32> {
        (0..64).filter(|&id| self.client(id).is_some_and(|client| client.kind == kind)).collect()
    }

    /// An active client of the type; if there is none, of the other type; if none, any id.
    fn one_of(&mut self, kind: u32) -> u32 {
        let mut ids = self.active(kind);
        if ids.is_empty() {
            ids = self.active(INDIFFERENT + PRIVATE - kind);
        }
        if ids.is_empty() { self.random.between(0, 63) } else { self.random.pick(&ids) }
    }

    /// An indifferent client, mostly one whose next packet would be granted.
    fn one_with_token(&mut self) -> u32 {
        let mut ids = self.active(INDIFFERENT);
        ids.retain(|&id| self.client(id).is_some_and(|client| client.level >= 1024));
        if ids.is_empty() || self.random.one_in(4) {
            return self.one_of(INDIFFERENT);
        }
        self.random.pick(&ids)
    }

    fn one_active(&mut self) -> u32 {
        let kind = self.random.between(INDIFFERENT, PRIVATE);
        self.one_of(kind)
    }

    /// The largest rate that `id` could have now.
    fn room(&self, id: u32) -> u32 {
        let Some(opened) = &self.core.opened else {
            return 0;
        };
        let others = (0..64).filter(|&other| other != id).filter_map(|other| self.client(other));
        opened.threshold - others.map(|client| client.rate).sum::<u32>()
    }
}

/// Values round the limits of the table, and one step past what the state allows.
impl Writer {
    fn edge_id(&mut self) -> u32 {
        match self.random.below(12) {
            0..=6 => self.one_active(),
            7 | 8 => self.random.between(0, 63),
            9 => self.random.pick(&[0, 1, 62, 63]),
            10 => self.random.pick(&[63, 64]),
            _ => self.random.pick(&[64, 65, 127, 128, 256, 65536, 4294967232, 4294967295]),
        }
    }

    fn edge_open(&mut self) -> Call {
        let any = self.random.between(1, 1024);
        let edges = [0, 1, 2, any, 1023, 1024, 1025, 2048, 4294967295];
        let usual = self.random.between(900, 1024);
        let threshold = if self.random.one_in(2) { self.random.pick(&edges) } else { usual };
        let discipline = self.random.pick(&[0, 1, 0, 1, 0, 1, 0, 1, 2, 3, 256, 4294967295]);
        let word = self.random.word();
        let high = high_seed(&mut self.random);
        let seed = self.random.pick(&[0, 1, 2, 4294967295, word, high]);
        Call::Open { threshold, discipline, seed }
    }

    /// Type, rate and burst for a join or change of `id`.
    fn edge_terms(&mut self, id: u32) -> (u32, u32, u32) {
        let kind = self.random.between(INDIFFERENT, PRIVATE);
        let room = self.room(id);
        let rate = match self.random.below(12) {
            0 => self.random.pick(&[0, 1, 1023, 1024, 1025, 2048, 65536, 4294967295]),
            1 => room,
            2 => room + 1,
            3 => self.random.between(1, 1024),
            4 | 5 => self.random.between(40, 300),
            _ => self.random.between(1, 40),
        };
        if kind == PRIVATE {
            return (kind, rate, 0);
        }
        let burst = match self.random.below(3) {
            0 => self.random.pick(&[0, 1, 2, 63, 64, 65, 128, 4294967295]),
            1 => self.random.between(1, 4),
            _ => self.random.between(1, 64),
        };
        (kind, rate, burst)
    }

    fn edge_count(&mut self, id: u32) -> u32 {
        let room = 255 - self.client(id).map_or(0, |client| client.pool);
        let wrapping = 0u32.wrapping_sub(255 - room);
        match self.random.below(6) {
            0 => room,
            1 => room + 1,
            2 => self.random.pick(&[0, 1, 254, 255, 256, 4294967295, wrapping]),
            _ => self.random.between(0, 9),
        }
    }

    fn edge_length(&mut self) -> u32 {
        match self.random.below(8) {
            0 => self.random.pick(&[0, 63, 1519, 65600, 4294967295]),
            1 => self.random.pick(&[63, 64, 65, 1517, 1518, 1519]),
            2 => self.random.pick(&[64, 1518]),
            _ => self.random.between(64, 1518),
        }
    }

    fn edge_call(&mut self) -> Call {
        let id = self.edge_id();
        match self.random.below(64) {
            0 | 1 => self.edge_open(),
            2..=11 => {
                let id = if self.random.one_in(4) { id } else { self.random.between(0, 63) };
                let (kind, rate, burst) = self.edge_terms(id);
                Call::Join { id, kind, rate, burst }
            }
            12..=18 => {
                let (kind, rate, burst) = self.edge_terms(id);
                Call::Change { id, kind, rate, burst }
            }
            19 | 20 => Call::Leave { id },
            21..=27 => Call::Load { id, count: self.edge_count(id) },
            28..=45 => self.packet(id),
            _ => Call::Tick,
        }
    }

    fn packet(&mut self, id: u32) -> Call {
        let any = self.random.handle();
        let handle = self.random.pick(&[0, LARGEST_HANDLE, any, any, any, any]);
        Call::Arrive { id, handle, length: self.edge_length() }
    }
}

/// Steps that several families share.
impl Writer {
    fn open(&mut self, discipline: u32) {
        let threshold = self.random.between(900, 1024);
        let any = self.random.between(1, 4294967295);
        let seed = if self.random.one_in(3) { high_seed(&mut self.random) } else { any };
        self.call(Call::Open { threshold, discipline, seed });
    }

    fn open_any(&mut self) {
        let discipline = self.random.between(0, 1);
        self.open(discipline);
    }

    fn join(&mut self, kind: u32, highest_rate: u32, bursts: (u32, u32)) {
        let id = self.random.between(0, 63);
        let rate = self.random.between(1, highest_rate);
        let burst = if kind == PRIVATE { 0 } else { self.random.between(bursts.0, bursts.1) };
        self.call(Call::Join { id, kind, rate, burst });
    }

    /// `count` clients of a type who share the link, so that most of the joins are accepted.
    fn joins(&mut self, kind: u32, count: u32) {
        for _ in 0..count {
            let bursts = self.random.pick(&[(1, 1), (1, 4), (1, 64)]);
            self.join(kind, 900 / count, bursts);
        }
    }

    /// Clients mostly of a type: some, or, if the script is long enough for it, all 64.
    fn company(&mut self, kind: u32, size: usize) {
        if size < 4000 || self.random.one_in(2) {
            let count = self.random.between(1, 20);
            return self.joins(kind, count);
        }
        for id in 0..64 {
            let other = INDIFFERENT + PRIVATE - kind;
            let kind = if self.random.one_in(8) { other } else { kind };
            let burst = if kind == PRIVATE { 0 } else { self.random.between(1, 64) };
            let rate = self.random.between(1, 14);
            self.call(Call::Join { id, kind, rate, burst });
        }
    }

    fn arrives(&mut self, id: u32, count: u32) {
        for _ in 0..count {
            let handle = self.random.handle();
            let length = self.random.between(64, 1518);
            self.call(Call::Arrive { id, handle, length });
        }
    }

    fn ticks(&mut self, count: u32) {
        for _ in 0..count {
            self.call(Call::Tick);
        }
    }

    /// Ticks in which nobody offers anything, so that buckets fill.
    fn rest(&mut self) {
        let most = self.random.pick(&[10, 40, PATIENCE]);
        let count = self.random.between(1, most);
        self.ticks(count);
    }

    /// Ticks till the bucket of `id` has so many tokens, or is full.
    fn fill(&mut self, id: u32, tokens: u32) {
        let Some(client) = self.client(id) else {
            return;
        };
        let missing = (tokens.min(client.burst) * 1024).saturating_sub(client.level);
        let count = missing.div_ceil(client.rate);
        self.ticks(count.min(PATIENCE));
    }

    /// The same in few ticks, at the highest rate that there is room for; then the rate is low again.
    fn fill_fast(&mut self, id: u32, tokens: u32) {
        let (kind, fast) = (INDIFFERENT, self.room(id));
        let Some(burst) = self.client(id).filter(|it| it.kind == kind).map(|it| it.burst) else {
            return;
        };
        self.call(Call::Change { id, kind, rate: fast, burst });
        self.fill(id, tokens);
        let (slow, brisk) = (self.random.between(1, 8), self.random.between(1, 200));
        let rate = self.random.pick(&[slow, slow, slow, brisk]);
        self.call(Call::Change { id, kind, rate, burst });
    }

    /// A join, change or leave that keeps most of what goes on.
    fn small_change(&mut self) {
        let id = self.one_active();
        let Some(client) = self.client(id) else {
            return self.join(INDIFFERENT, 100, (1, 64));
        };
        let &Client { kind, rate: own_rate, burst: own_burst, .. } = client;
        let burst = if kind == PRIVATE { 0 } else { self.random.between(1, 64) };
        let rate = self.random.between(1, 200);
        match self.random.below(5) {
            0 => self.call(Call::Leave { id }),
            1 => self.join(kind, 100, (1, 64)),
            2 => self.call(Call::Change { id, kind, rate: own_rate, burst: own_burst }),
            _ => self.call(Call::Change { id, kind, rate, burst }),
        }
    }
}

/// The families. Each writes at least `size` bytes.
impl Writer {
    fn family(&mut self, size: usize) {
        match self.random.below(20) {
            0 | 1 => self.edges(size),
            2 | 3 => self.indifferent_traffic(size, 0),
            4 | 5 => self.indifferent_traffic(size, 1),
            6 | 7 => self.private_traffic(size),
            8 | 9 => self.full_queues(size),
            10 | 19 => self.crowds(size),
            11 => self.settings(size),
            12 | 13 => self.bucket_edges(size),
            14 | 15 => self.near_misses(size),
            16 | 17 => {
                self.switching(size);
            }
            _ => self.stray_bytes(size),
        }
    }

    /// All calls, with values round every limit; some before any open.
    fn edges(&mut self, size: usize) {
        if !self.random.one_in(4) {
            self.open_any();
        }
        while self.text.len() < size {
            if self.random.one_in(30) {
                self.rest();
            }
            let unopened = self.core.opened.is_none() && self.random.one_in(3);
            let call = if unopened { self.edge_open() } else { self.edge_call() };
            self.call(call);
        }
    }

    /// Many packets of many indifferent clients, by turns with rests: order, draws and drops under
    /// one discipline.
    fn indifferent_traffic(&mut self, size: usize, discipline: u32) {
        self.open(discipline);
        self.company(INDIFFERENT, size);
        if self.random.one_in(2) {
            self.joins(PRIVATE, 1);
        }
        self.rest();
        // Above 10 the queues grow till the tokens end, below it they run empty.
        let arrivals = self.random.between(7, 15) as usize;
        while self.text.len() < size {
            match self.random.below(20) {
                19 if self.random.one_in(3) => self.small_change(),
                18 if self.random.one_in(3) => self.rest(),
                place if place < arrivals => {
                    let id = self.one_with_token();
                    self.arrives(id, 1);
                }
                _ => self.ticks(1),
            }
        }
    }

    /// Private clients with packets, dummies or neither, and a pool driven to both its ends.
    fn private_traffic(&mut self, size: usize) {
        self.open_any();
        self.company(PRIVATE, size);
        if self.random.one_in(2) {
            self.joins(INDIFFERENT, 1);
        }
        let arrivals = self.random.between(1, 9) as usize;
        while self.text.len() < size {
            let id = self.one_of(PRIVATE);
            match self.random.below(24) {
                0 => self.small_change(),
                1 => {
                    let indifferent = self.one_of(INDIFFERENT);
                    self.arrives(indifferent, 1);
                }
                2 | 3 => {
                    let count = self.edge_count(id);
                    self.call(Call::Load { id, count });
                }
                4 => self.brim(id),
                place if place < 5 + arrivals => self.arrives(id, 1),
                _ => self.ticks(1),
            }
        }
    }

    /// A pool filled to 255, then 0 and 1 more.
    fn brim(&mut self, id: u32) {
        let room = 255 - self.client(id).map_or(0, |client| client.pool);
        for count in [room, 0, 1] {
            self.call(Call::Load { id, count });
        }
    }

    /// Buckets filled, and then queues past their places, or their tokens where these are fewer, then
    /// emptied and refilled one by one: a token taken for a 14 brings the first 15 too early. Without
    /// indifferent clients, the private queues fill and the draws go on.
    fn full_queues(&mut self, size: usize) {
        const KINDS: [[u32; 3]; 5] = [
            [INDIFFERENT, INDIFFERENT, INDIFFERENT],
            [INDIFFERENT, INDIFFERENT, PRIVATE],
            [INDIFFERENT, PRIVATE, PRIVATE],
            [INDIFFERENT, PRIVATE, PRIVATE],
            [PRIVATE, PRIVATE, PRIVATE],
        ];
        self.open_any();
        let kinds = self.random.pick(&KINDS);
        // With as many tokens as places the queue is full just when they end, so that 14 and 15
        // meet; with a few more, tokens are left at a 14 and end soon after.
        let most = (PLACES as u32).min(60);
        let bursts = self.random.pick(&[(most, most), (most + 1, most + 4), (most + 1, 64)]);
        self.neighbours(&kinds, bursts);
        while self.text.len() < size {
            let kind = self.random.pick(&kinds);
            let id = self.one_of(kind);
            let tokens = self.random.pick(&[most, most + 1, most + 4, 64, 64]);
            self.fill_fast(id, tokens);
            // One store for all would be full earlier.
            let neighbour = self.one_active();
            self.arrives(neighbour, 2);
            self.past_the_places(id, tokens);
            if self.random.one_in(3) {
                self.anew(id, kind, bursts);
            }
        }
    }

    /// Clients at ids in a row, so that a place too far would be the next one's.
    fn neighbours(&mut self, kinds: &[u32], bursts: (u32, u32)) {
        let any = self.random.between(0, 61);
        let first = self.random.pick(&[0, any, any, 61]);
        for (id, &kind) in (first..).zip(kinds) {
            let rate = self.random.between(1, 8);
            let burst = if kind == PRIVATE { 0 } else { self.random.between(bursts.0, bursts.1) };
            self.call(Call::Join { id, kind, rate, burst });
        }
    }

    /// Packets past what the client can have waiting, or nearly so, and then one behind each tick: now
    /// and then so many that each of its places is used again.
    fn past_the_places(&mut self, id: u32, tokens: u32) {
        let (indifferent, places) = (self.active(INDIFFERENT).contains(&id), PLACES as u32);
        let most = if indifferent { places.min(tokens) } else { places };
        let past = self.random.between(most - 1, most + 6);
        self.arrives(id, past);
        let (few, all) = (self.random.between(1, 40), places + self.random.between(1, 9));
        let rounds = self.random.pick(&[few, few, few, all]);
        for _ in 0..rounds {
            self.ticks(1);
            self.arrives(id, 1);
        }
    }

    /// A leave and a join, or a change to the other type, with packets waiting, and a few packets.
    fn anew(&mut self, id: u32, kind: u32, bursts: (u32, u32)) {
        let burst = |kind| if kind == PRIVATE { 0 } else { bursts.1 };
        let (rate, other) = (self.random.between(1, 8), INDIFFERENT + PRIVATE - kind);
        if self.random.one_in(2) {
            self.call(Call::Leave { id });
            self.call(Call::Join { id, kind, rate, burst: burst(kind) });
        } else {
            self.call(Call::Change { id, kind: other, rate, burst: burst(other) });
        }
        self.arrives(id, 2);
        self.ticks(2);
    }

    /// Queues of indifferent clients past their places, under both disciplines.
    fn crowds(&mut self, size: usize) {
        while self.text.len() < size {
            let (discipline, id) = (self.random.between(0, 1), self.random.between(0, 63));
            for call in Crowd::calls(&mut self.random, discipline, id) {
                self.call(call);
            }
            let count = self.random.between(1, 20);
            self.ticks(count);
        }
    }

    /// Joins, changes of type, leaves, joins again and opens, with packets and dummies waiting;
    /// a few ids only, so that they come back to ids used before.
    fn settings(&mut self, size: usize) {
        self.open_any();
        let any = self.random.between(0, 63);
        let ids = [any, self.random.between(0, 63), self.random.pick(&[0, 63])];
        while self.text.len() < size {
            let id = self.random.pick(&ids);
            let (kind, rate, burst) = self.edge_terms(id);
            let brisk = self.random.between(100, 300);
            let rate = if self.random.one_in(2) { brisk } else { rate };
            let active = self.client(id).is_some();
            match self.random.below(16) {
                0 if self.random.one_in(2) => self.open_any(),
                1 => self.call(Call::Leave { id }),
                2..=5 if active => self.call(Call::Change { id, kind, rate, burst }),
                2..=5 => self.call(Call::Join { id, kind, rate, burst }),
                6 => {
                    let count = self.random.between(0, 3);
                    self.call(Call::Load { id, count });
                }
                7..=11 => {
                    let count = self.random.between(1, 4);
                    self.arrives(id, count);
                }
                12 | 13 => {
                    let tokens = self.random.between(1, 4);
                    self.fill(id, tokens);
                }
                _ => self.ticks(1),
            }
        }
    }

    /// Buckets emptied, then refilled to one step below 1024 and to the step that reaches it.
    fn bucket_edges(&mut self, size: usize) {
        self.open_any();
        // From 0, these rates meet 1023 on their way; the low ones take many ticks for it.
        let slow = size > 4000 || self.random.one_in(8);
        let rates: &[u32] = if slow { &[1, 3] } else { &[11, 31, 33, 93, 341] };
        for _ in 0..2 {
            let (id, rate) = (self.random.between(0, 63), self.random.pick(rates));
            let burst = self.random.between(1, 3);
            self.call(Call::Join { id, kind: INDIFFERENT, rate, burst });
        }
        self.join(INDIFFERENT, 300, (1, 3));
        if self.random.one_in(2) {
            self.join(PRIVATE, 10, (0, 0));
        }
        while self.text.len() < size {
            let id = self.one_of(INDIFFERENT);
            let count = self.random.between(1, 4);
            self.arrives(id, count);
            self.to_the_token(id);
            if self.random.one_in(4) {
                self.lower_burst(id);
            }
        }
    }

    /// Ticks till one step before a token is there, an arrival, the step, and two arrivals.
    fn to_the_token(&mut self, id: u32) {
        let Some(client) = self.client(id) else {
            return;
        };
        let missing = 1024 - client.level.min(1024);
        let enough = missing.div_ceil(client.rate);
        self.ticks(enough.saturating_sub(1));
        self.arrives(id, 1);
        self.ticks(1);
        self.arrives(id, 2);
    }

    /// A change to a large burst and ticks till it has more than a small one holds, then a change to
    /// the small one, at the old rate, and more arrivals than it allows.
    fn lower_burst(&mut self, id: u32) {
        let Some(rate) = self.client(id).map(|client| client.rate) else {
            return;
        };
        let (kind, burst) = (INDIFFERENT, self.random.between(1, 3));
        let fast = self.random.between(100, 341).min(self.room(id));
        let large = self.random.between(4, 64);
        self.call(Call::Change { id, kind, rate: fast, burst: large });
        self.fill(id, burst + 2);
        self.call(Call::Change { id, kind, rate, burst });
        self.arrives(id, burst + 1);
    }

    /// Forms and lines one step beside them, in a script that goes on.
    fn near_misses(&mut self, size: usize) {
        self.open_any();
        self.joins(INDIFFERENT, 3);
        self.joins(PRIVATE, 3);
        while self.text.len() < size {
            let call = self.edge_call();
            if self.random.one_in(2) {
                let line = near_miss(&mut self.random, &line_of(&call));
                self.bytes(&line);
            } else {
                self.call(call);
            }
        }
    }

    /// Bytes without a plan: any bytes, odd ones, or words of the grammar in any order.
    fn stray_bytes(&mut self, size: usize) {
        const WORDS: [&str; 16] = [
            "(", ")", " ", "\n", "open", "join", "change", "leave", "load", "arrive", "tick",
            "private", "indifferent", "packet", "(tick)\n", "\n(",
        ];
        let way = self.random.below(3);
        while self.text.len() < size {
            match way {
                0 => {
                    let byte = self.random.word() as u8;
                    self.text.push(byte);
                }
                1 => {
                    let byte = odd_byte(&mut self.random);
                    self.text.push(byte);
                }
                _ if self.random.one_in(6) => {
                    let number = big_number(&mut self.random);
                    self.text.extend(number.bytes());
                }
                _ => {
                    let word = self.random.pick(&WORDS);
                    self.text.extend(word.bytes());
                }
            }
        }
    }
}

/// Texts round 60,000 bytes.
impl Writer {
    /// A text of an exact size. Its last line is a tick, so that a byte lost or cut shows.
    fn large(&mut self) {
        let past = LIMIT + 1 + self.random.below(9000);
        let sizes = [
            LIMIT, LIMIT, LIMIT, LIMIT, LIMIT - 1, LIMIT - 1, LIMIT + 1, LIMIT + 1, LIMIT + 1,
            LIMIT + 2, past, 65_536, 140_000,
        ];
        let size = self.random.pick(&sizes);
        self.family(size - 3000);
        self.text.truncate(size - 30);
        self.text.push(b'\n');
        while size - self.text.len() >= 14 {
            self.text.extend(b"(tick)\n");
        }
        let rest = size - self.text.len() - 7;
        if rest > 0 {
            self.text.extend(vec![b'x'; rest - 1]);
            self.text.push(b'\n');
        }
        self.text.extend(b"(tick)\n");
        // The same size without the last line feed.
        if self.random.one_in(8) {
            self.text[size - 1] = b' ';
        }
    }
}
