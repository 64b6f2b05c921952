//! The slot core of paper 01: clients, queues, pools, buckets and the seven calls, with the draw
//! of paper 02, S-1, the buckets of S-4, which begin empty, the handles of S-6, the counts of S-7
//! and the places of S-9. Sentences quoted without a paper's number are paper 01's.
//! Checking and doing are kept apart: `refusal` only looks, so "nothing changes" but, by S-7, the
//! count of a 14 or 15.

use std::collections::VecDeque;

/// "An active client is indifferent (type 1) or private (type 2)."
pub const INDIFFERENT: u32 = 1;
pub const PRIVATE: u32 = 2;

/// Paper 02, S-9: "Every id now has 128 places, and 14 comes with 128 waiting." As before, "No id
/// uses another's places, and a place is used again once its packet has gone." "the edition of 32"
/// has its own number here, and differs in nothing else.
pub const PLACES: usize = 128;

/// The seven calls; "calls take unsigned 32-bit numbers", but for the handle. Paper 02, S-6:
/// "Handles go to 18446744073709551615 in calls". `kind` is the type.
#[derive(Debug, Clone, PartialEq, Eq)]
pub enum Call {
    Open { threshold: u32, discipline: u32, seed: u32 },
    Join { id: u32, kind: u32, rate: u32, burst: u32 },
    Change { id: u32, kind: u32, rate: u32, burst: u32 },
    Leave { id: u32 },
    Load { id: u32, count: u32 },
    Arrive { id: u32, handle: u64, length: u32 },
    Tick,
}

/// "A slot's outcome is one of four, and a real one carries its packet".
#[derive(Debug, Clone, PartialEq, Eq)]
pub enum Outcome {
    Real { id: u32, handle: u64, length: u32, padding: u32 },
    Dummy { id: u32 },
    Idle { id: u32 },
    Nobody,
}

/// What a call gets: accepted, a number of the table, or a tick's slot.
#[derive(Debug, Clone, PartialEq, Eq)]
pub enum Answer {
    Accepted,
    Refused(u32),
    Slot(Outcome),
}

/// What is told of a slot. Paper 02, S-5: "the outcome, its fields and, if there was a draw, target
/// and rate sum".
pub type Told = (Outcome, Option<(u64, u64)>);

/// "A packet is a handle (any 32-bit number) and a length in bytes." By paper 02, S-6, it is any
/// 64-bit number; it goes out as it came in, and nothing else depends on it.
/// `number` counts accepted packets since opening: a smaller one was "accepted earlier".
#[derive(Debug, Clone, PartialEq, Eq)]
pub struct Packet {
    pub handle: u64,
    pub length: u32,
    pub number: u64,
}

/// Paper 02, S-7: "Billing wants, since the join: accepted, sent, refused 14, refused 15, emptied
/// out, dummies sent." All are 0 at first; no call and no answer depends on them.
#[derive(Debug, Clone, PartialEq, Eq, Default)]
pub struct Counts {
    pub accepted: u64,
    pub sent: u64,
    pub refused_14: u64,
    pub refused_15: u64,
    pub emptied: u64,
    pub dummies: u64,
}

/// Paper 02, S-7: "counts run to 64 bits and then begin again at zero."
fn add(count: &mut u64, more: u64) {
    *count = count.wrapping_add(more);
}

/// One active client. `pool` matters only if private, `burst` and `level` only if indifferent.
/// Paper 02, S-7: "The client's record gains these", the counts.
#[derive(Debug, Clone, PartialEq, Eq)]
pub struct Client {
    pub kind: u32,
    pub rate: u32,
    pub burst: u32,
    pub queue: VecDeque<Packet>,
    pub pool: u32,
    pub level: u32,
    pub counts: Counts,
}

impl Client {
    /// "A join starts with an empty queue, a pool of 0" and, if indifferent, by paper 02, S-4: "A
    /// bucket now begins at level 0 after a join and after a change from private to indifferent."
    /// A private client has no bucket; its level is 0 and stays so. The counts are "since the join"
    /// (S-7), and start at 0.
    fn new(kind: u32, rate: u32, burst: u32) -> Client {
        let (queue, counts) = (VecDeque::new(), Counts::default());
        Client { kind, rate, burst, queue, pool: 0, level: 0, counts }
    }
}

/// What an accepted open gives. `clients` has one place for each id from 0 to 63.
#[derive(Debug, Clone, PartialEq, Eq)]
pub struct Opened {
    pub threshold: u32,
    pub discipline: u32,
    pub generator: u32,
    pub accepted: u64,
    pub clients: Vec<Option<Client>>,
}

/// "before any accepted open the core is unopened": `opened` is `None` until then.
#[derive(Debug, Clone, PartialEq, Eq)]
pub struct Core {
    pub opened: Option<Opened>,
}

impl Core {
    /// An unopened core.
    pub fn new() -> Core {
        Core { opened: None }
    }

    /// "the first [check] that fails gives its number, and nothing changes", but for a count.
    pub fn perform(&mut self, call: &Call) -> Answer {
        if let Some(number) = self.refusal(call) {
            self.count_refusal(call, number);
            return Answer::Refused(number);
        }
        if let Call::Open { threshold, discipline, seed } = *call {
            self.opened = Some(Opened::new(threshold, discipline, seed));
            return Answer::Accepted;
        }
        match &mut self.opened {
            Some(opened) => opened.accepted_call(call),
            None => Answer::Refused(19),
        }
    }

    /// "Checks run down the table": 19 for every call but open, then the call's own rows.
    fn refusal(&self, call: &Call) -> Option<u32> {
        if let Call::Open { threshold, discipline, seed } = *call {
            return open_refusal(threshold, discipline, seed);
        }
        let Some(opened) = &self.opened else {
            return Some(19);
        };
        match *call {
            Call::Open { .. } => None, // answered above
            Call::Join { id, kind, rate, burst } => opened.join_refusal(id, kind, rate, burst),
            Call::Change { id, kind, rate, burst } => opened.change_refusal(id, kind, rate, burst),
            Call::Leave { id } => opened.id_refusal(id),
            Call::Load { id, count } => opened.load_refusal(id, count),
            Call::Arrive { id, length, .. } => opened.arrive_refusal(id, length),
            Call::Tick => None,
        }
    }

    /// Paper 02, S-7: "A refusal 14 or 15 now changes its own count and nothing else." Both are an
    /// arrival's alone, and by then its id is known to be active.
    fn count_refusal(&mut self, call: &Call, number: u32) {
        let (Some(opened), Call::Arrive { id, .. }) = (&mut self.opened, call) else {
            return;
        };
        match number {
            14 => add(&mut opened.client_mut(*id).counts.refused_14, 1),
            15 => add(&mut opened.client_mut(*id).counts.refused_15, 1),
            _ => {}
        }
    }
}

/// "open | 1, 2, 3 | threshold outside 1..1024; discipline above 1; seed 0"
fn open_refusal(threshold: u32, discipline: u32, seed: u32) -> Option<u32> {
    if threshold < 1 || threshold > 1024 {
        return Some(1);
    }
    if discipline > 1 {
        return Some(2);
    }
    if seed == 0 {
        return Some(3);
    }
    None
}

/// "v becomes v xor (v shifted left 13, high bits lost), then v xor (v shifted right 17),
/// then v xor (v shifted left 5)."
pub fn xorshift32(value: u32) -> u32 {
    let mut v = value;
    v = v ^ (v << 13);
    v = v ^ (v >> 17);
    v = v ^ (v << 5);
    v
}

/// Paper 02, S-1: "The draw now gives the target, the new generator state and the number of
/// steps taken."
#[derive(Debug, Clone, PartialEq, Eq)]
pub struct Draw {
    pub target: u32,
    pub generator: u32,
    pub steps: u32,
}

/// Paper 02, S-1: "A value is now thrown away, and the generator stepped again, if it is not below
/// the largest multiple of the rate sum that is at most 4294967296. After the eighth throw in one
/// draw the ninth value counts as it is." Of the value that counts: "The new value modulo the sum
/// of the rates in the draw is the target." "The last v is both the value given and the value
/// kept." Every throw is one step, and the value that counts is one more.
pub fn even_draw(generator: u32, sum: u32) -> Draw {
    let multiple = 4294967296 / u64::from(sum) * u64::from(sum);
    let mut value = xorshift32(generator);
    let mut throws = 0;
    while throws < 8 && u64::from(value) >= multiple {
        value = xorshift32(value);
        throws += 1;
    }
    Draw { target: value % sum, generator: value, steps: throws + 1 }
}

/// The checks: these functions only look.
impl Opened {
    /// "every call with an id | 4 | id above 63" and
    /// "change, leave, load, arrive | 5 | id not active"
    fn id_refusal(&self, id: u32) -> Option<u32> {
        if id > 63 {
            return Some(4);
        }
        if self.clients[id as usize].is_none() {
            return Some(5);
        }
        None
    }

    /// Join: 4, "join | 6 | id active", then the rows of join and change.
    fn join_refusal(&self, id: u32, kind: u32, rate: u32, burst: u32) -> Option<u32> {
        if id > 63 {
            return Some(4);
        }
        if self.clients[id as usize].is_some() {
            return Some(6);
        }
        self.terms_refusal(id, kind, rate, burst)
    }

    /// Change: 4, 5, then the rows of join and change.
    fn change_refusal(&self, id: u32, kind: u32, rate: u32, burst: u32) -> Option<u32> {
        if let Some(number) = self.id_refusal(id) {
            return Some(number);
        }
        self.terms_refusal(id, kind, rate, burst)
    }

    /// "join, change | 7, 8, 9 | type not 1 or 2; rate outside 1..1024; burst outside 1..64
    /// if indifferent, not 0 if private" and "join, change | 10 | rates would pass the threshold"
    fn terms_refusal(&self, id: u32, kind: u32, rate: u32, burst: u32) -> Option<u32> {
        if kind != INDIFFERENT && kind != PRIVATE {
            return Some(7);
        }
        if rate < 1 || rate > 1024 {
            return Some(8);
        }
        if kind == INDIFFERENT && (burst < 1 || burst > 64) {
            return Some(9);
        }
        if kind == PRIVATE && burst != 0 {
            return Some(9);
        }
        if self.rates_of_others(id) + u64::from(rate) > u64::from(self.threshold) {
            return Some(10);
        }
        None
    }

    /// "the old rate is taken off before the threshold is checked": the rates of all active
    /// clients but `id` (which, at a join, is not active anyway).
    fn rates_of_others(&self, id: u32) -> u64 {
        let mut sum: u64 = 0;
        for other in 0..64u32 {
            if let Some(client) = &self.clients[other as usize] {
                if other != id {
                    sum += u64::from(client.rate);
                }
            }
        }
        sum
    }

    /// "load | 11, 12 | client indifferent; pool would pass 255"
    fn load_refusal(&self, id: u32, count: u32) -> Option<u32> {
        if let Some(number) = self.id_refusal(id) {
            return Some(number);
        }
        let client = self.client(id);
        if client.kind == INDIFFERENT {
            return Some(11);
        }
        if u64::from(client.pool) + u64::from(count) > 255 {
            return Some(12);
        }
        None
    }

    /// "arrive | 13 | length outside 64..1518"; 14 if as many packets "wait already" as the id has
    /// places (paper 02, S-9); "arrive | 15 | indifferent and level below 1024"
    fn arrive_refusal(&self, id: u32, length: u32) -> Option<u32> {
        if let Some(number) = self.id_refusal(id) {
            return Some(number);
        }
        let client = self.client(id);
        if length < 64 || length > 1518 {
            return Some(13);
        }
        if client.queue.len() >= PLACES {
            return Some(14);
        }
        if client.kind == INDIFFERENT && client.level < 1024 {
            return Some(15);
        }
        None
    }

    /// The client of an id already known to be active.
    fn client(&self, id: u32) -> &Client {
        self.clients[id as usize].as_ref().expect("the id is active")
    }

    /// The same, to be changed.
    fn client_mut(&mut self, id: u32) -> &mut Client {
        self.clients[id as usize].as_mut().expect("the id is active")
    }
}

/// The calls, once every check has been passed.
impl Opened {
    /// Open "gives a core without clients, in place of any earlier one."
    fn new(threshold: u32, discipline: u32, seed: u32) -> Opened {
        let mut clients = Vec::new();
        for _ in 0..64 {
            clients.push(None);
        }
        Opened { threshold, discipline, generator: seed, accepted: 0, clients }
    }

    /// Does one call that no check refuses.
    fn accepted_call(&mut self, call: &Call) -> Answer {
        match *call {
            Call::Open { .. } => {} // done by Core::perform
            Call::Join { id, kind, rate, burst } => self.join(id, kind, rate, burst),
            Call::Change { id, kind, rate, burst } => self.change(id, kind, rate, burst),
            Call::Leave { id } => self.leave(id),
            Call::Load { id, count } => self.load(id, count),
            Call::Arrive { id, handle, length } => self.arrive(id, handle, length),
            Call::Tick => return Answer::Slot(self.tick().0),
        }
        Answer::Accepted
    }

    /// "A join starts with an empty queue, a pool of 0 and", if indifferent, a bucket "at level 0"
    /// (paper 02, S-4).
    fn join(&mut self, id: u32, kind: u32, rate: u32, burst: u32) {
        self.clients[id as usize] = Some(Client::new(kind, rate, burst));
    }

    /// "If the type differs, queue and pool become empty", and a new indifferent client's bucket
    /// "begins at level 0" (paper 02, S-4). "If the type stays, queue and pool stay, and a level
    /// above the new burst × 1024 comes down to it"; any other level stays as it is. The counts are
    /// "since the join" (S-7), and stay too; the packets that waited are "emptied out".
    fn change(&mut self, id: u32, kind: u32, rate: u32, burst: u32) {
        let client = self.client_mut(id);
        if client.kind != kind {
            let mut counts = client.counts.clone();
            add(&mut counts.emptied, client.queue.len() as u64);
            *client = Client::new(kind, rate, burst);
            client.counts = counts;
        } else {
            client.rate = rate;
            client.burst = burst;
            if client.level > burst * 1024 {
                client.level = burst * 1024;
            }
        }
    }

    /// "Leave empties everything of the id", its counts too.
    fn leave(&mut self, id: u32) {
        self.clients[id as usize] = None;
    }

    /// "Load adds dummies to a private pool".
    fn load(&mut self, id: u32, count: u32) {
        self.client_mut(id).pool += count;
    }

    /// "Arrive puts one packet last in its client's queue. For an indifferent client it also
    /// takes 1024 from the bucket." It is "accepted" (S-7).
    fn arrive(&mut self, id: u32, handle: u64, length: u32) {
        let number = self.accepted;
        self.accepted += 1;
        let client = self.client_mut(id);
        client.queue.push_back(Packet { handle, length, number });
        add(&mut client.counts.accepted, 1);
        if client.kind == INDIFFERENT {
            client.level -= 1024;
        }
    }
}

/// The tick.
impl Opened {
    /// "Tick is one slot": rules 1 to 3 pick, and "Last" comes rule 4, "after the pick".
    fn tick(&mut self) -> Told {
        let told = self.slot();
        self.refill();
        told
    }

    /// Rule 1, "Otherwise" rule 2, "Otherwise the slot has nobody, and the generator is not
    /// stepped."
    fn slot(&mut self) -> Told {
        let waiting = self.indifferent_waiting();
        if !waiting.is_empty() {
            return self.indifferent_slot(&waiting);
        }
        let private = self.private_clients();
        if !private.is_empty() {
            return self.private_slot(&private);
        }
        (Outcome::Nobody, None)
    }

    /// The indifferent clients "with a packet waiting", by rising id.
    fn indifferent_waiting(&self) -> Vec<u32> {
        let mut ids = Vec::new();
        for id in 0..64u32 {
            if let Some(client) = &self.clients[id as usize] {
                if client.kind == INDIFFERENT && !client.queue.is_empty() {
                    ids.push(id);
                }
            }
        }
        ids
    }

    /// "all private clients, waiting or not", by rising id.
    fn private_clients(&self) -> Vec<u32> {
        let mut ids = Vec::new();
        for id in 0..64u32 {
            if let Some(client) = &self.clients[id as usize] {
                if client.kind == PRIVATE {
                    ids.push(id);
                }
            }
        }
        ids
    }

    /// Rule 1: "Discipline 0: the packet accepted earliest among all indifferent clients.
    /// Discipline 1: a draw among those with a packet waiting, then that client's first packet."
    fn indifferent_slot(&mut self, waiting: &[u32]) -> Told {
        let (id, draw) = if self.discipline == 0 {
            (self.earliest(waiting), None)
        } else {
            self.draw(waiting)
        };
        (self.send_first(id).expect("this client waits"), draw)
    }

    /// The client whose first packet is "the packet accepted earliest among all indifferent
    /// clients" (each queue holds its packets in the order in which they were accepted).
    fn earliest(&self, waiting: &[u32]) -> u32 {
        let mut best = waiting[0];
        for &id in waiting {
            if self.client(id).queue[0].number < self.client(best).queue[0].number {
                best = id;
            }
        }
        best
    }

    /// Rule 2: "The one drawn sends its first packet; without one, a dummy, which lowers its
    /// pool by 1; without either, the slot idles." Such a dummy is one of the "dummies sent" (S-7).
    fn private_slot(&mut self, private: &[u32]) -> Told {
        let (id, draw) = self.draw(private);
        if let Some(outcome) = self.send_first(id) {
            return (outcome, draw);
        }
        let client = self.client_mut(id);
        if client.pool > 0 {
            client.pool -= 1;
            add(&mut client.counts.dummies, 1);
            return (Outcome::Dummy { id }, draw);
        }
        (Outcome::Idle { id }, draw)
    }

    /// Takes out a client's first packet, if it has one, which is then "sent" (S-7). "Padding is
    /// 1518 minus the length for a private client and 0 for an indifferent one."
    fn send_first(&mut self, id: u32) -> Option<Outcome> {
        let client = self.client_mut(id);
        let packet = client.queue.pop_front()?;
        add(&mut client.counts.sent, 1);
        let padding = if client.kind == PRIVATE { 1518 - packet.length } else { 0 };
        Some(Outcome::Real { id, handle: packet.handle, length: packet.length, padding })
    }

    /// Paper 02, S-1: "Every user of the draw takes this over." Rules 1 and 2 both draw here, with
    /// "the sum of the rates in the draw", and the new generator state is kept. Beside the client
    /// drawn, "target and rate sum" are given (S-5).
    fn draw(&mut self, ids: &[u32]) -> (u32, Option<(u64, u64)>) {
        let mut sum: u32 = 0;
        for &id in ids {
            sum += self.client(id).rate;
        }
        let draw = even_draw(self.generator, sum);
        self.generator = draw.generator;
        (self.drawn(ids, draw.target), Some((u64::from(draw.target), u64::from(sum))))
    }

    /// "The client drawn is the first, by rising id, at which the running sum of rates exceeds
    /// the target."
    pub fn drawn(&self, ids: &[u32], target: u32) -> u32 {
        let mut running: u32 = 0;
        for &id in ids {
            running += self.client(id).rate;
            if running > target {
                return id;
            }
        }
        panic!("the target is below the sum of the rates")
    }

    /// Rule 4: "for every indifferent client, ... the rate is added, up to burst × 1024."
    fn refill(&mut self) {
        for id in 0..64u32 {
            if let Some(client) = &mut self.clients[id as usize] {
                if client.kind == INDIFFERENT {
                    client.level = (client.level + client.rate).min(client.burst * 1024);
                }
            }
        }
    }
}

/// What S-5 of paper 02 asks of a core.
#[allow(dead_code)] // not every program asks
impl Core {
    /// A tick, with what is told of it; `perform` makes the same one and answers the outcome alone.
    /// `None`: unopened, so that the tick is refused with 19.
    pub fn tick(&mut self) -> Option<Told> {
        let opened = self.opened.as_mut()?;
        Some(opened.tick())
    }
}

/// What S-7 of paper 02 asks of a core: this function only looks.
#[allow(dead_code)] // not every program asks
impl Core {
    /// The sheet of an id: its counts, in the order of S-7, "accepted, sent, refused 14, refused
    /// 15, emptied out, dummies sent", or the number with which it is refused. "An id not active
    /// gives 5", and before it, as for the calls, an unopened core gives 19 and an id above 63
    /// gives 4.
    pub fn counts(&self, id: u32) -> Result<[u64; 6], u32> {
        let Some(opened) = &self.opened else {
            return Err(19);
        };
        if let Some(number) = opened.id_refusal(id) {
            return Err(number);
        }
        let Counts { accepted, sent, refused_14, refused_15, emptied, dummies } =
            opened.client(id).counts;
        Ok([accepted, sent, refused_14, refused_15, emptied, dummies])
    }
}

/// What S-14 of paper 02 asks of a core: these functions only look.
#[allow(dead_code)] // not every program asks
impl Core {
    /// Paper 02, S-14: "Over n ticks without open, hand-over, join, change, leave or change of type
    /// by timetable, on one side of the box, private clients together are picked at least" so
    /// often. The core has one side, and neither hand-overs nor timetables. `None`: unopened.
    pub fn sure_picks(&self, n: u32) -> Option<u32> {
        let opened = self.opened.as_ref()?;
        Some(opened.sure_picks(n))
    }

    /// Whether a tick made now goes by rule 2: no "indifferent client has a packet", and "a private
    /// client is active". "Rule 2 picks the client drawn, whatever it sends." "An unopened core's
    /// tick has no slot", and so no pick.
    pub fn picks_private(&self) -> bool {
        let Some(opened) = &self.opened else {
            return false;
        };
        opened.indifferent_waiting().is_empty() && !opened.private_clients().is_empty()
    }

    /// "An active client is indifferent (type 1) or private (type 2)." Whether the id is that of an
    /// active client, and this is private.
    pub fn is_private(&self, id: u32) -> bool {
        let Some(opened) = &self.opened else {
            return false;
        };
        opened.private_clients().contains(&id)
    }
}

/// The terms of S-14's figure, on numbers of 64 bits.
#[allow(dead_code)] // as above
impl Opened {
    /// Paper 02, S-14: "n minus" the demand, "provided one private client is active"; 0 where none
    /// is, and where the demand passes n: no count of picks is below 0.
    fn sure_picks(&self, n: u32) -> u32 {
        if self.private_clients().is_empty() {
            return 0;
        }
        u64::from(n).saturating_sub(self.demand(n)) as u32 // at most n
    }

    /// Paper 02, S-14: "the indifferent packets waiting there at the start", and "the sum, over
    /// indifferent clients, of (level at the start + n × rate) / 1024 rounded down".
    fn demand(&self, n: u32) -> u64 {
        let mut sum: u64 = 0;
        for client in self.clients.iter().flatten() {
            if client.kind == INDIFFERENT {
                sum += client.queue.len() as u64;
                sum += (u64::from(client.level) + u64::from(n) * u64::from(client.rate)) / 1024;
            }
        }
        sum
    }
}
