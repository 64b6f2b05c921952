//! Paper 02, S-9: "Every id now has 128 places, and 14 comes with 128 waiting." That 14 comes just
//! then, that an id uses its own places and no others, that a place is used again, what empties a
//! full queue and what keeps it, which number comes first, and full queues of private and of
//! indifferent clients under both disciplines. All of it holds for whatever number of places the
//! edition has, from 3 to 128.

use std::collections::VecDeque;

use crate::check::{arrive, core_of, core_with_waiting, counts_mut, level, opened, FULL};
use crate::core::{Answer, Call, Client, Core, Opened, Outcome, Packet, INDIFFERENT, PLACES,
                  PRIVATE};
use crate::maker::Maker;

/// What the calls and their answers tell of a client: its terms, the level of its bucket, and the
/// packets that were accepted and have neither gone nor been emptied out.
struct Seen {
    kind: u32,
    rate: u32,
    burst: u32,
    level: u32,
    packets: VecDeque<Packet>,
}

impl Seen {
    /// "A join starts with an empty queue", and by S-4 with an empty bucket.
    fn new(kind: u32, rate: u32, burst: u32) -> Seen {
        Seen { kind, rate, burst, level: 0, packets: VecDeque::new() }
    }

    /// As it stands in a core.
    fn of(client: &Client) -> Seen {
        let packets = client.queue.clone();
        Seen { level: client.level, packets, ..Seen::new(client.kind, client.rate, client.burst) }
    }

    /// What an arrival gets: "length outside 64..1518", then "14 comes with 128 waiting", whatever
    /// the type and the level are, then "indifferent and level below 1024".
    fn arrival(&self, length: u32) -> Answer {
        if length < 64 || length > 1518 {
            return Answer::Refused(13);
        }
        if self.packets.len() == PLACES {
            return Answer::Refused(14);
        }
        if self.kind == INDIFFERENT && self.level < 1024 {
            return Answer::Refused(15);
        }
        Answer::Accepted
    }

    /// "the rate is added, up to burst × 1024." A private client's burst is 0, and so is its level.
    fn refill(&mut self) {
        self.level = (self.level + self.rate).min(self.burst * 1024);
    }
}

/// No id is active.
fn nobody() -> Vec<Option<Seen>> {
    (0..64).map(|_| None).collect()
}

/// A core and what its answers have told so far. Each answer to an arrival and each slot is set
/// beside this; of the core nothing is looked at but where it starts.
struct Watch {
    core: Core,
    discipline: u32,
    accepted: u64,
    seen: Vec<Option<Seen>>,
    /// How often 14 came to a client of a type, and how often with a token in its bucket.
    met_14: [u32; 3],
    met_with_token: u32,
}

impl Watch {
    /// On an unopened core.
    fn new() -> Watch {
        let (core, seen) = (Core::new(), nobody());
        Watch { core, discipline: 0, accepted: 0, seen, met_14: [0; 3], met_with_token: 0 }
    }

    /// On a core as it stands.
    fn on(core: Core) -> Watch {
        let Opened { discipline, accepted, ref clients, .. } = *opened(&core);
        let seen = clients.iter().map(|client| client.as_ref().map(Seen::of)).collect();
        Watch { core: core.clone(), discipline, accepted, seen, ..Watch::new() }
    }

    /// On a core of threshold 1024 with these clients, each (id, type, rate, burst).
    fn of(discipline: u32, seed: u32, clients: &[(u32, u32, u32, u32)]) -> Watch {
        let mut watch = Watch::new();
        watch.done(&Call::Open { threshold: 1024, discipline, seed });
        for &(id, kind, rate, burst) in clients {
            watch.done(&Call::Join { id, kind, rate, burst });
        }
        watch
    }

    /// Does a call, and sets its answer beside what the earlier ones told.
    fn perform(&mut self, call: &Call) -> Answer {
        let answer = self.core.perform(call);
        match (call, &answer) {
            (&Call::Arrive { id, handle, length }, _) => {
                self.arrived(id, handle, length, &answer);
            }
            (Call::Tick, Answer::Slot(outcome)) => {
                self.sent(outcome);
                self.seen.iter_mut().flatten().for_each(Seen::refill);
            }
            (_, Answer::Accepted) => self.follow(call),
            _ => {}
        }
        answer
    }

    /// An arrival: the answer, and what it does. A packet that is refused changes nothing.
    fn arrived(&mut self, id: u32, handle: u64, length: u32, answer: &Answer) {
        let Some(Some(seen)) = self.seen.get_mut(id as usize) else {
            assert!(matches!(answer, Answer::Refused(4 | 5 | 19)));
            return;
        };
        assert_eq!(*answer, seen.arrival(length));
        if *answer == Answer::Accepted {
            seen.packets.push_back(Packet { handle, length, number: self.accepted });
            self.accepted += 1;
            if seen.kind == INDIFFERENT {
                seen.level -= 1024;
            }
        }
        if *answer == Answer::Refused(14) {
            self.met_14[seen.kind as usize] += 1;
            self.met_with_token += u32::from(seen.level >= 1024);
        }
    }

    /// A slot. A real packet is the first that waits of its id, and of indifferent clients under
    /// discipline 0 "the packet accepted earliest". No other slot comes while an indifferent client
    /// waits, no dummy and no idle one of a client that waits, and none with nobody where a private
    /// client is active.
    fn sent(&mut self, outcome: &Outcome) {
        let Outcome::Real { id, handle, length, padding } = *outcome else {
            assert!(self.none_waits_before(u64::MAX));
            return self.not_sent(outcome);
        };
        let seen = self.client(id);
        let packet = seen.packets.pop_front().expect("a packet waits");
        assert_eq!((handle, length), (packet.handle, packet.length));
        if seen.kind == PRIVATE {
            assert_eq!(padding, 1518 - length);
            assert!(self.none_waits_before(u64::MAX));
        } else {
            assert_eq!(padding, 0);
            assert!(self.discipline == 1 || self.none_waits_before(packet.number));
        }
    }

    fn not_sent(&mut self, outcome: &Outcome) {
        match *outcome {
            Outcome::Dummy { id } | Outcome::Idle { id } => {
                assert_eq!((self.client(id).kind, self.client(id).packets.len()), (PRIVATE, 0));
            }
            _ => assert!(self.seen.iter().flatten().all(|seen| seen.kind == INDIFFERENT)),
        }
    }

    /// Whether no packet of an indifferent client waits that was accepted before this number; of
    /// `u64::MAX`, whether none waits at all.
    fn none_waits_before(&self, number: u64) -> bool {
        let mut indifferent = self.seen.iter().flatten().filter(|seen| seen.kind == INDIFFERENT);
        indifferent.all(|seen| seen.packets.front().is_none_or(|packet| packet.number > number))
    }

    /// What an open, a join, a change and a leave do.
    fn follow(&mut self, call: &Call) {
        match *call {
            Call::Open { discipline, .. } => {
                self.discipline = discipline;
                self.seen = nobody();
            }
            Call::Change { id, kind, rate, burst } if self.client(id).kind == kind => {
                let level = self.client(id).level.min(burst * 1024);
                let packets = std::mem::take(&mut self.client(id).packets);
                *self.client(id) = Seen { level, packets, ..Seen::new(kind, rate, burst) };
            }
            Call::Join { id, kind, rate, burst } | Call::Change { id, kind, rate, burst } => {
                self.seen[id as usize] = Some(Seen::new(kind, rate, burst));
            }
            Call::Leave { id } => self.seen[id as usize] = None,
            _ => {}
        }
    }

    /// What is told of a client that is active.
    fn client(&mut self, id: u32) -> &mut Seen {
        self.seen[id as usize].as_mut().expect("the id is active")
    }

    fn waiting(&mut self, id: u32) -> usize {
        self.client(id).packets.len()
    }

    /// A call that is accepted.
    fn done(&mut self, call: &Call) {
        assert_eq!(self.perform(call), Answer::Accepted);
    }

    fn tick(&mut self) -> Answer {
        self.perform(&Call::Tick)
    }

    /// A packet of some length, so that it can be told from others by both its numbers; and by
    /// either half of its handle (S-6), which is the number given.
    fn arrive(&mut self, id: u32, number: u32) -> Answer {
        let handle = u64::from(number) * 4294967297;
        self.perform(&Call::Arrive { id, handle, length: 64 + (7 * number + id) % 1455 })
    }

    /// Packets of a client until one is refused; with what.
    fn offer(&mut self, id: u32) -> Answer {
        let mut answer = Answer::Accepted;
        while answer == Answer::Accepted {
            answer = self.arrive(id, self.accepted as u32);
        }
        answer
    }

    /// Packets of a client that wants no token for them, or has no place left, until every place is
    /// taken, and 14 for one more.
    fn fill(&mut self, id: u32) {
        assert_eq!(self.offer(id), Answer::Refused(14));
        assert_eq!(self.waiting(id), PLACES);
    }

    /// Ticks until nothing waits; how many.
    fn drain(&mut self) -> u32 {
        let mut ticks = 0;
        while self.seen.iter().flatten().any(|seen| !seen.packets.is_empty()) {
            self.tick();
            ticks += 1;
            assert!(ticks < 100_000);
        }
        ticks
    }
}

/// All 64 ids, private, with a share of 16 each.
fn all_private() -> Vec<(u32, u32, u32, u32)> {
    (0..64).map(|id| (id, PRIVATE, 16, 0)).collect()
}

/// Indifferent client 9 with every place taken and less than a token, behind the last packet of
/// clients 3 and 4. Its rate is 1022 and its burst 2.
fn full_9() -> Watch {
    let mut watch = Watch::on(core_with_waiting([3, 4, 9], FULL));
    assert_eq!(watch.waiting(9), PLACES);
    assert_eq!(watch.waiting(3) + watch.waiting(4), 1);
    assert!(watch.client(9).level < 1024);
    watch
}

/// The client whose packet a slot sends.
fn sender(answer: &Answer) -> u32 {
    match *answer {
        Answer::Slot(Outcome::Real { id, .. }) => id,
        _ => panic!("no packet goes out"),
    }
}

/// "No id uses another's places": each of the 64 has its own, 8,192 in all if each has 128, whether
/// they are taken id by id or in turn, and one packet more of each gets 14. Ticks send them, each
/// from its own queue and in its order.
#[test]
fn s9_every_id() {
    for discipline in [0, 1] {
        let mut by_id = Watch::of(discipline, 1, &all_private());
        let mut in_turn = Watch::of(discipline, 1, &all_private());
        for turn in 0..64 * FULL {
            assert_eq!(by_id.arrive(turn / FULL, turn), Answer::Accepted);
            assert_eq!(in_turn.arrive(63 - turn % 64, turn), Answer::Accepted);
        }
        for mut watch in [by_id, in_turn] {
            (0..64).for_each(|id| watch.fill(id));
            assert!(watch.drain() >= 64 * FULL);
        }
    }
}

/// One full queue leaves every other id all its places: those next to it and those far from it.
#[test]
fn s9_full_beside_others() {
    for full in [0, 1, 31, 62, 63] {
        let mut watch = Watch::of(0, 1, &all_private());
        watch.fill(full);
        for id in (0..64).filter(|&id| id != full) {
            assert_eq!(watch.arrive(id, 1), Answer::Accepted);
            watch.fill(id);
        }
        watch.fill(full);
    }
}

/// The same beside a full queue of an indifferent client.
#[test]
fn s9_full_beside_an_indifferent_client() {
    let mut watch = full_9();
    watch.done(&Call::Change { id: 9, kind: INDIFFERENT, rate: 1000, burst: 64 });
    for id in [8, 10] {
        watch.done(&Call::Join { id, kind: PRIVATE, rate: 11, burst: 0 });
        watch.fill(id);
    }
    watch.fill(9);
    assert!(watch.drain() > 3 * FULL);
}

/// "a place is used again once its packet has gone": behind each tick that sends one, one more is
/// accepted and the next gets 14, three times round; the packets go in the order of acceptance.
#[test]
fn s9_used_again() {
    let mut watch = Watch::of(0, 1, &[(63, PRIVATE, 1024, 0)]);
    watch.fill(63);
    for handle in FULL..4 * FULL {
        assert_eq!(sender(&watch.tick()), 63);
        assert_eq!(watch.arrive(63, handle), Answer::Accepted);
        assert_eq!(watch.arrive(63, handle + 1), Answer::Refused(14));
    }
    assert_eq!(watch.drain(), FULL);
    assert_eq!(watch.tick(), Answer::Slot(Outcome::Idle { id: 63 }));
}

/// The same of an indifferent client. When the last packet of the others has gone its bucket fills
/// up to 2048. From then on a tick brings 1022, and the packet that finds the place takes 1024: two
/// less each time, for the one that is refused with 14 takes nothing.
#[test]
fn s9_used_again_by_an_indifferent_client() {
    let mut watch = full_9();
    assert_eq!(sender(&watch.tick()), 4);
    watch.fill(9);
    for turn in 0..3 * FULL {
        assert_eq!(sender(&watch.tick()), 9);
        assert_eq!(watch.client(9).level, 2048 - 2 * turn);
        assert_eq!(watch.arrive(9, turn), Answer::Accepted);
        assert_eq!(watch.arrive(9, turn), Answer::Refused(14));
    }
    assert_eq!(level(&watch.core, 9), 1024 - 2 * (3 * FULL - 1));
    assert_eq!(watch.drain(), FULL);
}

/// The calls that empty a queue of client 5, with a join where there has to be one; behind them it
/// is private.
fn emptying() -> Vec<Vec<Call>> {
    let to = |kind, burst| Call::Change { id: 5, kind, rate: 500, burst };
    let join = Call::Join { id: 5, kind: PRIVATE, rate: 500, burst: 0 };
    let open = Call::Open { threshold: 1024, discipline: 1, seed: 7 };
    vec![
        vec![to(INDIFFERENT, 64), to(PRIVATE, 0)],
        vec![to(INDIFFERENT, 64), Call::Tick, Call::Tick, Call::Tick, to(PRIVATE, 0)],
        vec![Call::Leave { id: 5 }, join.clone()],
        vec![Call::Leave { id: 5 }, Call::Tick, join.clone()],
        vec![open, join],
    ]
}

/// A change of type, a leave and an open empty a full queue: none of its packets goes out, and
/// every place is there again. A queue beside it keeps its packets, but for the open.
#[test]
fn s9_emptied() {
    for calls in emptying() {
        let mut watch = Watch::of(0, 1, &[(5, PRIVATE, 500, 0), (6, PRIVATE, 500, 0)]);
        watch.fill(5);
        watch.fill(6);
        for call in &calls {
            assert!(!matches!(watch.perform(call), Answer::Refused(_)));
        }
        assert_eq!(watch.waiting(5), 0);
        watch.fill(5);
        if watch.seen[6].is_some() {
            watch.fill(6);
            assert!(watch.drain() >= 2 * FULL);
        } else {
            assert_eq!(watch.drain(), FULL);
        }
    }
}

/// So they do of an indifferent client. It then begins with no token, so that its next packet gets
/// 15 where 14 came before; but as a private client it has every place at once.
#[test]
fn s9_emptied_of_an_indifferent_client() {
    let to = |kind, burst| Call::Change { id: 9, kind, rate: 1022, burst };
    let join = Call::Join { id: 9, kind: INDIFFERENT, rate: 1022, burst: 2 };
    let open = Call::Open { threshold: 1024, discipline: 0, seed: 1 };
    for calls in [[to(PRIVATE, 0), to(INDIFFERENT, 2)], [Call::Leave { id: 9 }, join.clone()],
                  [open, join]] {
        let mut watch = full_9();
        assert_eq!(watch.arrive(9, 1), Answer::Refused(14));
        watch.done(&calls[0]);
        watch.done(&calls[1]);
        assert_eq!(watch.arrive(9, 1), Answer::Refused(15));
        assert!(watch.drain() <= 1); // the last packet of the others
        assert_eq!(watch.tick(), Answer::Slot(Outcome::Nobody));
        watch.done(&to(PRIVATE, 0));
        watch.fill(9);
        assert_eq!(watch.drain(), FULL);
    }
}

/// "If the type stays, queue and pool stay": a full queue is still full, of either type, whatever
/// the new rate and burst are.
#[test]
fn s9_kept() {
    let mut watch = Watch::of(0, 1, &[(5, PRIVATE, 500, 0)]);
    watch.fill(5);
    for rate in [1, 1024, 500] {
        watch.done(&Call::Change { id: 5, kind: PRIVATE, rate, burst: 0 });
        watch.fill(5);
    }
    assert_eq!(watch.drain(), FULL);
    let mut watch = full_9();
    for (rate, burst) in [(1, 1), (1022, 64), (500, 2)] {
        watch.done(&Call::Change { id: 9, kind: INDIFFERENT, rate, burst });
        watch.fill(9);
    }
    assert_eq!(watch.drain(), FULL + 1);
}

/// "Checks run down the table": of a full queue 13 comes before 14, and 14 before 15, whether a
/// token is there or not. "and nothing changes": not a token, not a place, nothing of the core but,
/// by S-7, the count of a 14.
#[test]
fn s9_order_of_numbers() {
    let mut private = Watch::on(core_of(&[(9, PRIVATE, 1024, 0)]));
    private.fill(9);
    let mut with_token = full_9();
    with_token.tick(); // sends the last of the others
    assert!(level(&with_token.core, 9) >= 1024);
    for mut core in [private.core, full_9().core, with_token.core] {
        let mut wanted = core.clone();
        for (length, number) in [(63, 13), (1519, 13), (0, 13), (64, 14), (1000, 14), (1518, 14)] {
            assert_eq!(arrive(&mut core, 9, 4294967295, length), Answer::Refused(number));
            counts_mut(&mut wanted, 9).refused_14 += u64::from(number == 14);
            assert_eq!(core, wanted);
        }
    }
}

/// A bucket has 64 tokens at most, and a tick brings one at most. So a client that offers all it
/// can, with no packets of other indifferent clients before its own, never has more than 64
/// waiting, and 14 does not come if it has more places. Packets of private clients do not count:
/// they wait until its own have gone.
#[test]
fn s9_no_others() {
    for discipline in [0, 1] {
        let clients = [(9, INDIFFERENT, 1000, 64), (5, PRIVATE, 24, 0)];
        let mut watch = Watch::of(discipline, 1, &clients);
        (0..66).for_each(|_| assert_eq!(watch.tick(), Answer::Slot(Outcome::Idle { id: 5 })));
        watch.fill(5);
        assert_eq!(watch.client(9).level, 65536);
        let mut most = 0;
        for _ in 0..1000 {
            let answer = watch.offer(9);
            assert_eq!(answer == Answer::Refused(14), watch.waiting(9) == PLACES);
            most = most.max(watch.waiting(9));
            watch.tick();
        }
        assert_eq!(most, PLACES.min(64));
        assert_eq!(watch.met_14[INDIFFERENT as usize] > 0, PLACES <= 64);
    }
}

/// P4 under discipline 1. Client 9 has half of the shares, and clients 1 and 2 have a quarter each.
/// From full buckets on all three offer what they can. As many tokens come as packets go, and whose
/// packets go is drawn: from these seeds, within 14,000 ticks, so few of client 9 that every place
/// of it is taken. 14 comes again and again, with less than a token in the bucket and with more.
#[test]
fn s9_weighted_draw() {
    for seed in [1, 2, 4] {
        let clients = [(1, INDIFFERENT, 256, 64), (2, INDIFFERENT, 256, 64),
                       (9, INDIFFERENT, 512, 64)];
        let mut watch = Watch::of(1, seed, &clients);
        (0..256).for_each(|_| assert_eq!(watch.tick(), Answer::Slot(Outcome::Nobody)));
        let mut sent = [0; 2];
        for _ in 0..16_000 {
            let full = [1, 2, 9].map(|id| watch.offer(id))[2] == Answer::Refused(14);
            sent[usize::from(sender(&watch.tick()) == 9)] += u32::from(full);
        }
        // A tick behind 14 sends a packet of another client, or one of client 9, whose place is
        // used again.
        assert!(sent[0] > 100 && sent[1] > 100, "{:?}", sent);
        assert!(watch.met_with_token > 100);
        assert!(watch.met_with_token < watch.met_14[INDIFFERENT as usize]);
    }
}

/// The calls of long runs. Here too 14 comes where, by all answers before, every place of the id is
/// taken, and nowhere else, and what goes out is what was accepted, in its order. From these seeds
/// a queue of an indifferent client gets full too, which with 128 places is seldom so early in a
/// run.
#[test]
fn s9_long_run() {
    for seed in [25, 54, 66] {
        let mut maker = Maker::new(seed);
        let mut watch = Watch::new();
        for _ in 0..150_000 {
            watch.perform(&maker.next_call());
        }
        assert!(watch.met_14[PRIVATE as usize] > 1000);
        assert!(watch.met_14[INDIFFERENT as usize] > 0);
    }
}
