//! Paper 02, S-4: "A bucket now begins at level 0 after a join and after a change from private to
//! indifferent." Where it begins, what keeps it and what does not, when the first packet comes, and
//! that no way of switching gives a client more than its ticks as an indifferent one have bought.

use crate::check::{arrive, change, core_of, fill, join, level, load, opened, ticks, Chance};
use crate::core::{Answer, Call, Client, Core, INDIFFERENT, PRIVATE};

fn client(core: &Core, id: usize) -> &Client {
    opened(core).clients[id].as_ref().unwrap()
}

fn leave(core: &mut Core, id: u32) -> Answer {
    core.perform(&Call::Leave { id })
}

/// The bucket of client 3 is empty: its level is 0, and a packet gets 15 and leaves it so.
fn assert_empty(core: &mut Core) {
    assert_eq!(level(core, 3), 0);
    assert_eq!(arrive(core, 3, 1, 64), Answer::Refused(15));
    assert_eq!(level(core, 3), 0);
}

/// "at level 0 after a join", whatever rate and burst are. A private client has no bucket: its
/// level is 0, ticks leave it so, and no packet of it wants a token.
#[test]
fn s4_join() {
    for (rate, burst) in [(1, 1), (200, 1), (1024, 1), (1, 64), (1024, 64)] {
        assert_empty(&mut core_of(&[(3, INDIFFERENT, rate, burst)]));
    }
    let mut core = core_of(&[(3, PRIVATE, 1024, 0)]);
    ticks(&mut core, 9);
    assert_eq!(level(&core, 3), 0);
    assert_eq!(arrive(&mut core, 3, 1, 64), Answer::Accepted);
    assert_eq!(level(&core, 3), 0);
}

/// "and after a change from private to indifferent", whatever waited and lay in the pool, and
/// however many ticks it was private.
#[test]
fn s4_change_from_private() {
    for (rate, burst, before) in [(1, 1, 0), (1024, 1, 0), (1024, 64, 0), (1024, 64, 100)] {
        let mut core = core_of(&[(3, PRIVATE, 500, 0)]);
        ticks(&mut core, before);
        load(&mut core, 3, 7);
        assert_eq!(arrive(&mut core, 3, 1, 64), Answer::Accepted);
        assert_eq!(change(&mut core, 3, INDIFFERENT, rate, burst), Answer::Accepted);
        assert_empty(&mut core);
        assert!(client(&core, 3).queue.is_empty());
        assert_eq!(client(&core, 3).pool, 0);
    }
}

/// "Leave empties everything of the id", and the join behind it begins at 0 like any other; so does
/// one behind a second open.
#[test]
fn s4_leave_and_join_again() {
    let mut core = core_of(&[(3, INDIFFERENT, 512, 4)]);
    for away in [0, 20] {
        fill(&mut core, 3);
        assert_eq!(leave(&mut core, 3), Answer::Accepted);
        ticks(&mut core, away);
        assert_eq!(join(&mut core, 3, INDIFFERENT, 512, 4), Answer::Accepted);
        assert_empty(&mut core);
    }
    fill(&mut core, 3);
    let open = Call::Open { threshold: 1024, discipline: 0, seed: 1 };
    assert_eq!(core.perform(&open), Answer::Accepted);
    assert_eq!(join(&mut core, 3, INDIFFERENT, 512, 4), Answer::Accepted);
    assert_empty(&mut core);
}

/// "If the type stays, queue and pool stay, and a level above the new burst × 1024 comes down to
/// it." A level at or below it stays, whatever the rate; a larger burst gives nothing, and nothing
/// back that a smaller one took.
#[test]
fn s4_change_that_keeps_the_type() {
    let mut core = core_of(&[(3, INDIFFERENT, 700, 6)]);
    assert_eq!(change(&mut core, 3, INDIFFERENT, 900, 64), Answer::Accepted);
    assert_empty(&mut core);
    change(&mut core, 3, INDIFFERENT, 700, 6);
    ticks(&mut core, 7); // 4900
    for (rate, burst, wanted) in [(700, 6, 4900), (1, 6, 4900), (1024, 64, 4900), (700, 5, 4900),
                                  (700, 4, 4096), (700, 4, 4096), (700, 64, 4096), (1, 1, 1024),
                                  (1, 2, 1024)] {
        assert_eq!(change(&mut core, 3, INDIFFERENT, rate, burst), Answer::Accepted);
        assert_eq!(level(&core, 3), wanted);
    }
    core.perform(&Call::Tick); // the rate is the new one
    assert_eq!(level(&core, 3), 1025);
    assert_eq!(arrive(&mut core, 3, 1, 64), Answer::Accepted);
    assert_eq!(change(&mut core, 3, INDIFFERENT, 1, 1), Answer::Accepted);
    assert_eq!((level(&core, 3), client(&core, 3).queue.len()), (1, 1));
}

/// "the first that fails gives its number, and nothing changes": a refused join or change keeps the
/// level, to whichever type it was.
#[test]
fn s4_refused_changes() {
    let mut core = core_of(&[(3, INDIFFERENT, 300, 4), (5, PRIVATE, 100, 0)]);
    ticks(&mut core, 5);
    let refused = [(0, 300, 4, 7), (3, 300, 4, 7), (INDIFFERENT, 0, 4, 8), (PRIVATE, 1025, 0, 8),
                   (INDIFFERENT, 300, 0, 9), (INDIFFERENT, 300, 65, 9), (PRIVATE, 300, 1, 9),
                   (INDIFFERENT, 925, 1, 10), (PRIVATE, 925, 0, 10)];
    for (kind, rate, burst, number) in refused {
        assert_eq!(change(&mut core, 3, kind, rate, burst), Answer::Refused(number));
        assert_eq!(level(&core, 3), 1500);
    }
    assert_eq!(join(&mut core, 3, INDIFFERENT, 300, 4), Answer::Refused(6));
    assert_eq!(level(&core, 3), 1500);
    assert_eq!(arrive(&mut core, 3, 1, 64), Answer::Accepted);
}

/// From indifferent to private and back, at once or with ticks between: a full bucket is gone, and
/// no packet is accepted before a whole token is there again.
#[test]
fn s4_there_and_back() {
    for between in [0, 1, 50] {
        let mut core = core_of(&[(3, INDIFFERENT, 341, 64)]);
        fill(&mut core, 3);
        assert_eq!(change(&mut core, 3, PRIVATE, 341, 0), Answer::Accepted);
        assert_eq!(level(&core, 3), 0);
        ticks(&mut core, between);
        assert_eq!(level(&core, 3), 0);
        assert_eq!(change(&mut core, 3, INDIFFERENT, 341, 64), Answer::Accepted);
        assert_empty(&mut core);
        for wanted in [341, 682, 1023] {
            core.perform(&Call::Tick);
            assert_eq!(level(&core, 3), wanted);
            assert_eq!(arrive(&mut core, 3, 1, 64), Answer::Refused(15));
        }
        core.perform(&Call::Tick); // 1364
        assert_eq!(arrive(&mut core, 3, 1, 64), Answer::Accepted);
        assert_eq!(level(&core, 3), 340);
    }
}

/// How many ticks pass before the first packet of client 3 is accepted.
fn ticks_to_the_first(core: &mut Core) -> u32 {
    for n in 0..=1024 {
        match arrive(core, 3, 1, 64) {
            Answer::Accepted => return n,
            answer => assert_eq!(answer, Answer::Refused(15)),
        }
        core.perform(&Call::Tick);
    }
    panic!("1024 ticks give a token at every rate")
}

/// The first packet is accepted after 1024 / rate ticks, rounded up, whatever the burst: each holds
/// one token. So it is behind a join, behind a change from private and behind leave and join.
#[test]
fn s4_first_packet() {
    let wanted = [(1, 1024), (2, 512), (3, 342), (16, 64), (200, 6), (341, 4), (342, 3), (511, 3),
                  (512, 2), (1023, 2), (1024, 1)];
    for (rate, first) in wanted {
        for burst in [1, 2, 64] {
            let mut core = core_of(&[(3, INDIFFERENT, rate, burst)]);
            assert_eq!(ticks_to_the_first(&mut core), first, "{} {}", rate, burst);
            fill(&mut core, 3);
            leave(&mut core, 3);
            join(&mut core, 3, INDIFFERENT, rate, burst);
            assert_eq!(ticks_to_the_first(&mut core), first, "{} {}", rate, burst);
            fill(&mut core, 3);
            change(&mut core, 3, PRIVATE, rate, 0);
            change(&mut core, 3, INDIFFERENT, rate, burst);
            assert_eq!(ticks_to_the_first(&mut core), first, "{} {}", rate, burst);
        }
    }
}

/// Client 3 while indifferent: the ticks so spent, the sum of its rates at them and the largest of
/// its rates, how often it became indifferent, and the packets accepted.
#[derive(Default)]
struct Account {
    ticks: u32,
    sum: u32,
    largest: u32,
    begun: u32,
    accepted: u32,
}

impl Account {
    fn is_on(&self, core: &Core) -> bool {
        opened(core).clients[3].as_ref().is_some_and(|client| client.kind == INDIFFERENT)
    }

    /// A call of client 3 that may make it indifferent, or give it another rate.
    fn switch(&mut self, core: &mut Core, call: &Call) {
        let before = self.is_on(core);
        core.perform(call);
        if self.is_on(core) {
            self.begun += u32::from(!before);
            self.largest = self.largest.max(client(core, 3).rate);
        }
    }

    fn tick(&mut self, core: &mut Core) {
        if self.is_on(core) {
            self.ticks += 1;
            self.sum += client(core, 3).rate;
        }
        core.perform(&Call::Tick);
    }

    /// All that it can: packets until one is refused.
    fn offer(&mut self, core: &mut Core) {
        while self.is_on(core) && arrive(core, 3, 1, 64) == Answer::Accepted {
            self.accepted += 1;
        }
    }

    /// No more than what its ticks have bought. Every level that a switch leaves is lost.
    fn assert_bought(&self) {
        assert!(self.accepted <= self.sum / 1024);
        assert!(self.accepted <= self.ticks * self.largest / 1024);
    }
}

/// A call by which client 3 switches as it likes: to the other type, within its type, away or back.
fn chance_switch(core: &Core, most: u32, chance: &mut Chance) -> Call {
    let kind = if chance.below(2) == 0 { INDIFFERENT } else { PRIVATE };
    let rate = 1 + chance.below(most);
    let burst = if kind == INDIFFERENT { 1 + chance.below(64) } else { 0 };
    if opened(core).clients[3].is_none() {
        return Call::Join { id: 3, kind, rate, burst };
    }
    match chance.below(8) {
        0 => Call::Leave { id: 3 },
        _ => Call::Change { id: 3, kind, rate, burst },
    }
}

/// A sequence of 400 calls: in one of `seldom` client 3 switches, and the others are ticks. Behind
/// each it offers all it can. Beside it are a private client 5, and an indifferent client 7 whose
/// packets go out among its own.
fn chance_sequence(seldom: u32, most: u32, chance: &mut Chance) -> Account {
    let mut core = core_of(&[(5, PRIVATE, 12, 0), (7, INDIFFERENT, 12, 2)]);
    let mut account = Account::default();
    for _ in 0..400 {
        if chance.below(seldom) == 0 {
            let call = chance_switch(&core, most, chance);
            account.switch(&mut core, &call);
        } else {
            account.tick(&mut core);
        }
        arrive(&mut core, 7, 1, 64);
        account.offer(&mut core);
        account.assert_bought();
    }
    account
}

/// The point of S-4 ("tenants learnt that each switch hands them a full burst"): over any changes
/// of type and ticks a client is accepted, while indifferent, at most (n × largest rate) / 1024
/// times in the n ticks so spent. Among the sequences are some that get just what their ticks
/// bought, some that lost a part of it by switching, and some that would pass it with one packet a
/// switch.
#[test]
fn s4_switching() {
    let mut chance = Chance { v: 4 };
    let (mut just, mut lost, mut would_pass) = (0, 0, 0);
    for count in 0..3000 {
        let seldom = [2, 8, 50, 400][count % 4];
        let most = [30, 200, 1000][chance.below(3) as usize];
        let account = chance_sequence(seldom, most, &mut chance);
        just += u32::from(account.accepted > 0 && account.accepted == account.sum / 1024);
        lost += u32::from(account.accepted > 0 && account.accepted < account.sum / 1024);
        would_pass += u32::from(account.accepted + account.begun > account.ticks * account.largest / 1024);
    }
    assert!(just > 100 && lost > 100 && would_pass > 100, "{} {} {}", just, lost, would_pass);
}

/// A client that switches there and back behind every tick gets nothing at a rate below 1024,
/// whatever its burst; and at 1024 one packet a tick, as without a switch.
#[test]
fn s4_switching_at_every_tick() {
    for (rate, wanted) in [(1, 0), (512, 0), (1023, 0), (1024, 2000)] {
        let mut core = core_of(&[(3, INDIFFERENT, rate, 64)]);
        let mut account = Account { largest: rate, ..Account::default() };
        for _ in 0..2000 {
            account.offer(&mut core);
            account.tick(&mut core);
            account.offer(&mut core);
            account.switch(&mut core, &Call::Change { id: 3, kind: PRIVATE, rate, burst: 0 });
            account.switch(&mut core, &Call::Change { id: 3, kind: INDIFFERENT, rate, burst: 64 });
            account.assert_bought();
        }
        assert_eq!((account.accepted, account.ticks, account.begun), (wanted, 2000, 2000));
    }
}

/// The same greed without a switch: of burst 2 or more it gets all that the ticks bought.
#[test]
fn s4_staying() {
    for rate in [1, 341, 1023, 1024] {
        let mut core = core_of(&[(3, INDIFFERENT, rate, 2)]);
        let mut account = Account { largest: rate, ..Account::default() };
        for n in 1..=2500 {
            account.offer(&mut core);
            account.tick(&mut core);
            account.offer(&mut core);
            assert_eq!(account.accepted, n * rate / 1024);
        }
    }
}
