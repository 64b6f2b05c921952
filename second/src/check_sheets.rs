//! Paper 02, S-5: "The reason for each slot, in words." Every kind of line to the byte, under both
//! disciplines; a tenant that comes, switches and goes; the numbers of a refused sheet; what prints
//! nothing. Over scripts of chance: a line for each tick, the draw beside a record of its own, each
//! sentence read back, a tenant's lines beside the operator's, and two histories that differ in
//! what other private clients send and load. The bytes are those of docs/MANUAL.md; the targets are
//! paper 01's and S-4's, or were worked out by hand from the three values of P1.

use std::collections::HashSet;

use crate::check::{opened, Chance, EXAMPLE};
use crate::core::{even_draw, Answer, Call, Client, Core, Outcome, INDIFFERENT, PRIVATE};
use crate::maker::Maker;
use crate::script::{numbers_in, print, run, LARGEST_HANDLE};
use crate::sheet::{facts, line, operator, sentence, tenant, views, Fact, View};

const INDIFFERENT_ONE: &str = "The slot went to an indifferent client.\n";
const ANOTHER: &str = "The slot went to another private client.\n";
const NOBODY: &str = "Nobody had the slot.\n";

fn operators(text: &str) -> String {
    String::from_utf8(operator(text.as_bytes())).unwrap()
}

fn tenants(text: &str, id: u32) -> String {
    String::from_utf8(tenant(text.as_bytes(), id)).unwrap()
}

fn refused(number: u32) -> String {
    format!("(refused {})\n", number)
}

/// Of paper 01's script. S-4: "the four ticks have the targets 369, 289, 261 and 95." So 5, 2, 2
/// and 2 are drawn.
const EXAMPLE_LINES: [&str; 4] = [
    "Client 5 had nothing to send, drawn at target 369 of a rate sum of 400.\n",
    "Client 2 sent packet 17 of 64 bytes with 1454 bytes of padding, \
     drawn at target 289 of a rate sum of 400.\n",
    "Client 2 sent a dummy packet, drawn at target 261 of a rate sum of 400.\n",
    "Client 2 had nothing to send, drawn at target 95 of a rate sum of 400.\n",
];

#[test]
fn s5_example() {
    let [first, second, third, fourth] = EXAMPLE_LINES;
    assert_eq!(operators(EXAMPLE), EXAMPLE_LINES.concat());
    assert_eq!(tenants(EXAMPLE, 2), [ANOTHER, second, third, fourth].concat());
    assert_eq!(tenants(EXAMPLE, 5), [first, ANOTHER, ANOTHER, ANOTHER].concat());
}

/// The numbers of the example: 11 for the indifferent client, 5 for ids that are not active, 63
/// included, and 4 for ids above 63.
#[test]
fn s5_example_refused() {
    for (id, number) in [(3, 11), (0, 5), (4, 5), (63, 5), (64, 4), (65, 4), (4294967295, 4)] {
        assert_eq!(tenants(EXAMPLE, id), refused(number).repeat(4), "{}", id);
    }
}

/// The same as values.
#[test]
fn s5_example_facts() {
    let packet = Outcome::Real { id: 2, handle: 17, length: 64, padding: 1454 };
    let wanted = [(Outcome::Idle { id: 5 }, 369), (packet, 289), (Outcome::Dummy { id: 2 }, 261),
                  (Outcome::Idle { id: 2 }, 95)];
    let wanted = wanted.map(|(outcome, target)| Fact::Slot { outcome, draw: Some((target, 400)) });
    assert_eq!(facts(EXAMPLE.as_bytes()), Some(wanted.to_vec()));
    let [_, second, third, fourth] = wanted;
    let own = [second, third, fourth].map(View::Own);
    assert_eq!(views(EXAMPLE.as_bytes(), 2), Some([&[View::AnotherPrivate], &own[..]].concat()));
    assert_eq!(views(EXAMPLE.as_bytes(), 3), Some(vec![View::Refused(11); 4]));
}

/// Two indifferent clients, each with a packet, and two private ones. Client 7 has its token after
/// 11 ticks, which have nobody, so that the generator still has its seed.
fn two_of_each(discipline: u32) -> String {
    format!("(open 1024 {} 1)\n(join 3 (indifferent 300 1))\n(join 7 (indifferent 100 1))\n{}\
             (join 2 (private 600))\n(join 9 (private 24))\n\
             (arrive 3 (packet 30 100))\n(arrive 7 (packet 71 1518))\n(tick)\n(tick)\n(tick)\n",
            discipline, "(tick)\n".repeat(11))
}

/// The tenants' sheets of `two_of_each`, given its last line, which is client 2's.
fn assert_tenants(text: &str, last: &str) {
    let before = format!("{}{}", refused(5).repeat(11), INDIFFERENT_ONE.repeat(2));
    assert_eq!(tenants(text, 2), format!("{}{}", before, last));
    assert_eq!(tenants(text, 9), format!("{}{}", before, ANOTHER));
    assert_eq!(tenants(text, 3), refused(11).repeat(14));
    assert_eq!(tenants(text, 7), refused(11).repeat(14));
    assert_eq!(tenants(text, 8), refused(5).repeat(14));
}

/// Discipline 0: no draw among the indifferent clients, and "the packet accepted earliest" first.
/// The first draw is the private clients': 270369 is 433 × 624 + 177.
#[test]
fn s5_first_come_first_served() {
    let last = "Client 2 had nothing to send, drawn at target 177 of a rate sum of 624.\n";
    let sent = "Client 3 sent packet 30 of 100 bytes with 0 bytes of padding, \
                first come first served.\n\
                Client 7 sent packet 71 of 1518 bytes with 0 bytes of padding, \
                first come first served.\n";
    let text = two_of_each(0);
    assert_eq!(operators(&text), format!("{}{}{}", NOBODY.repeat(11), sent, last));
    assert_tenants(&text, last);
}

/// Discipline 1: "a draw among those with a packet waiting", so of 400 and then, with client 3
/// alone, of 300: 67634689 is 225448 × 300 + 289. The private clients draw with the third value:
/// 2647435461 is 4242685 × 624 + 21.
#[test]
fn s5_weighted_draw() {
    let last = "Client 2 had nothing to send, drawn at target 21 of a rate sum of 624.\n";
    let sent = "Client 7 sent packet 71 of 1518 bytes with 0 bytes of padding, \
                drawn at target 369 of a rate sum of 400.\n\
                Client 3 sent packet 30 of 100 bytes with 0 bytes of padding, \
                drawn at target 289 of a rate sum of 300.\n";
    let text = two_of_each(1);
    assert_eq!(operators(&text), format!("{}{}{}", NOBODY.repeat(11), sent, last));
    assert_tenants(&text, last);
}

/// A sole private client of id 63 and rate 1, with the shortest padding and the longest handle of
/// the edition: its sheet is the operator's. "1 bytes" is as the form has it.
#[test]
fn s5_sole_client() {
    let text = format!("(open 1 1 1)\n(join 63 (private 1))\n(load 63 1)\n\
                        (arrive 63 (packet 0 1518))\n(arrive 63 (packet {} 1517))\n\
                        (tick)\n(tick)\n(tick)\n(tick)\n", LARGEST_HANDLE);
    let wanted = format!("Client 63 sent packet 0 of 1518 bytes with 0 bytes of padding#\
                          Client 63 sent packet {} of 1517 bytes with 1 bytes of padding#\
                          Client 63 sent a dummy packet#Client 63 had nothing to send#",
                         LARGEST_HANDLE);
    let wanted = wanted.replace('#', ", drawn at target 0 of a rate sum of 1.\n");
    assert_eq!(operators(&text), wanted);
    assert_eq!(tenants(&text, 63), wanted);
    assert_eq!(tenants(&text, 0), refused(5).repeat(4));
    assert_eq!(tenants(&text, 64), refused(4).repeat(4));
}

/// S-1: the target is that of the value that counts. The seed's first value, 4294967295, is thrown
/// away for the sum 641, since 641 × 6700416 is 4294966656; the next one is 253983, which is
/// 396 × 641 + 147.
#[test]
fn s5_thrown_away() {
    let text = "(open 1024 0 1584200935)\n(join 0 (private 641))\n(tick)\n";
    let wanted = "Client 0 had nothing to send, drawn at target 147 of a rate sum of 641.\n";
    assert_eq!(operators(text), wanted);
    assert_eq!(tenants(text, 0), wanted);
}

/// Client 2 is there and not, private and not: each tick tells it what it is "then". The values of
/// P1 are drawn one by one, by 400 with client 2 private and by 100 with client 5 alone.
const SWITCHING: &str = "(tick)
(open 1024 0 1)
(tick)
(join 5 (private 100))
(join 2 (private 300))
(tick)
(change 2 (indifferent 300 1))
(tick)
(leave 2)
(tick)
(join 2 (private 300))
(tick)
(change 2 (indifferent 1 1))
(change 2 (private 300))
(leave 5)
(join 5 (indifferent 100 1))
(open 0 0 1)
(change 2 (private 9999))
(open 1024 0 1)
(tick)
(join 2 (private 1000))
(tick)
";

#[test]
fn s5_switching() {
    let idle = |id: u32, target: u32, sum: u32| {
        format!("Client {} had nothing to send, drawn at target {} of a rate sum of {}.\n",
                id, target, sum)
    };
    // 270369 is 270 × 1000 + 369
    let last = [idle(2, 95, 400), NOBODY.to_string(), idle(2, 369, 1000)];
    let first = [refused(19), NOBODY.to_string(), idle(5, 369, 400), idle(5, 89, 100),
                 idle(5, 61, 100)];
    assert_eq!(operators(SWITCHING), first.concat() + &last.concat());
    let wanted = [refused(19), refused(5), ANOTHER.to_string(), refused(11), refused(5),
                  idle(2, 95, 400), refused(5), idle(2, 369, 1000)];
    assert_eq!(tenants(SWITCHING, 2), wanted.concat());
    for id in [64, 4294967295] {
        assert_eq!(tenants(SWITCHING, id), refused(19) + &refused(4).repeat(7));
    }
    assert_eq!(tenants(SWITCHING, 63), refused(19) + &refused(5).repeat(7));
}

/// A tenant's packet that waits goes with its change of type, and a packet that it sends while
/// indifferent is not on its sheet: 11 is there. Client 5 is told of that slot as of any other's.
#[test]
fn s5_own_slot_while_indifferent() {
    let text = "(open 1024 0 1)\n(join 2 (private 1000))\n(join 5 (private 24))\n\
                (arrive 2 (packet 8 64))\n(change 2 (indifferent 1000 1))\n(tick)\n(tick)\n\
                (arrive 2 (packet 9 64))\n(tick)\n";
    // 270369 is 11265 × 24 + 9, and 67634689 is 2818112 × 24 + 1
    let idle = ["Client 5 had nothing to send, drawn at target 9 of a rate sum of 24.\n",
                "Client 5 had nothing to send, drawn at target 1 of a rate sum of 24.\n"].concat();
    let sent = "Client 2 sent packet 9 of 64 bytes with 0 bytes of padding, \
                first come first served.\n";
    assert_eq!(operators(text), format!("{}{}", idle, sent));
    assert_eq!(tenants(text, 5), format!("{}{}", idle, INDIFFERENT_ONE));
    assert_eq!(tenants(text, 2), refused(11).repeat(3));
}

/// "19 on an unopened core" comes first, whatever the id; a refused open leaves it unopened.
#[test]
fn s5_unopened() {
    let text = "(tick)\n(open 0 0 1)\n(tick)\n(open 1 2 1)\n(join 2 (private 1))\n(open 1 0 0)\n\
                (tick)\n";
    assert_eq!(operators(text), refused(19).repeat(3));
    assert_eq!(facts(text.as_bytes()), Some(vec![Fact::Refused(19); 3]));
    for id in [0, 2, 63, 64, 4294967295] {
        assert_eq!(tenants(text, id), refused(19).repeat(3));
        assert_eq!(views(text.as_bytes(), id), Some(vec![View::Refused(19); 3]));
    }
}

/// A core without clients: nobody's slots, and 5 before 64 and 4 from there on.
#[test]
fn s5_no_clients() {
    let text = "(open 1 0 1)\n(tick)\n(tick)\n";
    assert_eq!(operators(text), NOBODY.repeat(2));
    for id in [0, 62, 63, 64, 65, 127, 128, 256, 320, 4294967232, 4294967295] {
        assert_eq!(tenants(text, id), refused(if id < 64 { 5 } else { 4 }).repeat(2));
    }
}

/// "A text over 60,000 bytes prints the one line `(refused 18)`, as ever"; 60,000 are read.
#[test]
fn s5_size() {
    let ticks = "(tick)\n".repeat(8571);
    let most = format!("{}\n\n\n", ticks);
    assert_eq!(most.len(), 60000);
    assert_eq!(operators(&most), refused(19).repeat(8571));
    assert_eq!(tenants(&most, 64), refused(19).repeat(8571));
    assert_eq!(facts(most.as_bytes()).map(|facts| facts.len()), Some(8571));
    for more in [format!("{}\n", most), format!("{}    ", ticks), "x".repeat(60001)] {
        assert_eq!(operators(&more), refused(18));
        assert_eq!(facts(more.as_bytes()), None);
        for id in [0, 64] {
            assert_eq!(tenants(&more, id), refused(18));
            assert_eq!(views(more.as_bytes(), id), None);
        }
    }
}

/// Lines that yield no form: 16 or 17 in a printout, and nothing on a sheet.
pub const BAD: [&str; 14] = [
    "", "(tick", "(tick) ", " (tick)", "(tick)\r", "(tick 1)", "(Tick)", "tick", "((tick))",
    "(tick)(tick)", "(slot (none))", "(leave 4294967296)", "(open 1024 0 4294967296)",
    "(arrive 2 (packet 18446744073709551616 64))",
];

/// "nothing for any other line of the script, whether it holds a call or not (bytes behind the last
/// line feed print nothing either)".
#[test]
fn s5_other_lines() {
    assert_eq!(operators(""), "");
    assert_eq!(tenants("", 2), "");
    let calls = "(open 1024 0 1)\n(join 2 (private 300))\n(load 2 0)\n(leave 2)\n(leave 2)\n";
    assert_eq!((operators(calls), tenants(calls, 2)), (String::new(), String::new()));
    for bad in BAD {
        let text = EXAMPLE.replace('\n', &format!("\n{}\n", bad));
        assert_eq!(operators(&text), EXAMPLE_LINES.concat(), "{:?}", bad);
        assert_eq!(tenants(&text, 5), tenants(EXAMPLE, 5));
        assert_eq!(operators(&format!("{}\n", bad)), "");
        assert_eq!(tenants(&format!("{}\n", bad), 64), "");
    }
    for behind in ["(tick)", "(open 1 0 1)", "x", "\r"] {
        assert_eq!(operators(&format!("{}{}", EXAMPLE, behind)), EXAMPLE_LINES.concat());
        assert_eq!(tenants(&format!("{}{}", EXAMPLE, behind), 5), tenants(EXAMPLE, 5));
        assert_eq!((operators(behind), tenants(behind, 5)), (String::new(), String::new()));
    }
}

/// docs/MANUAL.md, "The operator's sheet": the lines of the table, with `#` for each number.
const PACKET_DRAWN: &str = "Client # sent packet # of # bytes with # bytes of padding, \
                            drawn at target # of a rate sum of #.";
const PACKET_IN_ORDER: &str = "Client # sent packet # of # bytes with # bytes of padding, \
                               first come first served.";
const DUMMY: &str = "Client # sent a dummy packet, drawn at target # of a rate sum of #.";
const IDLE: &str = "Client # had nothing to send, drawn at target # of a rate sum of #.";

/// What a line of the operator's sheet says, read from its words alone. As every fact is read back
/// from its line, "Slots that differ in any of these have different sentences".
fn read_back(text: &str) -> Fact {
    let numbers = |shape: &str| -> Option<Vec<u64>> {
        let digits = numbers_in(shape.as_bytes(), text.as_bytes())?;
        Some(digits.iter().map(|n| std::str::from_utf8(n).unwrap().parse().unwrap()).collect())
    };
    let real = |n: &[u64]| Outcome::Real {
        id: n[0] as u32,
        handle: n[1],
        length: n[2] as u32,
        padding: n[3] as u32,
    };
    if let Some(n) = numbers(PACKET_DRAWN) {
        Fact::Slot { outcome: real(&n), draw: Some((n[4], n[5])) }
    } else if let Some(n) = numbers(PACKET_IN_ORDER) {
        Fact::Slot { outcome: real(&n), draw: None }
    } else if let Some(n) = numbers(DUMMY) {
        Fact::Slot { outcome: Outcome::Dummy { id: n[0] as u32 }, draw: Some((n[1], n[2])) }
    } else if let Some(n) = numbers(IDLE) {
        Fact::Slot { outcome: Outcome::Idle { id: n[0] as u32 }, draw: Some((n[1], n[2])) }
    } else if let Some(n) = numbers("(refused #)") {
        Fact::Refused(n[0] as u32)
    } else {
        assert_eq!(text, "Nobody had the slot.");
        Fact::Slot { outcome: Outcome::Nobody, draw: None }
    }
}

/// Facts at the ends of every number, and such that numbers side by side could be taken for one.
fn many_facts() -> Vec<Fact> {
    let mut facts = vec![Fact::Refused(19), Fact::Slot { outcome: Outcome::Nobody, draw: None }];
    let draws = [(0, 1), (0, 11), (1, 2), (1, 11), (11, 12), (11, 111), (0, 1024), (1023, 1024)];
    for id in [0, 1, 6, 11, 63] {
        let mut outcomes = vec![Outcome::Dummy { id }, Outcome::Idle { id }];
        for handle in [0, 1, 11, 111, 4294967295, 4294967296, 18446744073709551615] {
            for (length, padding) in [(64, 0), (64, 1454), (111, 0), (111, 1407), (1111, 0),
                                      (1111, 407), (1407, 0), (1407, 111), (1517, 1), (1518, 0)] {
                outcomes.push(Outcome::Real { id, handle, length, padding });
            }
        }
        for outcome in outcomes {
            if let Outcome::Real { .. } = outcome {
                facts.push(Fact::Slot { outcome: outcome.clone(), draw: None });
            }
            for draw in draws {
                facts.push(Fact::Slot { outcome: outcome.clone(), draw: Some(draw) });
            }
        }
    }
    facts
}

/// "Slots that differ in any of these have different sentences", and the three lines of a tenant's
/// sheet are "never alike", nor like a refusal.
#[test]
fn s5_different_sentences() {
    let mut seen = HashSet::from([line(&View::Indifferent), line(&View::AnotherPrivate)]);
    assert_eq!(seen.len(), 2);
    for number in [4, 5, 11] {
        assert!(seen.insert(line(&View::Refused(number))));
    }
    for fact in many_facts() {
        let text = sentence(&fact);
        assert_eq!(read_back(text.strip_suffix('\n').unwrap()), fact);
        assert_eq!(line(&View::Own(fact.clone())), text);
        assert!(seen.insert(text), "{:?}", fact);
    }
}

/// The ids of the scripts of chance, and those above 63.
pub const IDS: [u32; 6] = [0, 1, 2, 3, 40, 63];
const ABOVE: [u32; 2] = [64, 4294967295];

/// One of the ids; now and then one that never joins, or one above 63.
pub fn chance_id(chance: &mut Chance) -> u32 {
    match chance.below(20) {
        0 => ABOVE[chance.below(2) as usize],
        1 => 50,
        _ => IDS[chance.below(6) as usize],
    }
}

pub fn chance_open(chance: &mut Chance) -> Call {
    Call::Open { threshold: 1024, discipline: chance.below(2), seed: chance.below(1000) }
}

/// A type with its burst.
pub fn chance_kind(chance: &mut Chance) -> (u32, u32) {
    match chance.below(2) {
        0 => (PRIVATE, 0),
        _ => (INDIFFERENT, 1 + chance.below(4)),
    }
}

/// An arrival or a load.
fn chance_sending(chance: &mut Chance) -> Call {
    let id = chance_id(chance);
    match chance.below(3) {
        0 => Call::Load { id, count: chance.below(4) },
        _ => {
            let handle = u64::from(chance.below(1000000));
            Call::Arrive { id, handle, length: 63 + chance.below(1457) }
        }
    }
}

fn chance_call(chance: &mut Chance) -> Call {
    let (kind, burst) = chance_kind(chance);
    match chance.below(60) {
        0 | 1 => Call::Leave { id: chance_id(chance) },
        2..=5 => Call::Join { id: chance_id(chance), kind, rate: 1 + chance.below(170), burst },
        6 | 7 => Call::Change { id: chance_id(chance), kind, rate: 1 + chance.below(170), burst },
        8 if chance.below(4) == 0 => chance_open(chance),
        8..=32 => chance_sending(chance),
        _ => Call::Tick,
    }
}

/// A script's calls: an open, which is sometimes behind a tick and sometimes refused with 3, all
/// clients, and 150 calls more.
fn chance_calls(chance: &mut Chance) -> Vec<Call> {
    let mut calls = vec![Call::Tick; chance.below(2) as usize];
    calls.push(chance_open(chance));
    for id in IDS {
        let (kind, burst) = chance_kind(chance);
        calls.push(Call::Join { id, kind, rate: 1 + chance.below(170), burst });
    }
    for _ in 0..150 {
        calls.push(chance_call(chance));
    }
    calls
}

/// A call as a line of a script, without its line feed.
fn form(call: &Call) -> String {
    let terms = |kind: u32, rate: u32, burst: u32| match kind {
        PRIVATE => format!("(private {})", rate),
        _ => format!("(indifferent {} {})", rate, burst),
    };
    match *call {
        Call::Open { threshold, discipline, seed } => {
            format!("(open {} {} {})", threshold, discipline, seed)
        }
        Call::Join { id, kind, rate, burst } => {
            format!("(join {} {})", id, terms(kind, rate, burst))
        }
        Call::Change { id, kind, rate, burst } => {
            format!("(change {} {})", id, terms(kind, rate, burst))
        }
        Call::Leave { id } => format!("(leave {})", id),
        Call::Load { id, count } => format!("(load {} {})", id, count),
        Call::Arrive { id, handle, length } => {
            format!("(arrive {} (packet {} {}))", id, handle, length)
        }
        Call::Tick => "(tick)".to_string(),
    }
}

/// The calls as a script, with bad lines among them, and sometimes bytes behind the last line feed.
pub fn script(calls: &[Call], chance: &mut Chance) -> String {
    let mut text = String::new();
    for call in calls {
        if chance.below(20) == 0 {
            text.push_str(&format!("{}\n", BAD[chance.below(14) as usize]));
        }
        text.push_str(&format!("{}\n", form(call)));
    }
    if chance.below(3) == 0 {
        text.push_str("(tick)");
    }
    text
}

/// The draw that a tick made now has to make: none under rule 1 with discipline 0, and none where
/// the slot has nobody; else "a draw among those with a packet waiting" or "among all private
/// clients, waiting or not", with the sum of their rates and the target of S-1.
fn record(core: &Core) -> Option<(u64, u64)> {
    let opened = opened(core);
    let is_waiting = |client: &&Client| client.kind == INDIFFERENT && !client.queue.is_empty();
    let mut drawn: Vec<&Client> = opened.clients.iter().flatten().filter(is_waiting).collect();
    if !drawn.is_empty() && opened.discipline == 0 {
        return None;
    }
    if drawn.is_empty() {
        drawn.extend(opened.clients.iter().flatten().filter(|client| client.kind == PRIVATE));
    }
    if drawn.is_empty() {
        return None;
    }
    let sum = drawn.iter().map(|client| client.rate).sum();
    Some((u64::from(even_draw(opened.generator, sum).target), u64::from(sum)))
}

/// The facts of some calls, from the answers to them and the record.
fn recorded(calls: &[Call]) -> Vec<Fact> {
    let mut core = Core::new();
    let mut facts = Vec::new();
    for call in calls {
        let draw = core.opened.is_some().then(|| record(&core)).flatten();
        let answer = core.perform(call);
        match (call, answer) {
            (Call::Tick, Answer::Slot(outcome)) => facts.push(Fact::Slot { outcome, draw }),
            (Call::Tick, Answer::Refused(number)) => facts.push(Fact::Refused(number)),
            _ => {}
        }
    }
    facts
}

/// Of each kind of line how many there were: a packet drawn, one in order, a dummy, an idle slot,
/// nobody's, 19.
fn count_facts(counts: &mut [u32; 6], facts: &[Fact]) {
    for fact in facts {
        let kind = match fact {
            Fact::Slot { outcome: Outcome::Real { .. }, draw: Some(_) } => 0,
            Fact::Slot { outcome: Outcome::Real { .. }, draw: None } => 1,
            Fact::Slot { outcome: Outcome::Dummy { .. }, .. } => 2,
            Fact::Slot { outcome: Outcome::Idle { .. }, .. } => 3,
            Fact::Slot { outcome: Outcome::Nobody, .. } => 4,
            Fact::Refused(_) => 5,
        };
        counts[kind] += 1;
    }
}

/// Scripts of chance: the operator's sheet has a line for each tick, the facts are those of the
/// record, and each is read back from its line. The printout has the same outcomes.
#[test]
fn s5_operators_scripts() {
    let mut chance = Chance { v: 5 };
    let mut counts = [0; 6];
    for _ in 0..1000 {
        let calls = chance_calls(&mut chance);
        let text = script(&calls, &mut chance);
        let told = facts(text.as_bytes()).unwrap();
        assert_eq!(told, recorded(&calls));
        let sheet = operators(&text);
        assert_eq!(sheet.lines().count(), calls.iter().filter(|&c| *c == Call::Tick).count());
        assert!(sheet.is_empty() || sheet.ends_with('\n'));
        let read: Vec<Fact> = sheet.lines().map(read_back).collect();
        assert_eq!(read, told);
        let slots = told.iter().filter_map(|fact| match fact {
            Fact::Slot { outcome, .. } => Some(print(&Answer::Slot(outcome.clone()))),
            Fact::Refused(_) => None,
        });
        let printout = String::from_utf8(run(text.as_bytes())).unwrap();
        let printed = printout.lines().filter(|line| line.starts_with("(slot"));
        assert!(slots.eq(printed.map(|line| format!("{}\n", line))));
        count_facts(&mut counts, &told);
    }
    assert!(counts.iter().all(|&count| count > 250), "{:?}", counts);
}

/// What the client is to be told of a tick that is made now, from the rules and the fact: 19, 4, 5
/// and 11 in this order, its own slot, or else the rule by which the slot goes.
fn told_by_the_rules(core: &Core, id: u32, fact: &Fact) -> View {
    let Some(opened) = &core.opened else {
        return View::Refused(19);
    };
    let kind = opened.clients.get(id as usize).map(|c| c.as_ref().map_or(0, |c| c.kind));
    match kind {
        None => View::Refused(4),
        Some(INDIFFERENT) => View::Refused(11),
        Some(PRIVATE) if sentence(fact).starts_with(&format!("Client {} ", id)) => {
            View::Own(fact.clone())
        }
        Some(PRIVATE) if core.picks_private() => View::AnotherPrivate,
        Some(PRIVATE) => View::Indifferent,
        _ => View::Refused(5),
    }
}

/// The views of some calls, told by the rules.
fn told(calls: &[Call], id: u32) -> Vec<View> {
    let mut core = Core::new();
    let mut facts = recorded(calls).into_iter();
    let mut views = Vec::new();
    for call in calls {
        if *call == Call::Tick {
            views.push(told_by_the_rules(&core, id, &facts.next().unwrap()));
        }
        core.perform(call);
    }
    views
}

/// Scripts of chance: a tenant's sheet has a line for each tick, and "its own slot in the
/// operator's sentence". No other line of it bears an id.
#[test]
fn s5_tenants_scripts() {
    let mut chance = Chance { v: 55 };
    let mut own = 0;
    let mut seen = HashSet::new();
    for count in 0..1000 {
        let calls = chance_calls(&mut chance);
        let text = script(&calls, &mut chance);
        let id = [0, 1, 2, 3, 40, 63, 50, 64, 4294967295][count % 9];
        let views = views(text.as_bytes(), id).unwrap();
        assert_eq!(views, told(&calls, id));
        let (operators, sheet) = (operators(&text), tenants(&text, id));
        assert_eq!(sheet.lines().count(), operators.lines().count());
        assert_eq!(sheet.lines().count(), views.len());
        for ((line, operators), view) in sheet.lines().zip(operators.lines()).zip(views) {
            if let View::Own(_) = view {
                assert_eq!(line, operators);
                assert!(line.starts_with(&format!("Client {} ", id)));
                own += 1;
            } else {
                seen.insert(line.to_string());
            }
        }
    }
    assert!(own > 1000, "{}", own);
    let others = [INDIFFERENT_ONE, ANOTHER, "(refused 4)\n", "(refused 5)\n", "(refused 11)\n",
                  "(refused 19)\n"];
    assert_eq!(seen, others.iter().map(|line| line.trim_end().to_string()).collect());
}

/// Paper 01, "Two histories": "Struck out are the arrives and loads naming another id that is not
/// indifferent at their place, an inactive one or one above 63 too."
pub fn is_struck_out(core: &Core, call: &Call, chosen: u32) -> bool {
    let (Call::Arrive { id, .. } | Call::Load { id, .. }) = *call else {
        return false;
    };
    let clients = core.opened.as_ref().map_or(&[][..], |opened| &opened.clients[..]);
    let client = clients.get(id as usize).and_then(|client| client.as_ref());
    id != chosen && client.is_none_or(|client| client.kind != INDIFFERENT)
}

/// Another history, which differs in what is struck out alone: some of it is left out, and before
/// every call there may be more.
fn other_history(calls: &[Call], chosen: u32, chance: &mut Chance) -> Vec<Call> {
    let mut core = Core::new();
    let mut other = Vec::new();
    for call in calls {
        for _ in 0..chance.below(3) {
            let more = chance_sending(chance);
            if is_struck_out(&core, &more, chosen) {
                other.push(more);
            }
        }
        if !is_struck_out(&core, call, chosen) || chance.below(2) == 0 {
            other.push(call.clone());
        }
        core.perform(call);
    }
    other
}

/// "Nothing that other private tenants send or load alters a line of it": two scripts that differ
/// in this alone have the same tenant's sheet, though most have not the same operator's.
#[test]
fn s5_two_histories() {
    let mut chance = Chance { v: 555 };
    let (mut own, mut different) = (0, 0);
    for count in 0..1000 {
        let id = IDS[count % 6];
        let calls = chance_calls(&mut chance);
        let other = other_history(&calls, id, &mut chance);
        let text = script(&calls, &mut chance);
        let other = script(&other, &mut chance);
        let sheet = tenants(&text, id);
        assert_eq!(sheet, tenants(&other, id));
        own += sheet.matches("Client").count();
        different += u32::from(operators(&text) != operators(&other));
    }
    assert!(own > 1000 && different > 500, "{} {}", own, different);
}

/// In the example: client 5 sends and loads, or does not, and client 2's sheet stays as it is; what
/// client 5 sends is on its own.
#[test]
fn s5_neighbour() {
    let calls = "(load 5 9)\n(arrive 5 (packet 1 64))\n(load 6 1)\n(arrive 6 (packet 2 64))\n\
                 (arrive 64 (packet 3 64))\n(load 2 1)\n";
    let text = EXAMPLE.replace("(load 2 1)\n", calls);
    assert_eq!(tenants(&text, 2), tenants(EXAMPLE, 2));
    assert_eq!(tenants(&text, 5), format!("Client 5 sent packet 1 of 64 bytes with 1454 bytes of \
                                           padding, drawn at target 369 of a rate sum of 400.\n{}",
                                          ANOTHER.repeat(3)));
}

/// A long run on two cores, with the ticks of one performed and those of the other told: the same
/// answers and the same core, so that telling changes nothing.
#[test]
fn s5_told_ticks() {
    let mut maker = Maker::new(5);
    let (mut plain, mut telling) = (Core::new(), Core::new());
    for count in 0..100_000 {
        let call = maker.next_call();
        let answer = plain.perform(&call);
        let told = if call == Call::Tick {
            telling.tick().map_or(Answer::Refused(19), |(outcome, _)| Answer::Slot(outcome))
        } else {
            telling.perform(&call)
        };
        assert_eq!(answer, told);
        if count % 100 == 0 {
            assert_eq!(plain, telling);
        }
    }
}
