//! The printed example, P1 to P12, every number of the table, the draw of S-1, the stretch of S-10,
//! the figure of S-14, the grammar of the script and the calls of a long run. Expected values are
//! the papers' own; the seeds and values of S-1's draws and the figures of S-14 were reckoned apart
//! from this program. "A bucket now begins at level 0" (paper 02, S-4): a case that needs tokens
//! waits for them first. "Every id now has 128 places" (S-9): the checks hold for whatever number
//! the edition has, from 3 to 128, and what was reckoned for one of them says so.

use crate::core::{even_draw, xorshift32, Answer, Call, Core, Counts, Draw, Opened, Outcome,
                  INDIFFERENT, PLACES, PRIVATE};
use crate::maker::{arrival, call, Maker, Time};
use crate::script::{number, parse, run, sure, Line};

/// As many packets as an id has places.
pub const FULL: u32 = PLACES as u32;

pub fn printed(text: &str) -> String {
    String::from_utf8(run(text.as_bytes())).unwrap()
}

/// The last line printed, without its line feed.
pub fn last(text: &str) -> String {
    printed(text).lines().last().unwrap().to_string()
}

pub fn open(core: &mut Core, threshold: u32, discipline: u32, seed: u32) {
    let call = Call::Open { threshold, discipline, seed };
    assert_eq!(core.perform(&call), Answer::Accepted);
}

pub fn join(core: &mut Core, id: u32, kind: u32, rate: u32, burst: u32) -> Answer {
    core.perform(&Call::Join { id, kind, rate, burst })
}

pub fn change(core: &mut Core, id: u32, kind: u32, rate: u32, burst: u32) -> Answer {
    core.perform(&Call::Change { id, kind, rate, burst })
}

pub fn arrive(core: &mut Core, id: u32, handle: u64, length: u32) -> Answer {
    core.perform(&Call::Arrive { id, handle, length })
}

pub fn load(core: &mut Core, id: u32, count: u32) -> Answer {
    core.perform(&Call::Load { id, count })
}

pub fn opened(core: &Core) -> &Opened {
    core.opened.as_ref().unwrap()
}

pub fn level(core: &Core, id: usize) -> u32 {
    opened(core).clients[id].as_ref().unwrap().level
}

/// A client's counts (S-7), to be set: the checks' own way, which no call has.
pub fn counts_mut(core: &mut Core, id: usize) -> &mut Counts {
    &mut core.opened.as_mut().unwrap().clients[id].as_mut().unwrap().counts
}

/// The number of a client's packets that wait.
pub fn waiting(core: &Core, id: usize) -> u32 {
    opened(core).clients[id].as_ref().unwrap().queue.len() as u32
}

pub fn ticks(core: &mut Core, times: u32) {
    for _ in 0..times {
        core.perform(&Call::Tick);
    }
}

/// As many ticks as the bucket of an indifferent client takes to be full.
pub fn fill(core: &mut Core, id: usize) {
    let client = opened(core).clients[id].as_ref().unwrap();
    let (top, rate) = (client.burst * 1024, client.rate);
    ticks(core, (top - client.level).div_ceil(rate));
    assert_eq!(level(core, id), top);
}

pub const EXAMPLE: &str = "(open 1024 0 1)
(join 2 (private 300))
(join 5 (private 100))
(join 3 (indifferent 200 1))
(load 2 1)
(arrive 2 (packet 17 64))
(arrive 3 (packet 90 1518))
(arrive 3 (packet 91 64))
(tick)
(tick)
(tick)
(tick)
(arrive 5 (packet 40 63))
";

const EXAMPLE_PRINTOUT: &str = "(ok)
(ok)
(ok)
(ok)
(ok)
(ok)
(refused 15)
(refused 15)
(slot (idle 5))
(slot (real 2 17 64 1454))
(slot (dummy 2))
(slot (idle 2))
(refused 13)
";

/// S-4: "both arrivals of client 3 are now refused with 15, so the four ticks have the targets 369,
/// 289, 261 and 95." So 5, 2, 2 and 2 are drawn; 2 has one packet and one dummy, 5 has neither.
#[test]
fn example() {
    assert_eq!(printed(EXAMPLE), EXAMPLE_PRINTOUT);
    let mut value = 1;
    for target in [369, 289, 261, 95] {
        value = xorshift32(value);
        assert_eq!(value % 400, target);
    }
}

const OK: &str = "(ok)\n";
const NONE: &str = "(slot (none))\n";

#[test]
fn p1_generator() {
    assert_eq!(xorshift32(1), 270369);
    assert_eq!(xorshift32(270369), 67634689);
    assert_eq!(xorshift32(67634689), 2647435461);
}

#[test]
fn p2_draw() {
    let mut core = Core::new();
    open(&mut core, 1024, 0, 1);
    join(&mut core, 2, PRIVATE, 300, 0);
    join(&mut core, 5, PRIVATE, 100, 0);
    assert_eq!(opened(&core).drawn(&[2, 5], 299), 2);
    assert_eq!(opened(&core).drawn(&[2, 5], 300), 5);
}

#[test]
fn p3_lengths() {
    let mut core = Core::new();
    open(&mut core, 1024, 0, 1);
    join(&mut core, 0, PRIVATE, 1, 0);
    assert_eq!(arrive(&mut core, 0, 1, 63), Answer::Refused(13));
    assert_eq!(arrive(&mut core, 0, 1, 1519), Answer::Refused(13));
    assert_eq!(arrive(&mut core, 0, 1, 64), Answer::Accepted);
    assert_eq!(arrive(&mut core, 0, 1, 1518), Answer::Accepted);
}

/// Client 9, behind packets of others, offers what it can, and again behind each tick, until it
/// meets 14; how many ticks.
fn ticks_to_14(core: &mut Core) -> u32 {
    for n in 0..FULL {
        if offer(core, FULL + 1).1 == 14 {
            return n;
        }
        core.perform(&Call::Tick);
    }
    panic!("every place is taken before a packet of it goes")
}

/// S-9: "P4 reads 128th and 129th." A bucket has 64 tokens at most, so that client 9 waits behind
/// packets of others and offers what 1022 shares bring it. With 128 places it takes 65 ticks: of
/// 65536 + 65 × 1022 = 131966 the 128 packets take all but 894. With 32 it has them at once, and 32
/// tokens are left. One packet more gets 14 and "takes no token", whatever level the ticks bring,
/// until the first one goes, behind the last of the others.
#[test]
fn p4_places() {
    let mut core = core_behind([3, 4, 9], 64, true);
    let n = ticks_to_14(&mut core);
    let left = 65536 + n * 1022 - FULL * 1024;
    assert!(PLACES != 128 || (n, left) == (65, 894));
    assert!(PLACES != 32 || (n, left) == (0, 32768));
    for more in 0..=FULL - n {
        assert_eq!((waiting(&core, 9), level(&core, 9)), (FULL, left + more * 1022));
        assert_eq!(arrive(&mut core, 9, 1, 64), Answer::Refused(14));
        assert_eq!((waiting(&core, 9), level(&core, 9)), (FULL, left + more * 1022));
        core.perform(&Call::Tick);
    }
    assert_eq!((waiting(&core, 9), level(&core, 9)), (FULL - 1, 65536)); // full again
    assert_eq!(arrive(&mut core, 9, 2, 64), Answer::Accepted);
    assert_eq!(arrive(&mut core, 9, 3, 64), Answer::Refused(14));
    assert_eq!((waiting(&core, 9), level(&core, 9)), (FULL, 63 * 1024));
}

/// P4 of a private client, which has no tokens.
#[test]
fn p4_private() {
    let mut core = core_of(&[(0, PRIVATE, 1024, 0)]);
    arrive_times(&mut core, 0, FULL);
    assert_eq!(arrive(&mut core, 0, 1, 64), Answer::Refused(14));
    assert_eq!(waiting(&core, 0), FULL);
}

#[test]
fn p5_level() {
    let mut core = Core::new();
    open(&mut core, 1024, 0, 1);
    join(&mut core, 0, INDIFFERENT, 1, 1);
    assert_eq!(arrive(&mut core, 0, 1, 64), Answer::Refused(15));
    ticks(&mut core, 1023);
    assert_eq!(level(&core, 0), 1023);
    assert_eq!(arrive(&mut core, 0, 2, 64), Answer::Refused(15));
    core.perform(&Call::Tick);
    assert_eq!(level(&core, 0), 1024);
    assert_eq!(arrive(&mut core, 0, 3, 64), Answer::Accepted);
    assert_eq!(level(&core, 0), 0);
}

#[test]
fn p6_threshold() {
    let mut core = Core::new();
    open(&mut core, 1000, 0, 1);
    join(&mut core, 0, PRIVATE, 800, 0);
    assert_eq!(join(&mut core, 1, PRIVATE, 201, 0), Answer::Refused(10));
    assert_eq!(join(&mut core, 1, PRIVATE, 200, 0), Answer::Accepted);
}

#[test]
fn p7_change_of_rate() {
    let mut core = Core::new();
    open(&mut core, 1000, 0, 1);
    join(&mut core, 0, PRIVATE, 800, 0);
    assert_eq!(change(&mut core, 0, PRIVATE, 1001, 0), Answer::Refused(10));
    assert_eq!(change(&mut core, 0, PRIVATE, 1000, 0), Answer::Accepted);
}

#[test]
fn p8_pool() {
    let mut core = Core::new();
    open(&mut core, 1000, 0, 1);
    join(&mut core, 0, PRIVATE, 800, 0);
    assert_eq!(load(&mut core, 0, 255), Answer::Accepted);
    assert_eq!(load(&mut core, 0, 0), Answer::Accepted);
    assert_eq!(load(&mut core, 0, 1), Answer::Refused(12));
    assert_eq!(load(&mut core, 0, 4294967295), Answer::Refused(12));
}

#[test]
fn p9_nobody() {
    let text = "(open 1024 0 7)\n(join 1 (indifferent 5 5))\n(tick)\n";
    assert_eq!(last(text), "(slot (none))");
    let mut core = Core::new();
    open(&mut core, 1024, 1, 7);
    join(&mut core, 1, INDIFFERENT, 5, 5);
    core.perform(&Call::Tick);
    assert_eq!(opened(&core).generator, 7);
}

#[test]
fn p10_change_of_type() {
    for (old, old_burst, new, new_burst) in [(1, 9, 2, 0), (2, 0, 1, 9)] {
        let mut core = Core::new();
        open(&mut core, 1024, 0, 7);
        join(&mut core, 1, old, 512, old_burst);
        ticks(&mut core, 8); // four tokens, if it is indifferent
        for handle in 0..3 {
            assert_eq!(arrive(&mut core, 1, handle, 64), Answer::Accepted);
        }
        assert_eq!(change(&mut core, 1, new, 512, new_burst), Answer::Accepted);
        assert!(opened(&core).clients[1].as_ref().unwrap().queue.is_empty());
        assert_eq!(level(&core, 1), 0);
    }
}

#[test]
fn p11_first_come() {
    // Four ticks give each client two tokens.
    let text = "(open 1024 0 7)\n(join 3 (indifferent 512 5))\n(join 7 (indifferent 512 5))\n\
                (tick)\n(tick)\n(tick)\n(tick)\n\
                (arrive 3 (packet 1 64))\n(arrive 7 (packet 2 64))\n(arrive 3 (packet 3 64))\n\
                (tick)\n(tick)\n(tick)\n(tick)\n";
    let wanted = "(slot (real 3 1 64 0))\n(slot (real 7 2 64 0))\n(slot (real 3 3 64 0))\n\
                  (slot (none))\n";
    assert_eq!(printed(text), format!("{}{}{}{}", OK.repeat(3), NONE.repeat(4), OK.repeat(3),
                                      wanted));
}

#[test]
fn p12_join_of_an_active_id() {
    let mut core = Core::new();
    open(&mut core, 1024, 0, 7);
    join(&mut core, 1, PRIVATE, 5, 0);
    assert_eq!(join(&mut core, 1, 9, 5, 0), Answer::Refused(6));
    assert_eq!(join(&mut core, 64, 9, 5, 0), Answer::Refused(4));
    assert_eq!(join(&mut core, 2, 9, 0, 0), Answer::Refused(7));
    assert_eq!(join(&mut core, 2, 0, 5, 0), Answer::Refused(7));
    assert_eq!(join(&mut core, 2, PRIVATE, 5, 1), Answer::Refused(9));
}

#[test]
fn table_unopened_and_open() {
    for line in ["(tick)", "(leave 64)", "(load 0 0)", "(arrive 0 (packet 0 0))",
                 "(join 64 (private 0))", "(change 0 (indifferent 1 1))"] {
        assert_eq!(last(&format!("{}\n", line)), "(refused 19)");
        assert_eq!(last(&format!("(open 0 0 1)\n{}\n", line)), "(refused 19)");
    }
    assert_eq!(last("(open 0 2 0)\n"), "(refused 1)");
    assert_eq!(last("(open 1025 2 0)\n"), "(refused 1)");
    assert_eq!(last("(open 1024 2 0)\n"), "(refused 2)");
    assert_eq!(last("(open 1 1 0)\n"), "(refused 3)");
    assert_eq!(last("(open 1 1 4294967295)\n"), "(ok)");
    assert_eq!(last("(open 9 0 1)\n(join 1 (private 9))\n(open 0 0 1)\n(leave 1)\n"), "(ok)");
    assert_eq!(last("(open 9 0 1)\n(join 1 (private 9))\n(open 9 0 1)\n(leave 1)\n"),
               "(refused 5)");
}

#[test]
fn table_clients() {
    let cases = [
        ("(leave 64)", "4"), ("(leave 3)", "5"), ("(load 64 0)", "4"), ("(load 3 256)", "5"),
        ("(load 1 256)", "11"), ("(load 2 256)", "12"), ("(arrive 64 (packet 0 0))", "4"),
        ("(arrive 3 (packet 0 0))", "5"), ("(arrive 1 (packet 0 0))", "13"),
        ("(arrive 1 (packet 0 64))", "15"),
        ("(change 3 (private 0))", "5"), ("(change 64 (private 0))", "4"),
        ("(join 1 (private 0))", "6"), ("(join 3 (private 0))", "8"),
        ("(join 3 (indifferent 1025 0))", "8"), ("(join 3 (indifferent 1024 0))", "9"),
        ("(join 3 (indifferent 1024 65))", "9"), ("(join 3 (indifferent 1024 64))", "10"),
        ("(change 1 (indifferent 925 64))", "10"),
    ];
    for (line, number) in cases {
        let text = format!(
            "(open 1024 0 1)\n(join 1 (indifferent 100 1))\n(join 2 (private 100))\n{}\n", line);
        assert_eq!(last(&text), format!("(refused {})", number), "{}", line);
    }
}

#[test]
fn change_within_a_type() {
    let mut core = Core::new();
    open(&mut core, 1024, 0, 1);
    join(&mut core, 1, INDIFFERENT, 512, 4);
    fill(&mut core, 1);
    arrive(&mut core, 1, 8, 64);
    assert_eq!(level(&core, 1), 3072);
    change(&mut core, 1, INDIFFERENT, 10, 64);
    assert_eq!(level(&core, 1), 3072);
    change(&mut core, 1, INDIFFERENT, 10, 2);
    assert_eq!(level(&core, 1), 2048);
    assert_eq!(opened(&core).clients[1].as_ref().unwrap().queue.len(), 1);
    join(&mut core, 2, PRIVATE, 10, 0);
    load(&mut core, 2, 7);
    change(&mut core, 2, PRIVATE, 20, 0);
    assert_eq!(opened(&core).clients[2].as_ref().unwrap().pool, 7);
}

/// Client 3 leaves with two packets waiting and joins again; two ticks later it has a token. Client
/// 7 changes within its type, and its packets keep their place.
#[test]
fn order_over_leaves_and_changes() {
    let begin = "(open 1024 0 7)\n(join 3 (indifferent 512 5))\n(join 7 (indifferent 512 5))\n";
    let calls = "(arrive 3 (packet 1 64))\n(arrive 7 (packet 2 64))\n(arrive 3 (packet 3 64))\n\
                 (arrive 7 (packet 4 64))\n(arrive 7 (packet 5 64))\n\
                 (change 7 (indifferent 512 9))\n(leave 3)\n(join 3 (indifferent 512 5))\n";
    let end = "(tick)\n(tick)\n(arrive 3 (packet 6 64))\n(arrive 7 (packet 7 64))\n\
               (tick)\n(tick)\n(tick)\n(tick)\n";
    let text = format!("{}{}{}{}", begin, "(tick)\n".repeat(6), calls, end);
    let wanted = "(slot (real 7 2 64 0))\n(slot (real 7 4 64 0))\n(ok)\n(ok)\n\
                  (slot (real 7 5 64 0))\n(slot (real 3 6 64 0))\n(slot (real 7 7 64 0))\n\
                  (slot (none))\n";
    assert_eq!(printed(&text), format!("{}{}{}{}", OK.repeat(3), NONE.repeat(6), OK.repeat(8),
                                       wanted));
}

#[test]
fn weighted_draw_among_the_indifferent() {
    // Rates 300 and 100, target 369 of 400: client 5 goes first, after which 2 alone waits. The 11
    // ticks before, which give them three tokens and one, draw nothing.
    let begin = "(open 1024 1 1)\n(join 2 (indifferent 300 5))\n(join 5 (indifferent 100 5))\n";
    let end = "(arrive 2 (packet 1 64))\n(arrive 2 (packet 2 64))\n(arrive 5 (packet 3 64))\n\
               (tick)\n(tick)\n(tick)\n(tick)\n";
    let text = format!("{}{}{}", begin, "(tick)\n".repeat(11), end);
    let wanted = "(slot (real 5 3 64 0))\n(slot (real 2 1 64 0))\n(slot (real 2 2 64 0))\n\
                  (slot (none))\n";
    assert_eq!(printed(&text), format!("{}{}{}{}", OK.repeat(3), NONE.repeat(11), OK.repeat(3),
                                       wanted));
}

/// S-1: "The printout in document 01 stays right": its four draws, as S-4 has them, throw nothing
/// away.
#[test]
fn s1_example() {
    assert_eq!(even_draw(1, 400), Draw { target: 369, generator: 270369, steps: 1 });
    assert_eq!(even_draw(270369, 400), Draw { target: 289, generator: 67634689, steps: 1 });
    assert_eq!(even_draw(67634689, 400), Draw { target: 261, generator: 2647435461, steps: 1 });
    assert_eq!(even_draw(2647435461, 400), Draw { target: 95, generator: 307599695, steps: 1 });
}

/// Seed 1584200935 gives 4294967295, 253983. The largest multiple of 641 that is at most
/// 4294967296 is 4294966656, so that the first of the two is thrown away.
#[test]
fn s1_one_throw() {
    assert_eq!(xorshift32(1584200935), 4294967295);
    assert_eq!(even_draw(1584200935, 641), Draw { target: 147, generator: 253983, steps: 2 });
}

/// "not below": 4294966656 itself is thrown away, 4294966655 is not.
#[test]
fn s1_both_sides_of_the_multiple() {
    assert_eq!(xorshift32(1897218331), 4294966656);
    assert_eq!(even_draw(1897218331, 641), Draw { target: 54, generator: 162548039, steps: 2 });
    assert_eq!(xorshift32(2883721922), 4294966655);
    assert_eq!(even_draw(2883721922, 641), Draw { target: 640, generator: 4294966655, steps: 1 });
}

/// "at most 4294967296": a sum that divides 4294967296 throws nothing away.
#[test]
fn s1_sums_that_divide() {
    assert_eq!(even_draw(1584200935, 1), Draw { target: 0, generator: 4294967295, steps: 1 });
    assert_eq!(even_draw(1584200935, 2), Draw { target: 1, generator: 4294967295, steps: 1 });
    assert_eq!(even_draw(1584200935, 1024), Draw { target: 1023, generator: 4294967295, steps: 1 });
}

/// A sum whose largest multiple is the sum itself, so that about every second value is thrown.
const HALF: u32 = 2147483649;

/// How many of the next ten values from a seed, without a gap from the first, are not below HALF.
fn high_values(seed: u32) -> u32 {
    let mut value = seed;
    for count in 0..10 {
        value = xorshift32(value);
        if value < HALF {
            return count;
        }
    }
    10
}

/// Seven throws; the eighth value, 1693661945, is below the multiple and counts.
#[test]
fn s1_seven_throws() {
    assert_eq!(high_values(8381), 7);
    assert_eq!(even_draw(8381, HALF),
               Draw { target: 1693661945, generator: 1693661945, steps: 8 });
}

/// "After the eighth throw in one draw the ninth value counts as it is": below the multiple
/// (468021351), not below it with a tenth that is (2511358754), and not below it with a tenth that
/// is not either (2703635640).
#[test]
fn s1_eight_throws() {
    assert_eq!(high_values(8508), 8);
    assert_eq!(even_draw(8508, HALF), Draw { target: 468021351, generator: 468021351, steps: 9 });
    assert_eq!(high_values(8868), 9);
    assert_eq!(even_draw(8868, HALF), Draw { target: 363875105, generator: 2511358754, steps: 9 });
    assert_eq!(high_values(8368), 10);
    assert_eq!(even_draw(8368, HALF), Draw { target: 556151991, generator: 2703635640, steps: 9 });
}

/// "Every user of the draw takes this over": rates 300 and 341 under rule 2, and under rule 1 with
/// discipline 1. Targets 147 and 67 of 641; the value thrown away would have drawn 5 with 639.
#[test]
fn s1_users() {
    for kind in [PRIVATE, INDIFFERENT] {
        let burst = if kind == PRIVATE { 0 } else { 4 };
        let mut core = Core::new();
        open(&mut core, 1024, 1, 1584200935);
        join(&mut core, 2, kind, 300, burst);
        join(&mut core, 5, kind, 341, burst);
        if kind == INDIFFERENT {
            ticks(&mut core, 7); // two tokens each, and no draw
        }
        for (id, handle) in [(2, 20), (2, 21), (5, 50), (5, 51)] {
            assert_eq!(arrive(&mut core, id, handle, 1518), Answer::Accepted);
        }
        for (handle, generator) in [(20, 253983), (21, 4228382207)] {
            let outcome = Outcome::Real { id: 2, handle, length: 1518, padding: 0 };
            assert_eq!(core.perform(&Call::Tick), Answer::Slot(outcome));
            assert_eq!(opened(&core).generator, generator);
        }
    }
}

/// The sum is that of the rates in the draw alone: with 640 in it, 4294967295 is thrown away (the
/// largest multiple is 4294967040); with 512 it counts, whatever the other rates are.
#[test]
fn s1_sum_of_the_draw() {
    for (rate, generator) in [(640, 253983), (512, 4294967295)] {
        let mut core = Core::new();
        open(&mut core, 1024, 1, 1584200935);
        join(&mut core, 1, PRIVATE, rate, 0);
        join(&mut core, 2, INDIFFERENT, 129, 1);
        assert_eq!(core.perform(&Call::Tick), Answer::Slot(Outcome::Idle { id: 1 }));
        assert_eq!(opened(&core).generator, generator);
    }
}

/// Discipline 0 under rule 1 makes no draw, so nothing is thrown away either.
#[test]
fn s1_no_draw() {
    let mut core = Core::new();
    open(&mut core, 1024, 0, 1584200935);
    join(&mut core, 2, INDIFFERENT, 641, 1);
    fill(&mut core, 2);
    assert_eq!(arrive(&mut core, 2, 1, 64), Answer::Accepted);
    let outcome = Outcome::Real { id: 2, handle: 1, length: 64, padding: 0 };
    assert_eq!(core.perform(&Call::Tick), Answer::Slot(outcome));
    assert_eq!(opened(&core).generator, 1584200935);
}

/// What a stretch of S-10 gave: the number accepted over n ticks for each n from 0, and whether the
/// client met 14.
struct Stretch {
    accepted: Vec<u32>,
    met_14: bool,
}

/// S-10: client 9 "offers packets until it is refused 15" (or meets 14), `most` of them at most.
/// Gives the number accepted and the last refusal, 0 if there was none. A packet refused with 13
/// neither counts nor ends the offering.
fn offer(core: &mut Core, most: u32) -> (u32, u32) {
    for accepted in 0..most {
        let handle = u64::from(accepted);
        assert_eq!(arrive(core, 9, handle, 63), Answer::Refused(13));
        if let Answer::Refused(number) = arrive(core, 9, handle, 64) {
            assert!(number == 14 || number == 15);
            return (accepted, number);
        }
    }
    (most, 0)
}

/// S-10: a stretch of so many ticks, in which client 9 offers "before the first tick of a stretch
/// and after each tick". Calls of others come before and after each tick.
fn stretch(core: &mut Core, length: u32, most: u32, others: fn(&mut Core, u32)) -> Stretch {
    let (mut sum, end) = offer(core, most);
    let mut result = Stretch { accepted: vec![sum], met_14: end == 14 };
    for n in 1..=length {
        others(core, 2 * n);
        core.perform(&Call::Tick);
        others(core, 2 * n + 1);
        let (accepted, end) = offer(core, most);
        sum += accepted;
        result.accepted.push(sum);
        result.met_14 |= end == 14;
    }
    result
}

/// S-10: "(level at the start + n × rate) / 1024, rounded down", for each n from 0.
fn bought(start: u32, rate: u32, length: u32) -> Vec<u32> {
    (0..=length).map(|n| (start + n * rate) / 1024).collect()
}

/// A core with client 9, whose bucket is empty, as it begins.
fn core_with_9(discipline: u32, rate: u32, burst: u32) -> Core {
    let mut core = Core::new();
    open(&mut core, 1024, discipline, 1584200935);
    assert_eq!(join(&mut core, 9, INDIFFERENT, rate, burst), Answer::Accepted);
    core
}

/// The same, with a bucket that is full.
fn core_with_full_9(discipline: u32, rate: u32, burst: u32) -> Core {
    let mut core = core_with_9(discipline, rate, burst);
    fill(&mut core, 9);
    core
}

fn no_others(_: &mut Core, _: u32) {}

/// Calls of clients 3 (indifferent) and 12 (private, and at times indifferent for long enough to
/// have a token); beside a client 9 that has all shares they are all refused.
fn some_others(core: &mut Core, n: u32) {
    match n % 11 {
        0 => join(core, 3, INDIFFERENT, 1, 4),
        1 => join(core, 12, PRIVATE, 300, 0),
        2 => change(core, 12, INDIFFERENT, 200, 3),
        3 if n % 3 == 0 => change(core, 12, PRIVATE, 100, 0),
        4 => load(core, 12, 9),
        5 if n % 5 == 0 => core.perform(&Call::Leave { id: 3 }),
        6 if n % 7 == 0 => core.perform(&Call::Leave { id: 12 }),
        7 | 8 => arrive(core, 12, u64::from(n), 1000),
        9 => change(core, 3, INDIFFERENT, 300, 4),
        _ => arrive(core, 3, u64::from(n), 100),
    };
}

/// Cores with client 9 of burst 2, where S-10's stretch may start: its bucket is empty behind a
/// join, or has what some ticks put into it, 2048 of which fill it at every rate; or it was full,
/// then emptied, and has what some ticks put into it since; or a change from private emptied it.
fn starts_with_9(discipline: u32, rate: u32) -> Vec<Core> {
    let mut cores = Vec::new();
    for before in [0, 1, 2, 5, 2048] {
        let mut core = core_with_9(discipline, rate, 2);
        ticks(&mut core, before);
        cores.push(core);
    }
    for before in [0, 1, 2, 5] {
        let mut core = core_with_full_9(discipline, rate, 2);
        assert_eq!(offer(&mut core, 9), (2, 15));
        ticks(&mut core, before);
        cores.push(core);
    }
    let mut core = core_with_full_9(discipline, rate, 2);
    change(&mut core, 9, PRIVATE, rate, 0);
    change(&mut core, 9, INDIFFERENT, rate, 2);
    cores.push(core);
    cores
}

/// S-10: "the number accepted over n ticks is exactly (level at the start + n × rate) / 1024,
/// rounded down", for n from 0 to 2500. Gives the level at the start.
fn exact(mut core: Core, rate: u32, others: fn(&mut Core, u32)) -> u32 {
    let start = level(&core, 9);
    let result = stretch(&mut core, 2500, 9, others);
    assert!(!result.met_14);
    assert_eq!(result.accepted, bought(start, rate, 2500), "{} {}", rate, start);
    start
}

#[test]
fn s10_exact() {
    for rate in [1, 341, 1023, 1024] {
        for discipline in [0, 1] {
            let mut levels = Vec::new();
            for core in starts_with_9(discipline, rate) {
                exact(core.clone(), rate, no_others);
                levels.push(exact(core, rate, some_others));
            }
            assert_eq!([levels[0], levels[1], levels[4], levels[5]], [0, rate, 2048, 0]);
            assert_eq!(levels[9], 0);
        }
    }
}

/// The calls of the others are not all refused, and their packets go out among those of client 9;
/// those of client 12 from both types.
#[test]
fn s10_others_are_served() {
    let mut core = core_with_9(1, 341, 2);
    let mut sent = Vec::new();
    for n in 0..500 {
        offer(&mut core, 9);
        some_others(&mut core, n);
        if let Answer::Slot(Outcome::Real { id, padding, .. }) = core.perform(&Call::Tick) {
            sent.push((id, padding));
        }
    }
    for wanted in [(3, 0), (9, 0), (12, 0), (12, 518)] {
        assert!(sent.contains(&wanted), "{:?}", wanted);
    }
}

/// "of burst 2 or more": with burst 1 what passes 1024 at a refill is lost. At 1023 every second
/// tick fills the bucket, at 341 every fourth; 1 and 1024 lose nothing. A full one has one packet
/// more than an empty one.
#[test]
fn s10_burst_1() {
    for (rate, period) in [(1023, 2), (341, 4), (1, 1024), (1024, 1)] {
        for full in [0, 1] {
            let mut core = core_with_9(0, rate, 1);
            ticks(&mut core, full * period);
            assert_eq!(level(&core, 9), full * 1024);
            let result = stretch(&mut core, 2500, 9, some_others);
            let wanted: Vec<u32> = (0..=2500).map(|n| full + n / period).collect();
            assert!(!result.met_14);
            assert_eq!(result.accepted, wanted);
            assert_eq!(wanted == bought(full * 1024, rate, 2500), rate == 1 || rate == 1024);
        }
    }
    assert_eq!(bought(1024, 1023, 3), [1, 1, 2, 3]); // where 1, 1, 2, 2 are accepted
    assert_eq!(bought(0, 1023, 3), [0, 0, 1, 2]); // where 0, 0, 1, 1 are accepted
}

/// An indifferent client of rate 1022, the last of the three ids, behind as many packets of the two
/// others as an id has places. These had their tokens at rate 512 each and kept them when they
/// changed to 1. The bucket of the third is full, or empty as it began. No packet of it waits.
fn core_behind(ids: [u32; 3], burst: u32, full: bool) -> Core {
    let [first, second, last] = ids;
    let mut core = core_of(&[(first, INDIFFERENT, 512, 64), (second, INDIFFERENT, 512, 64)]);
    ticks(&mut core, 128); // 64 tokens each
    change(&mut core, first, INDIFFERENT, 1, 64);
    change(&mut core, second, INDIFFERENT, 1, 64);
    assert_eq!(join(&mut core, last, INDIFFERENT, 1022, burst), Answer::Accepted);
    if full {
        fill(&mut core, last as usize);
    }
    arrive_times(&mut core, first, FULL / 2);
    arrive_times(&mut core, second, FULL - FULL / 2);
    core
}

/// The same with so many packets of the third waiting, 2 at least, before any of them goes. With
/// burst 2 and a full bucket two are accepted before the first tick, none behind it, and one behind
/// each later one. That is one tick less than packets, and each takes two from a level of 1024. Of
/// the others' packets one more is left than the third has places left.
pub fn core_with_waiting(ids: [u32; 3], packets: u32) -> Core {
    let id = ids[2];
    let mut core = core_behind(ids, 2, true);
    arrive_times(&mut core, id, 2);
    core.perform(&Call::Tick);
    for handle in 2..packets {
        core.perform(&Call::Tick);
        assert_eq!(arrive(&mut core, id, u64::from(handle), 64), Answer::Accepted);
    }
    let left = 1024 - 2 * (packets - 1);
    assert_eq!((waiting(&core, id as usize), level(&core, id as usize)), (packets, left));
    let of_others = waiting(&core, ids[0] as usize) + waiting(&core, ids[1] as usize);
    assert_eq!(of_others, FULL - packets + 1);
    core
}

/// "never meeting 14": before the first tick. With one place left and no token none is bought that
/// needs it, and 15 comes. With one place left and two tokens one of two bought has a place, and 14
/// comes. With no place left it is 14, though no token is there either ("Checks run down the
/// table").
#[test]
fn s10_meets_14_at_once() {
    let mut core = core_with_waiting([3, 4, 9], FULL - 1);
    let result = stretch(&mut core.clone(), 0, 99, no_others);
    assert!(!result.met_14);
    assert_eq!(result.accepted, [0]);
    ticks(&mut core, 2); // the last two of the others
    assert_eq!(level(&core, 9), 2048);
    let result = stretch(&mut core, 0, 99, no_others);
    assert!(result.met_14);
    assert_eq!(result.accepted, [1]);
    assert_eq!(bought(2048, 1022, 0), [2]);
    let mut core = core_with_waiting([3, 4, 9], FULL);
    assert!(level(&core, 9) < 1024);
    let result = stretch(&mut core, 0, 99, no_others);
    assert!(result.met_14);
    assert_eq!(result.accepted, [0]);
}

/// Behind as many packets of others as it has places a burst of 2 is enough to meet 14. With 128
/// places: after tick 127 client 9 has 128 waiting and gets 14, though its level is below 1024 too
/// ("Checks run down the table"). What it got is exact up to there, and one short after ticks 128
/// and 129.
#[test]
fn s10_meets_14_later() {
    for length in [FULL - 2, FULL - 1, FULL + 1] {
        let mut core = core_behind([3, 4, 9], 2, true);
        let result = stretch(&mut core, length, 9, no_others);
        assert_eq!(result.met_14, length > FULL - 2);
        let mut wanted = bought(2048, 1022, FULL + 1);
        assert_eq!(wanted[PLACES - 2..], [FULL - 1, FULL, FULL + 1, FULL + 2]);
        wanted[PLACES..].copy_from_slice(&[FULL, FULL + 1]);
        assert_eq!(result.accepted, wanted[..=length as usize]);
    }
}

/// With a bucket that starts empty client 9 has one place left behind the others' last packet, and
/// one at least from then on: what it got is exact.
#[test]
fn s10_never_meets_14() {
    let mut core = core_behind([3, 4, 9], 2, false);
    assert_eq!(level(&core, 9), 0);
    let result = stretch(&mut core, 500, 9, no_others);
    assert!(!result.met_14);
    let wanted = bought(0, 1022, 500);
    assert_eq!(wanted[PLACES - 2..PLACES + 2], [FULL - 3, FULL - 2, FULL - 1, FULL]);
    assert_eq!(result.accepted, wanted);
}

/// Nor does it with a full bucket behind two packets less: one place is left behind the others'
/// last one, and is taken after the tick that sends the first of client 9.
#[test]
fn s10_just_no_14() {
    let mut core = core_behind([3, 4, 9], 2, true);
    ticks(&mut core, 2);
    let result = stretch(&mut core, 500, 9, no_others);
    assert!(!result.met_14);
    assert_eq!(result.accepted, bought(2048, 1022, 500));
}

/// "until it is refused 15": one that stops after one packet each time is one behind at rate 1024,
/// if its bucket was full; in an empty one there is never more than one.
#[test]
fn s10_stops_early() {
    let mut core = core_with_full_9(0, 1024, 2);
    let result = stretch(&mut core, 300, 1, some_others);
    let wanted: Vec<u32> = (0..=300).map(|n| n + 1).collect();
    assert_eq!(result.accepted, wanted);
    assert_eq!(bought(2048, 1024, 300)[300], 302);
    let mut core = core_with_9(0, 1024, 2);
    let result = stretch(&mut core, 300, 1, some_others);
    assert_eq!(result.accepted, bought(0, 1024, 300));
}

/// "after each tick": one that is silent after two ticks and then offers again is one behind.
#[test]
fn s10_silent_after_two_ticks() {
    for (mut core, first, whole) in
        [(core_with_full_9(0, 1024, 2), 12, 25), (core_with_9(0, 1024, 2), 10, 23)] {
        let start = level(&core, 9);
        let before = stretch(&mut core, 10, 9, some_others).accepted[10];
        ticks(&mut core, 3);
        let after = stretch(&mut core, 10, 9, some_others).accepted[10];
        assert_eq!((before, after), (first, 12));
        assert_eq!(bought(start, 1024, 23)[23], whole);
        assert_eq!(before + after, whole - 1);
    }
}

/// A core of threshold 1024 with these clients, each (id, type, rate, burst).
pub fn core_of(clients: &[(u32, u32, u32, u32)]) -> Core {
    let mut core = Core::new();
    open(&mut core, 1024, 0, 1);
    for &(id, kind, rate, burst) in clients {
        assert_eq!(join(&mut core, id, kind, rate, burst), Answer::Accepted);
    }
    core
}

/// So many packets of one client, each accepted.
fn arrive_times(core: &mut Core, id: u32, times: u32) {
    for handle in 0..times {
        assert_eq!(arrive(core, id, u64::from(handle), 64), Answer::Accepted);
    }
}

/// S-14's figure for each n, as it should be.
fn assert_sure(core: &Core, figures: &[(u32, u32)]) {
    for &(n, wanted) in figures {
        assert_eq!(core.sure_picks(n), Some(wanted), "n = {}", n);
    }
}

/// "provided one private client is active": 0 without one, and nothing on an unopened core.
#[test]
fn s14_no_private_client() {
    assert_eq!(Core::new().sure_picks(0), None);
    assert_eq!(Core::new().sure_picks(4294967295), None);
    let none = [(0, 0), (1, 0), (1000, 0), (4294967295, 0)];
    assert_sure(&core_of(&[]), &none);
    assert_sure(&core_of(&[(4, INDIFFERENT, 1, 1)]), &none);
    let mut core = core_of(&[(4, INDIFFERENT, 1, 1), (1, PRIVATE, 9, 0)]);
    assert_sure(&core, &[(1000, 1000), (1023, 1023), (1024, 1023)]); // from level 0
    fill(&mut core, 4);
    assert_sure(&core, &[(1000, 999)]); // (1024 + 1000) / 1024 is 1
    change(&mut core, 1, INDIFFERENT, 9, 1);
    assert_sure(&core, &none);
    change(&mut core, 1, PRIVATE, 9, 0);
    assert_sure(&core, &[(1000, 999)]);
    core.perform(&Call::Leave { id: 1 });
    assert_sure(&core, &none);
}

/// Without indifferent clients every tick picks a private one. Neither the packets of private
/// clients nor their pools count.
#[test]
fn s14_private_only() {
    let every = [(0, 0), (1, 1), (1000, 1000), (4294967295, 4294967295)];
    assert_sure(&core_of(&[(63, PRIVATE, 1, 0)]), &every);
    let mut core = core_of(&[(0, PRIVATE, 1000, 0), (5, PRIVATE, 24, 0)]);
    arrive_times(&mut core, 0, FULL);
    load(&mut core, 5, 255);
    assert_sure(&core, &every);
}

/// The clients of the printed example. Client 3 has an empty bucket and may send no packet in up to
/// 5 ticks (5 × 200 is 1000), one in 6 to 10, two in 11. With 1024 it is one in up to 5 ticks (1024
/// + 5 × 200 is 2024), two in 6 to 10, three in 11. Its arrival takes one from the level and adds
/// one that waits, so that the figure stays; the tick that sends it moves the start.
#[test]
fn s14_one_indifferent_client() {
    let mut core = core_of(&[(2, PRIVATE, 300, 0), (5, PRIVATE, 100, 0), (3, INDIFFERENT, 200, 1)]);
    let empty = [(0, 0), (1, 1), (2, 2), (5, 5), (6, 5), (10, 9), (11, 9), (1000, 805)];
    assert_sure(&core, &empty); // 200000 / 1024 is 195
    fill(&mut core, 3);
    let figures = [(0, 0), (1, 0), (2, 1), (5, 4), (6, 4), (10, 8), (11, 8), (1000, 804)];
    assert_sure(&core, &figures); // (1024 + 200000) / 1024 is 196
    arrive_times(&mut core, 3, 1);
    assert_sure(&core, &figures);
    core.perform(&Call::Tick); // level 200
    assert_sure(&core, &[(0, 0), (1, 1), (4, 4), (5, 4), (6, 5), (9, 8), (10, 8), (1000, 805)]);
}

/// Rates 300 and 700 with 2 and 3 waiting and levels of 1024 and 2048. For n = 1000 they are
/// accepted at most 293 and 685 times, each rounded down (in one sum it would be 979), and 17 are
/// left. The demand passes n for small n; it is n itself for 338, though it is one less than n for
/// 337. With nothing waiting and both buckets empty it is 292 and 683 for n = 1000, and 25 are
/// left.
#[test]
fn s14_two_indifferent_clients() {
    let mut core =
        core_of(&[(1, PRIVATE, 24, 0), (4, INDIFFERENT, 300, 3), (8, INDIFFERENT, 700, 5)]);
    assert_sure(&core, &[(0, 0), (1, 1), (2, 1), (3, 1), (4, 1), (7, 1), (8, 1), (1000, 25)]);
    fill(&mut core, 4);
    assert_eq!([level(&core, 4), level(&core, 8)], [3072, 5120]);
    arrive_times(&mut core, 4, 2);
    arrive_times(&mut core, 8, 3);
    assert_eq!([level(&core, 4), level(&core, 8)], [1024, 2048]);
    assert_sure(&core, &[(0, 0), (1, 0), (8, 0), (100, 0), (335, 0), (336, 1), (337, 1), (338, 0),
                         (339, 1), (1000, 17)]);
}

/// n × rate passes 32 bits. 4294967295 × 1023 is 4393751542785; a 1024th of it is 4290772991. With
/// a level of 1024 it is one more, with 65536 it is 4290773055, and so it is with packets waiting
/// that took their tokens from it: all 64 of them, if there are so many places.
#[test]
fn s14_past_32_bits() {
    let n = 4294967295;
    let mut core = core_of(&[(0, PRIVATE, 1, 0), (1, INDIFFERENT, 1023, 1)]);
    assert_sure(&core, &[(n, 4194304)]);
    fill(&mut core, 1);
    assert_sure(&core, &[(n, 4194303)]);
    let mut core = core_of(&[(0, PRIVATE, 1, 0), (1, INDIFFERENT, 1023, 64)]);
    assert_sure(&core, &[(n, 4194304)]);
    fill(&mut core, 1);
    assert_sure(&core, &[(n, 4194240)]);
    for _ in 0..FULL.min(64) {
        arrive_times(&mut core, 1, 1);
        assert_sure(&core, &[(n, 4194240)]);
    }
}

/// 63 clients of rate 16. With empty buckets each may have 67108863 accepted in 4294967295 ticks,
/// and with full ones 67108927, or as many less as wait already and took their tokens from it: all
/// 64, if there are so many places.
#[test]
fn s14_many_indifferent_clients() {
    let n = 4294967295;
    let mut core = core_of(&[(63, PRIVATE, 16, 0)]);
    for id in 0..63 {
        assert_eq!(join(&mut core, id, INDIFFERENT, 16, 64), Answer::Accepted);
    }
    assert_sure(&core, &[(n, 67108926)]); // 4294967295 - 63 × 67108863
    assert_sure(&core, &[(63, 63), (64, 1), (300000, 4719)]); // 300000 - 63 × 4687
    fill(&mut core, 0);
    for _ in 0..FULL.min(64) {
        assert_sure(&core, &[(n, 67104894)]); // 4294967295 - 63 × 67108927
        assert_sure(&core, &[(4032, 0), (300000, 687)]); // 300000 - 63 × 4751
        (0..63).for_each(|id| arrive_times(&mut core, id, 1));
    }
    assert_sure(&core, &[(n, 67104894), (4032, 0), (300000, 687)]);
}

/// A full queue. With 128 places client 9 has 128 waiting and a level of 770, one of the others has
/// one waiting, and they have a level of 127 each. Then 9 changes to rate 1000, which keeps what it
/// has, and 1 joins. For 10000 ticks that is 129 waiting, 9766 for 9 (10000770 / 1024) and 9 for
/// each other (10127 / 1024). With fewer places the others have a token left for each packet that
/// does not wait, and the figures are the same.
#[test]
fn s14_full_queue() {
    let mut core = core_with_waiting([3, 4, 9], FULL);
    let levels = [3, 4, 9].map(|id| level(&core, id));
    assert!(PLACES != 128 || levels == [127, 127, 770]);
    assert_eq!([3, 4, 9].map(|id| waiting(&core, id)), [0, 1, FULL]);
    change(&mut core, 9, INDIFFERENT, 1000, 64);
    assert_sure(&core, &[(10000, 0)]);
    assert_eq!(join(&mut core, 1, PRIVATE, 22, 0), Answer::Accepted);
    // 4000000000 is 1024 × 3906250: 129, 3906250000 and twice 3906250 of it are not sure.
    let figures = [(0, 0), (129, 0), (1000, 0), (10000, 87), (4000000000, 85937371)];
    assert_sure(&core, &figures);
    // Refused with 14: nothing changes.
    assert_eq!(arrive(&mut core, 9, 1, 64), Answer::Refused(14));
    assert_sure(&core, &figures);
}

/// "Otherwise, if a private client is active": which slots go by rule 2, and who is private.
#[test]
fn s14_rule_2() {
    assert!(!Core::new().picks_private());
    assert!(!Core::new().is_private(2));
    assert!(!core_of(&[]).picks_private());
    assert!(!core_of(&[(3, INDIFFERENT, 1, 1)]).picks_private());
    let mut core = core_of(&[(2, PRIVATE, 1, 0), (3, INDIFFERENT, 512, 1)]);
    fill(&mut core, 3);
    assert!(core.is_private(2));
    for id in [0, 3, 63, 64, 4294967295] {
        assert!(!core.is_private(id));
    }
    assert!(core.picks_private()); // an idle slot
    load(&mut core, 2, 1);
    assert!(core.picks_private()); // a dummy
    arrive(&mut core, 2, 1, 64);
    assert!(core.picks_private()); // a packet
    arrive_times(&mut core, 3, 1);
    assert!(!core.picks_private());
    core.perform(&Call::Tick);
    assert!(core.picks_private());
}

/// The line in place of the printout. Behind the printed example, with its four ticks, client 3 has
/// a level of 800 and nothing waiting: one packet in 2 ticks (1200), two in 10 (2800).
#[test]
fn s14_line() {
    let line = |text: &str, n| String::from_utf8(sure(text.as_bytes(), n)).unwrap();
    assert_eq!(line(EXAMPLE, 0), "(sure 0 0)\n");
    assert_eq!(line(EXAMPLE, 1), "(sure 1 1)\n");
    assert_eq!(line(EXAMPLE, 2), "(sure 2 1)\n");
    assert_eq!(line(EXAMPLE, 10), "(sure 10 8)\n");
    assert_eq!(line("(open 1 0 1)\n", 7), "(sure 7 0)\n");
    let private = "(open 1 0 1)\n(join 0 (private 1))\n";
    assert_eq!(line(private, 4294967295), "(sure 4294967295 4294967295)\n");
    // Lines that are refused change nothing, nor do bytes after the last line feed.
    let refused = format!("{}\n(leave 00)\n(open 0 0 1)\n(leave 0)", private);
    assert_eq!(line(&refused, 7), "(sure 7 7)\n");
    assert_eq!(line(&format!("{}(open 1 0 1)\n", private), 7), "(sure 7 0)\n");
}

/// "core unopened" and "whole text over 60,000 bytes; the only line printed".
#[test]
fn s14_line_refused() {
    for text in ["", "\n", "(tick)\n", "(open 0 0 1)\n", "(open 1 0 1)"] {
        assert_eq!(sure(text.as_bytes(), 7), b"(refused 19)\n", "{:?}", text);
    }
    let private = "(open 1 0 1)\n(join 0 (private 1))\n";
    let long = format!("{}{}", private, "\n".repeat(60000 - private.len()));
    assert_eq!(sure(long.as_bytes(), 7), b"(sure 7 7)\n");
    assert_eq!(sure(format!("{}\n", long).as_bytes(), 7), b"(refused 18)\n");
    assert_eq!(sure(format!("{}x", long).as_bytes(), 7), b"(refused 18)\n");
    assert_eq!(sure(&[b'\n'; 60001], 7), b"(refused 18)\n");
}

/// "A number has no sign and no leading zero, except 0 itself."
#[test]
fn s14_number() {
    let right = [("0", 0), ("7", 7), ("10", 10), ("4294967295", 4294967295)];
    for (text, wanted) in right {
        assert_eq!(number(text.as_bytes()), Some(wanted), "{:?}", text);
    }
    let wrong = ["", "00", "01", "+1", "-1", "-0", "1e3", "12 ", " 12", "1 2", "12\n", "0x1", "1_0",
                 "1.0", "x", "#", "\u{663}", "4294967296", "18446744073709551617"];
    for text in wrong {
        assert_eq!(number(text.as_bytes()), None, "{:?}", text);
    }
    assert_eq!(number(b"1\0"), None);
    assert_eq!(number(b"\xff"), None);
}

/// The printed example's clients with a greedy client 3, from a full bucket. In 5 ticks it sends
/// once, and 4 picks are just what is sure; the sixth tick is a pick too, while the figure stays,
/// since what its refill buys can only go out later. From an empty bucket none of the first six
/// ticks sends: 5 picks in 5 ticks are just what is sure, and the sixth is one more.
#[test]
fn s14_sure_and_no_more() {
    for full in [true, false] {
        let clients = [(2, PRIVATE, 300, 0), (5, PRIVATE, 100, 0), (3, INDIFFERENT, 200, 1)];
        let mut core = core_of(&clients);
        if full {
            fill(&mut core, 3);
        }
        let figure = if full { 4 } else { 5 };
        assert_sure(&core, &[(5, figure), (6, figure)]);
        let mut picks = Vec::new();
        for _ in 0..7 {
            arrive(&mut core, 3, 1, 64);
            picks.push(core.picks_private());
            core.perform(&Call::Tick);
        }
        assert_eq!(picks, [!full, true, true, true, true, true, false]);
    }
}

/// Chance for the stretches below and for the lists of S-8: the generator's values, each the start
/// of the next.
pub struct Chance {
    pub v: u32,
}

impl Chance {
    pub fn below(&mut self, most: u32) -> u32 {
        self.v = xorshift32(self.v);
        (self.v >> 7) % most
    }
}

/// A core with two to six clients of both types, or of one, in the midst of their packets; or just
/// joined, with every bucket empty.
fn chance_core(chance: &mut Chance) -> Core {
    let mut core = Core::new();
    open(&mut core, 1024, chance.below(2), 1 + chance.below(1000));
    let most = [40, 200, 900][chance.below(3) as usize];
    join(&mut core, 0, INDIFFERENT, 1 + chance.below(9), 1 + chance.below(3));
    match chance.below(2) {
        0 => join(&mut core, 1, PRIVATE, 1, 0),
        _ => join(&mut core, 1, INDIFFERENT, 1, 2),
    };
    for id in 2..6 {
        let rate = 1 + chance.below(most);
        match chance.below(3) {
            0 => join(&mut core, id, PRIVATE, rate, 0),
            1 => join(&mut core, id, INDIFFERENT, rate, 1 + chance.below(3)),
            _ => join(&mut core, id, INDIFFERENT, rate, 1 + chance.below(64)),
        };
    }
    let most = [1, 40, 600][chance.below(3) as usize];
    ticks(&mut core, chance.below(most));
    for _ in 0..chance.below(150) {
        arrive(&mut core, chance.below(6), 1, 64);
        if chance.below(3) == 0 {
            core.perform(&Call::Tick);
        }
    }
    core
}

/// A core with a queue that is full or nearly so, that of indifferent client 4. Of the packets
/// before its own some are left, its rate is no longer so large, and client 5 is private.
fn chance_full_core(chance: &mut Chance) -> Core {
    let mut core = core_with_waiting([0, 1, 4], (FULL - chance.below(3)).max(2));
    change(&mut core, 4, INDIFFERENT, 1 + chance.below(1000), 2 + chance.below(63));
    assert_eq!(join(&mut core, 5, PRIVATE, 1 + chance.below(20), 0), Answer::Accepted);
    core
}

/// A call that S-14's stretch may have beside its ticks: an arrival, a load, or an open, join,
/// change or leave that is refused. Ids 0 and 1 are active, so that a rate of 1024 gets 10.
fn chance_call(core: &mut Core, chance: &mut Chance) -> Answer {
    let id = chance.below(8);
    let call = match chance.below(12) {
        0 => Call::Join { id, kind: PRIVATE, rate: 1024, burst: 0 },
        1 => Call::Join { id: 0, kind: INDIFFERENT, rate: 1, burst: 1 },
        2 => Call::Change { id, kind: PRIVATE, rate: 1024, burst: 0 },
        3 => Call::Change { id, kind: INDIFFERENT, rate: 1, burst: 65 },
        4 => Call::Leave { id: id + 6 },
        5 => Call::Open { threshold: 1024, discipline: 0, seed: 0 },
        6 | 7 => return load(core, id, chance.below(40)),
        _ => return arrive(core, id, 1, 63 + chance.below(1457)),
    };
    let answer = core.perform(&call);
    assert!(matches!(answer, Answer::Refused(_)));
    answer
}

/// The indifferent clients' arrivals before a tick: none, one of some client, or, for greed 2, from
/// each as many as it is granted. Whether one of these was refused with 14 for all its greed.
fn chance_arrivals(core: &mut Core, greed: u32, chance: &mut Chance) -> bool {
    if greed == 1 {
        arrive(core, chance.below(6), 1, 64);
    }
    let mut met_14 = false;
    for id in 0..6 {
        let mut answer = Answer::Accepted;
        while greed == 2 && !core.is_private(id) && answer == Answer::Accepted {
            answer = arrive(core, id, 1, 64);
            met_14 |= answer == Answer::Refused(14);
        }
    }
    met_14
}

/// Whether the outcome bears the id of a private client: in a stretch without a change of type this
/// is so of rule 2's slots alone.
fn private_outcome(core: &Core, answer: &Answer) -> bool {
    match *answer {
        Answer::Slot(Outcome::Real { id, .. }) => core.is_private(id),
        Answer::Slot(Outcome::Dummy { id }) | Answer::Slot(Outcome::Idle { id }) => {
            assert!(core.is_private(id));
            true
        }
        _ => false,
    }
}

/// What a stretch gave: the figure at its start, the picks counted, and whether an indifferent
/// client that wanted all it could get met 14.
struct Picks {
    figure: u32,
    picks: u32,
    met_14: bool,
}

/// A stretch of n ticks. Of each part of it that starts with it the same is promised.
fn chance_stretch(core: &mut Core, n: u32, greed: u32, chance: &mut Chance) -> Picks {
    let start = core.clone();
    let (mut picks, mut met_14) = (0, false);
    for ticks in 1..=n {
        for _ in 0..chance.below(3) {
            chance_call(core, chance);
        }
        met_14 |= chance_arrivals(core, greed, chance);
        let picked = core.picks_private();
        let answer = core.perform(&Call::Tick);
        assert_eq!(private_outcome(core, &answer), picked);
        picks += u32::from(picked);
        assert!(picks >= start.sure_picks(ticks).unwrap());
    }
    Picks { figure: start.sure_picks(n).unwrap(), picks, met_14 }
}

/// S-14: "private clients together are picked at least" so often; at times just so often, and at
/// times more.
#[test]
fn s14_stretches() {
    let mut chance = Chance { v: 14 };
    let (mut just, mut more, mut nobody) = (0, 0, 0);
    for count in 0..3000 {
        let mut core = chance_core(&mut chance);
        let n = chance.below([5, 50, 150][count % 3]);
        let Picks { figure, picks, .. } =
            chance_stretch(&mut core, n, chance.below(3), &mut chance);
        just += u32::from(figure > 0 && picks == figure);
        more += u32::from(figure > 0 && picks > figure);
        nobody += u32::from(n > 0 && (0..64).all(|id| !core.is_private(id)));
    }
    assert!(just > 100 && more > 100 && nobody > 100, "{} {} {}", just, more, nobody);
}

/// The same from a queue that is full or nearly so. "at least" is also for what is refused with 14
/// while tokens are there.
#[test]
fn s14_stretches_of_full_queues() {
    let mut chance = Chance { v: 9 };
    let (mut just, mut more, mut met) = (0, 0, 0);
    for _ in 0..300 {
        let mut core = chance_full_core(&mut chance);
        let n = chance.below(900);
        let Picks { figure, picks, met_14 } =
            chance_stretch(&mut core, n, chance.below(3), &mut chance);
        just += u32::from(figure > 0 && picks == figure);
        more += u32::from(figure > 0 && picks > figure);
        met += u32::from(figure > 0 && met_14);
    }
    assert!(just > 5 && more > 50 && met > 20, "{} {} {}", just, more, met);
}

/// docs/LONG_RUNS.md, "The calls": to which row of the table a k belongs, by the first letter of
/// its call (`d` for load, which adds dummies), at both ends of each row and in both times.
#[test]
fn maker_rows() {
    let ends = [0, 1, 640, 641, 720, 721, 740, 741, 1764, 1765, 15600, 15601, 16380, 16383];
    for (time, wanted) in [(Time::Busy, "ojjccllddaattt"), (Time::Quiet, "ojjccllddttttt")] {
        let letters: String = ends.iter().map(|&k| letter(&call(time, k, 1, 1, 1))).collect();
        assert_eq!(letters, wanted);
    }
}

/// "An id is made from b", on both sides of 65536: 65536 is 64 more than a multiple of 66.
#[test]
fn maker_ids() {
    for (b, id) in [(0, 0), (7, 7), (8, 0), (65535, 7), (65536, 64), (65537, 65), (65538, 0),
                    (65601, 63), (131071, 61), (131072, 0), (131081, 1), (4294967295, 3)] {
        assert_eq!(call(Time::Busy, 721, b, 0, 0), Call::Leave { id }, "{}", b);
    }
}

/// "A rate is d mod 1025 for id 0, and d mod 17 for any other id." Id 0 is made of 8 and of 65538,
/// by either rule. A join and a change have the same terms.
#[test]
fn maker_rates() {
    for (b, id, d, rate) in [(8, 0, 1024, 1024), (8, 0, 1025, 0), (65538, 0, 1024, 1024),
                             (65538, 0, 2051, 1), (1, 1, 16, 16), (1, 1, 17, 0), (1, 1, 1024, 4),
                             (65601, 63, 1024, 4), (65536, 64, 1024, 4)] {
        let burst = 64;
        assert_eq!(call(Time::Quiet, 1, b, 1, d), Call::Join { id, kind: 1, rate, burst });
        assert_eq!(call(Time::Quiet, 641, b, 1, d), Call::Change { id, kind: 1, rate, burst });
    }
}

/// "A burst for type 1 is (d / 64) mod 66 if d / 65536 is odd, 64 if it is even; for any other type
/// it is ((d / 64) mod 66) / 65." 65536 / 64 is 34 more than a multiple of 66.
#[test]
fn maker_bursts() {
    for (d, indifferent, other) in [(0, 64, 0), (4159, 64, 0), (4160, 64, 1), (4223, 64, 1),
                                    (4224, 64, 0), (65535, 64, 0), (65536, 34, 0), (67519, 64, 0),
                                    (67520, 65, 1), (67583, 65, 1), (67584, 0, 0), (131071, 1, 0),
                                    (131072, 64, 0), (131008, 1, 0), (131007, 0, 0)] {
        for (c, kind, burst) in [(0, 0, other), (1, 1, indifferent), (2, 2, other)] {
            let rate = d % 17;
            assert_eq!(call(Time::Busy, 640, 1, c, d), Call::Join { id: 1, kind, rate, burst });
        }
    }
}

/// "open: threshold b mod 1026 if b / 65536 is odd, 1024 if it is even; discipline c mod 3, seed
/// (d mod 6) · 316840187". 65536 is 898 more than a multiple of 1026.
#[test]
fn maker_opens() {
    for (b, threshold) in [(0, 1024), (5, 1024), (65535, 1024), (65536, 898), (65663, 1025),
                           (65664, 0), (65665, 1), (131071, 769), (131072, 1024)] {
        for (c, discipline) in [(2, 2), (3, 0), (4, 1)] {
            for (d, seed) in [(0, 0), (1, 316840187), (11, 1584200935), (12, 0)] {
                let wanted = Call::Open { threshold, discipline, seed };
                assert_eq!(call(Time::Busy, 0, b, c, d), wanted);
            }
        }
    }
}

/// "load: id, c mod 130 dummies"; "arrive: id, a packet with handle c · 4294967296 + d and length
/// 63 + c mod 1457". In the handle c has all its bits.
#[test]
fn maker_loads_and_arrivals() {
    for (c, count) in [(0, 0), (129, 129), (130, 0), (4294967295, 125)] {
        assert_eq!(call(Time::Quiet, 1764, 15, c, 9), Call::Load { id: 7, count });
    }
    for (c, d, handle, length) in
        [(0, 0, 0, 63), (0, 4294967295, 4294967295, 63), (1, 0, 4294967296, 64),
         (1, 9, 4294967305, 64), (1456, 1, 6253472382977, 1519), (1457, 1, 6257767350273, 63),
         (4294967295, 0, 18446744069414584320, 903),
         (4294967295, 4294967295, 18446744073709551615, 903)] {
        let wanted = Call::Arrive { id: 7, handle, length };
        assert_eq!(call(Time::Busy, 1765, 15, c, d), wanted);
        assert_eq!(arrival(7, c, d), wanted); // so it is made for client 9 of `greedy` too
    }
}

fn letter(call: &Call) -> char {
    match call {
        Call::Open { .. } => 'o',
        Call::Join { .. } => 'j',
        Call::Change { .. } => 'c',
        Call::Leave { .. } => 'l',
        Call::Load { .. } => 'd',
        Call::Arrive { .. } => 'a',
        Call::Tick => 't',
    }
}

/// "Busy times and quiet times take turns, and the first is busy." "A call with k = 16380 or above
/// is the last of its time"; k is from the first of a call's four draws.
#[test]
fn maker_times() {
    let mut maker = Maker::new(1);
    let (mut v, mut busy, mut turns) = (1, true, [0; 4]);
    for _ in 0..200_000 {
        let k = xorshift32(v) % 16384;
        for _ in 0..4 {
            v = xorshift32(v);
        }
        let arrives = letter(&maker.next_call()) == 'a';
        assert_eq!(arrives, busy && k >= 1765 && k <= 15600);
        if k >= 16380 {
            busy = !busy;
            turns[k as usize - 16380] += 1;
        }
    }
    assert!(turns.iter().all(|&count| count > 2), "{:?}", turns);
}

#[test]
fn grammar_refusals() {
    let wrong: [&[u8]; 34] = [
        b"", b" ", b"(tick) ", b" (tick)", b"( tick)", b"(tick )", b"tick", b"(tick)\r", b"(Tick)",
        b"(tick", b"(tick))", b"(tick)(tick)", b"(tick)\0", b"\xff(tick)", b"(leave\t1)",
        b"(leave  1)", b"(leave 01)", b"(leave 00)", b"(leave +1)", b"(leave -1)", b"(leave )",
        b"(leave 1 )", b"(leave 1 1)", b"(leave #)", b"(join 1(private 1))", b"(join 1 (private 1)",
        b"(join 1 (private 1 0))", b"(join 1 (indifferent 1))", b"(open 1 0 1 1)",
        b"(load 1 0 1)", b"(arrive 1 0 (packet 1 64))", b"(minute 5)", b"(join 1 (private 1) 2)",
        b"(join 1 (group 5))",
    ];
    for line in wrong {
        assert_eq!(parse(line), Line::Refused(16), "{:?}", line);
    }
    assert_eq!(parse(b"(change 1 (group 5))"), Line::Refused(16));
    assert_eq!(parse(b"(windows 1 5 (1 2))"), Line::Refused(16));
}

#[test]
fn grammar_numbers() {
    assert_eq!(parse(b"(leave 4294967295)"), Line::Form(Call::Leave { id: 4294967295 }));
    assert_eq!(parse(b"(leave 4294967296)"), Line::Refused(17));
    assert_eq!(parse(b"(leave 0)"), Line::Form(Call::Leave { id: 0 }));
    let long = format!("(leave {})", "9".repeat(5000));
    assert_eq!(parse(long.as_bytes()), Line::Refused(17));
    assert_eq!(parse(b"(leave 18446744073709551617)"), Line::Refused(17));
    assert_eq!(parse(b"(load 4294967296 01)"), Line::Refused(16));
    assert_eq!(parse(b"(load 4294967296 1))"), Line::Refused(16));
    assert_eq!(parse(b"(minute 4294967296)"), Line::Refused(16));
}

#[test]
fn whole_script() {
    assert_eq!(printed(""), "");
    assert_eq!(printed("\n"), "(refused 16)\n");
    assert_eq!(printed("\n\n"), "(refused 16)\n(refused 16)\n");
    assert_eq!(printed("(tick)"), "(refused 16)\n");
    assert_eq!(printed("(leave 4294967296)"), "(refused 16)\n");
    assert_eq!(printed("(tick)\n(tick)"), "(refused 19)\n(refused 16)\n");
    assert_eq!(printed(&"\n".repeat(60000)), "(refused 16)\n".repeat(60000));
    assert_eq!(printed(&"\n".repeat(60001)), "(refused 18)\n");
    assert_eq!(printed(&"(tick)\n".repeat(9000)), "(refused 18)\n");
    assert_eq!(run(b"\0\xff\n\x80"), b"(refused 16)\n(refused 16)\n".to_vec());
}
