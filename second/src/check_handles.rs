//! Paper 02, S-6: "Handles go to 18446744073709551615 in calls, scripts and printed states. Number
//! 17 uses that limit for handles and the former one elsewhere." Both limits at every number of
//! every form, numbers of any length, shape before size, handles that go in and come out whole,
//! what a script means in either edition, and the two words of a handle in the check of a long run.
//! All of it holds for whatever limit of a handle the edition has, from 4294967295 to
//! 18446744073709551615. The core has no limit: it takes every handle of 64 bits.

use std::collections::VecDeque;

use crate::check::{arrive, fill, join, last, level, load, open, printed, Chance};
use crate::core::{xorshift32, Answer, Call, Core, Outcome, INDIFFERENT, PLACES, PRIVATE};
use crate::fair;
use crate::maker::Maker;
use crate::script::{number, parse, print, Line, LARGEST_HANDLE};
use crate::tally::mix_answer;

/// A form, with `#` for each number, and its call where all its numbers have 32 bits.
type Form = (&'static str, fn(&[u32]) -> Call);

const FORMS: [Form; 8] = [
    ("(open # # #)", |n| Call::Open { threshold: n[0], discipline: n[1], seed: n[2] }),
    ("(join # (private #))", |n| Call::Join { id: n[0], kind: PRIVATE, rate: n[1], burst: 0 }),
    ("(join # (indifferent # #))",
     |n| Call::Join { id: n[0], kind: INDIFFERENT, rate: n[1], burst: n[2] }),
    ("(change # (private #))",
     |n| Call::Change { id: n[0], kind: PRIVATE, rate: n[1], burst: 0 }),
    ("(change # (indifferent # #))",
     |n| Call::Change { id: n[0], kind: INDIFFERENT, rate: n[1], burst: n[2] }),
    ("(leave #)", |n| Call::Leave { id: n[0] }),
    ("(load # #)", |n| Call::Load { id: n[0], count: n[1] }),
    ("(arrive # (packet # #))",
     |n| Call::Arrive { id: n[0], handle: u64::from(n[1]), length: n[2] }),
];

/// How many numbers a form has.
fn count(form: &str) -> usize {
    form.matches('#').count()
}

/// Whether the number at this place of a form is a handle: the second of an arrival.
fn is_handle(form: &str, place: usize) -> bool {
    form.starts_with("(arrive") && place == 1
}

/// A form read with one text for the number at a place and another for its other numbers.
fn read(form: &str, place: usize, text: &str, others: &str) -> Line {
    let mut line = form.to_string();
    for now in 0..count(form) {
        line = line.replacen('#', if now == place { text } else { others }, 1);
    }
    parse(line.as_bytes())
}

/// An arrival read with these texts for id, handle and length.
fn read_arrival(id: &str, handle: &str, length: &str) -> Line {
    parse(format!("(arrive {} (packet {} {}))", id, handle, length).as_bytes())
}

/// Handles that differ in their upper half alone: it is 0, 1, 2, 2147483648, 4294967294 and
/// 4294967295, and the lower one is 5.
const UPPER: [u64; 6] = [5, 4294967301, 8589934597, 9223372036854775813, 18446744065119617029,
                         18446744069414584325];

/// Handles that differ in their lower half alone: it is 0, 1, 5, 2147483648, 4294967294 and
/// 4294967295, and the upper one is 7.
const LOWER: [u64; 6] = [30064771072, 30064771073, 30064771077, 32212254720, 34359738366,
                         34359738367];

/// Both sides of both limits, of 63 bits and of 20 digits; and 5 and 7, 7 and 5 as halves.
const ENDS: [u64; 12] = [0, 1, 4294967295, 4294967296, 21474836487, 30064771077,
                         9223372036854775807, 9223372036854775808, 9999999999999999999,
                         10000000000000000000, 18446744073709551614, 18446744073709551615];

/// All of these.
fn handles() -> Vec<u64> {
    [&UPPER[..], &LOWER, &ENDS].concat()
}

/// Numbers above 18446744073709551615, of 20 digits and more. 18446744073709551616 is 2 to the
/// power 64. Some are a multiple of it and 0, 1 or 5 more, which is what 64 bits would leave of
/// them. The last two are 5 more than 2 to the power 96 and 128.
const LONGER: [&str; 16] = [
    "18446744073709551616", "18446744073709551617", "18446744073709551620", "18446744073709551621",
    "18446744078004518912", "18446744078004518917", "19999999999999999999", "20000000000000000000",
    "36893488147419103237", "99999999999999999999", "100000000000000000000",
    "184467440737095516150", "184467440737095516160", "184467440737095516165",
    "79228162514264337593543950341", "340282366920938463463374607431768211461",
];

/// These and some with very many digits.
fn longer() -> Vec<String> {
    let mut numbers: Vec<String> = LONGER.iter().map(|text| text.to_string()).collect();
    for digits in [21, 39, 40, 1000] {
        numbers.push("9".repeat(digits));
        numbers.push(format!("1{}", "0".repeat(digits)));
        numbers.push(format!("18446744073709551616{}", "0".repeat(digits)));
        numbers.push(format!("1{}5", "0".repeat(digits)));
    }
    numbers
}

/// 4294967295 is taken at every number of every form, at one alone and at all together.
#[test]
fn s6_up_to_the_former_limit() {
    for (form, call) in FORMS {
        for place in 0..count(form) {
            let mut numbers = [1; 3];
            numbers[place] = 4294967295;
            assert_eq!(read(form, place, "4294967295", "1"), Line::Form(call(&numbers)));
        }
        let all = read(form, 0, "4294967295", "4294967295");
        assert_eq!(all, Line::Form(call(&[4294967295; 3])), "{}", form);
    }
}

/// "the former one elsewhere": 4294967296, and whatever is above it, gives 17 at every number of
/// every form that is no handle, beside other numbers that are right or too large themselves.
#[test]
fn s6_above_the_former_limit() {
    let mut numbers: Vec<String> = longer();
    for text in ["4294967296", "4294967297", "4294967301", "8589934597", "9999999999",
                 "10000000000", "9223372036854775808", "18446744073709551615"] {
        numbers.push(text.to_string());
    }
    for (form, _) in FORMS {
        for place in (0..count(form)).filter(|&place| !is_handle(form, place)) {
            for text in &numbers {
                for others in ["1", "4294967295", "4294967296", text] {
                    assert_eq!(read(form, place, text, others), Line::Refused(17), "{}", form);
                }
            }
        }
    }
}

/// "Number 17 uses that limit for handles": each handle up to the limit is read as it is spelt, and
/// no other, whatever the id and the length are.
#[test]
fn s6_handles_read() {
    for handle in handles() {
        for (id, length) in [(1, 64), (0, 0), (4294967295, 4294967295)] {
            let line = read_arrival(&id.to_string(), &handle.to_string(), &length.to_string());
            if handle <= LARGEST_HANDLE {
                assert_eq!(line, Line::Form(Call::Arrive { id, handle, length }));
            } else {
                assert_eq!(line, Line::Refused(17), "{}", handle);
            }
        }
    }
    // the limit of the edition, and one more
    let limit = Call::Arrive { id: 1, handle: LARGEST_HANDLE, length: 64 };
    assert_eq!(read_arrival("1", &LARGEST_HANDLE.to_string(), "64"), Line::Form(limit));
    let more = (u128::from(LARGEST_HANDLE) + 1).to_string();
    assert_eq!(read_arrival("1", &more, "64"), Line::Refused(17));
}

/// The same in figures, for the two editions.
#[test]
fn s6_two_editions_read() {
    let arrival = |handle| Line::Form(Call::Arrive { id: 1, handle, length: 64 });
    assert_eq!(read_arrival("1", "4294967295", "64"), arrival(4294967295));
    let long = [read_arrival("1", "4294967296", "64"),
                read_arrival("1", "18446744073709551615", "64")];
    match LARGEST_HANDLE {
        18446744073709551615 => assert_eq!(long, [4294967296, 18446744073709551615].map(arrival)),
        4294967295 => assert_eq!(long, [Line::Refused(17), Line::Refused(17)]),
        _ => {}
    }
    assert_eq!(read_arrival("1", "18446744073709551616", "64"), Line::Refused(17));
}

/// A handle above 18446744073709551615 gives 17 in either edition, and nothing of it is read: not
/// what 64 bits would leave of it, and not its first digits.
#[test]
fn s6_longer_handles() {
    for text in longer() {
        for (id, length) in [("1", "64"), ("4294967295", "4294967295"), ("4294967296", "64")] {
            assert_eq!(read_arrival(id, &text, length), Line::Refused(17), "{}", text);
        }
    }
    for times in 1..2000u128 {
        for more in [0, 5, 4294967295, 4294967296] {
            let text = (times * 18446744073709551616 + more).to_string();
            assert_eq!(read_arrival("1", &text, "64"), Line::Refused(17), "{}", text);
        }
    }
    for zeros in 0..1000 {
        let text = format!("18446744073709551621{}", "0".repeat(zeros));
        assert_eq!(read_arrival("1", &text, "64"), Line::Refused(17), "{}", text);
    }
}

/// A right handle beside an id or a length that is too large: 17 all the same.
#[test]
fn s6_handles_beside_others() {
    for handle in ["5", "4294967295", "18446744073709551615"] {
        for other in ["4294967296", "4294967301", "18446744073709551615", "18446744073709551616"] {
            assert_eq!(read_arrival(other, handle, "64"), Line::Refused(17));
            assert_eq!(read_arrival("1", handle, other), Line::Refused(17));
            assert_eq!(read_arrival(other, handle, other), Line::Refused(17));
        }
    }
}

/// 16 comes before 17: "A number has no sign and no leading zero, except 0 itself", at every number
/// of every form, also where others, or the number itself but for its zero, are too large.
#[test]
fn s6_shape_of_numbers() {
    let zeros = "0".repeat(1000);
    let wrong = ["", "00", "01", "05", "04294967295", "04294967296", "018446744073709551615",
                 "018446744073709551616", "0018446744073709551621", "+5", "-5", "-0", "5.0", "1e9",
                 "0x5", "5_0", "5,0", "#", "@", "18446744073709551616x", "x18446744073709551616",
                 "18446744073709551616 ", " 18446744073709551616", "1844674407 3709551616",
                 "18446744073709551616\t", "\u{661}", &zeros];
    for (form, call) in FORMS {
        for place in 0..count(form) {
            for text in wrong {
                for others in ["1", "18446744073709551616"] {
                    assert_eq!(read(form, place, text, others), Line::Refused(16), "{}", text);
                }
            }
            let mut numbers = [1; 3];
            numbers[place] = 0;
            assert_eq!(read(form, place, "0", "1"), Line::Form(call(&numbers)));
        }
    }
}

/// Nor is a handle's size looked at where the line has another shape. "Words kept for later" have
/// one, and so has a line of S-2's printed states.
#[test]
fn s6_shape_of_lines() {
    for handle in ["5", "18446744073709551615", "18446744073709551616"] {
        for shape in ["(arrive 1 (packet # 64)", "(arrive 1 (packet # 64)) ", "(packet # 64)",
                      "(arrive 1 (packet #))", "(arrive 1 (packet # 64 1))", "(handle #)", "#",
                      "(arrive 1 packet # 64)", "(arrive (packet # 64))", "(wait 1 # 64)",
                      "(arrive 1 (packet # 64))\r", "(arrive 1 (packet  # 64))",
                      "(arrive 1 (packet # 64)))", "arrive 1 (packet # 64)",
                      "(Arrive 1 (packet # 64))", "(arrive 1 0 (packet # 64))"] {
            let line = shape.replace('#', handle);
            assert_eq!(parse(line.as_bytes()), Line::Refused(16), "{}", line);
        }
    }
}

/// "Checks run down the table": 17 comes before every number of a call, and a handle up to the
/// limit gets what the call gets.
#[test]
fn s6_order_of_numbers() {
    let opened = "(open 1024 0 1)\n(join 1 (indifferent 1 1))\n";
    for (before, id, length, number) in [("", 1, 64, 19), (opened, 64, 64, 4), (opened, 2, 64, 5),
                                         (opened, 1, 63, 13), (opened, 1, 64, 15)] {
        let answer = |handle: u128| {
            last(&format!("{}(arrive {} (packet {} {}))\n", before, id, handle, length))
        };
        for handle in [0, 4294967295, u128::from(LARGEST_HANDLE)] {
            assert_eq!(answer(handle), format!("(refused {})", number));
        }
        for handle in [u128::from(LARGEST_HANDLE) + 1, 18446744073709551616, 18446744073709551621] {
            assert_eq!(answer(handle), "(refused 17)");
        }
    }
}

/// A line may have as many digits as a script has bytes. Behind the last line feed they give 16,
/// as all bytes there do.
#[test]
fn s6_digits_of_a_whole_script() {
    let line = |bytes: usize| format!("(arrive 0 (packet {} 64))\n", "1".repeat(bytes - 24));
    assert_eq!(line(60000).len(), 60000);
    assert_eq!(printed(&line(60000)), "(refused 17)\n");
    assert_eq!(printed(&line(60001)), "(refused 18)\n");
    for handle in ["18446744073709551615", "18446744073709551616", "18446744073709551621"] {
        assert_eq!(printed(&format!("(arrive 0 (packet {} 64))", handle)), "(refused 16)\n");
    }
}

/// A handle is printed whole.
#[test]
fn s6_printed() {
    for (handle, text) in [(0, "0"), (4294967295, "4294967295"), (4294967296, "4294967296"),
                           (9223372036854775808, "9223372036854775808"),
                           (18446744073709551615, "18446744073709551615")] {
        let outcome = Outcome::Real { id: 3, handle, length: 64, padding: 0 };
        assert_eq!(print(&Answer::Slot(outcome)), format!("(slot (real 3 {} 64 0))\n", text));
    }
}

/// "elsewhere" are also the n of S-14's figure and the numbers of S-8's text: they keep 32 bits.
#[test]
fn s6_other_numbers() {
    assert_eq!(number(b"4294967295"), Some(4294967295));
    for text in ["4294967296", "18446744073709551615", "18446744073709551616"] {
        assert_eq!(number(text.as_bytes()), None);
        for shape in ["(threshold #)\n", "(threshold 9)\n(demand # 1)\n",
                      "(threshold 9)\n(demand 1 #)\n"] {
            assert_eq!(fair::run(shape.replace('#', text).as_bytes()), b"(refused 17)\n");
            let former = shape.replace('#', "4294967295");
            assert_eq!(fair::run(former.as_bytes()), b"(refused 22)\n");
        }
    }
}

/// Clients (id, type, rate, burst) of a core, each bucket full.
fn core_with(discipline: u32, clients: &[(u32, u32, u32, u32)]) -> Core {
    let mut core = Core::new();
    open(&mut core, 1024, discipline, 1);
    for &(id, kind, rate, burst) in clients {
        assert_eq!(join(&mut core, id, kind, rate, burst), Answer::Accepted);
    }
    for &(id, kind, ..) in clients {
        if kind == INDIFFERENT {
            fill(&mut core, id as usize);
        }
    }
    core
}

/// Handles of one queue, which is client 9's alone, go in and come out whole and in their order.
fn through_one_queue(discipline: u32, kind: u32, handles: &[u64]) {
    let burst = if kind == PRIVATE { 0 } else { 64 };
    let mut core = core_with(discipline, &[(9, kind, 1024, burst)]);
    for some in handles.chunks(PLACES) {
        for (length, &handle) in (1000..).zip(some) {
            assert_eq!(arrive(&mut core, 9, handle, length), Answer::Accepted);
        }
        for (length, &handle) in (1000..).zip(some) {
            let padding = if kind == PRIVATE { 1518 - length } else { 0 };
            let outcome = Outcome::Real { id: 9, handle, length, padding };
            assert_eq!(core.perform(&Call::Tick), Answer::Slot(outcome));
        }
    }
}

/// Handles that differ only in their upper half, or only in their lower one, wait in one queue, in
/// this order and the other way round; also one handle many times: it is "any" number, and need not
/// be another one each time.
#[test]
fn s6_one_queue() {
    for discipline in [0, 1] {
        for kind in [PRIVATE, INDIFFERENT] {
            for some in [&UPPER[..], &LOWER, &ENDS, &[18446744073709551615; 20], &handles()] {
                through_one_queue(discipline, kind, some);
                let back: Vec<u64> = some.iter().rev().copied().collect();
                through_one_queue(discipline, kind, &back);
            }
        }
    }
}

/// Two indifferent clients, 3 and 7, and two private ones, 2 and 8.
const FOUR: [(u32, u32, u32, u32); 4] = [(2, PRIVATE, 200, 0), (3, INDIFFERENT, 300, 64),
                                         (7, INDIFFERENT, 400, 64), (8, PRIVATE, 124, 0)];

/// The handles wait in four queues at once, each time from another one on, and behind ticks more of
/// them come. Each goes out from its own queue, in its order; under discipline 0 those of the
/// indifferent clients in the order of all.
#[test]
fn s6_four_queues() {
    let all = handles();
    for discipline in [0, 1] {
        let mut core = core_with(discipline, &FOUR);
        let mut queues = [const { VecDeque::new() }; 64];
        let (mut order, mut sent) = (VecDeque::new(), [0; 64]);
        for turn in 0..3000 {
            let (id, kind, ..) = FOUR[turn % 7 % 4];
            let handle = all[(turn + turn / all.len()) % all.len()];
            if arrive(&mut core, id, handle, 64) == Answer::Accepted {
                queues[id as usize].push_back(handle);
                if kind == INDIFFERENT {
                    order.push_back(handle);
                }
            }
            if turn % 5 > 2 {
                continue;
            }
            if let Answer::Slot(Outcome::Real { id, handle, .. }) = core.perform(&Call::Tick) {
                assert_eq!(Some(handle), queues[id as usize].pop_front());
                let first = if core.is_private(id) { Some(handle) } else { order.pop_front() };
                assert!(discipline == 1 || first == Some(handle));
                sent[id as usize] += 1;
            }
        }
        assert!([2, 3, 7, 8].iter().all(|&id| sent[id] > 50), "{:?}", sent);
    }
}

/// An answer without the handle that it may carry, and this handle.
fn apart(answer: Answer) -> (Answer, Option<u64>) {
    match answer {
        Answer::Slot(Outcome::Real { id, handle, length, padding }) => {
            (Answer::Slot(Outcome::Real { id, handle: 0, length, padding }), Some(handle))
        }
        answer => (answer, None),
    }
}

/// The calls of a long run, on one core with the handles as made, on another with their lower half,
/// on a third with their upper one. What a handle is makes no difference to any answer but the slot
/// that carries it, and there the halves are those of the whole.
#[test]
fn s6_long_run() {
    let mut maker = Maker::new(25);
    let mut cores = [Core::new(), Core::new(), Core::new()];
    let mut sent = [0; 2];
    for _ in 0..150_000 {
        let call = maker.next_call();
        let mut calls = [call.clone(), call.clone(), call];
        if let Call::Arrive { handle, .. } = &mut calls[1] {
            *handle %= 4294967296;
        }
        if let Call::Arrive { handle, .. } = &mut calls[2] {
            *handle /= 4294967296;
        }
        let [whole, lower, upper] = [0, 1, 2].map(|n| apart(cores[n].perform(&calls[n])));
        assert_eq!((&whole.0, &whole.0), (&lower.0, &upper.0));
        if let (Some(whole), Some(lower), Some(upper)) = (whole.1, lower.1, upper.1) {
            assert_eq!(whole, upper * 4294967296 + lower);
            assert!(lower < 4294967296 && upper < 4294967296);
            sent[usize::from(whole > 4294967295)] += 1;
        }
    }
    assert!(sent[1] > 1000, "{:?}", sent);
}

/// "Scripts ... without a longer handle mean what they meant": the same lines in every edition.
#[test]
fn s6_script_of_short_handles() {
    let text = "(open 1024 0 1)\n(join 2 (private 24))\n(join 3 (indifferent 1000 1))\n\
                (arrive 3 (packet 4294967295 64))\n(tick)\n(tick)\n\
                (arrive 3 (packet 4294967295 64))\n(arrive 2 (packet 0 1518))\n\
                (arrive 2 (packet 4294967294 100))\n(arrive 2 (packet 4294967295 100))\n\
                (tick)\n(tick)\n(tick)\n(tick)\n(tick)\n";
    let wanted = "(ok)\n(ok)\n(ok)\n(refused 15)\n(slot (idle 2))\n(slot (idle 2))\n\
                  (ok)\n(ok)\n(ok)\n(ok)\n\
                  (slot (real 3 4294967295 64 0))\n(slot (real 2 0 1518 0))\n\
                  (slot (real 2 4294967294 100 1418))\n(slot (real 2 4294967295 100 1418))\n\
                  (slot (idle 2))\n";
    assert_eq!(printed(text), wanted);
}

/// Longer handles. In the older edition they get 17, and nothing else changes there: client 3 keeps
/// the token that the first one does not take, and the places of client 2 stay as they are.
const LONG_HANDLES: &str = "(open 1024 0 1)
(join 2 (private 24))
(join 3 (indifferent 1000 1))
(arrive 3 (packet 4294967296 64))
(tick)
(tick)
(arrive 3 (packet 4294967296 64))
(arrive 3 (packet 7 64))
(arrive 2 (packet 18446744073709551615 1518))
(arrive 2 (packet 5 100))
(arrive 2 (packet 4294967301 63))
(arrive 9 (packet 4294967301 64))
(arrive 2 (packet 4294967301 100))
(arrive 2 (packet 18446744073709551621 100))
(tick)
(tick)
(tick)
(tick)
(tick)
";

#[test]
fn s6_script_of_longer_handles() {
    let begin = "(ok)\n(ok)\n(ok)\n";
    let idle = "(slot (idle 2))\n";
    let new = format!("{}(refused 15)\n{}{}(ok)\n(refused 15)\n(ok)\n(ok)\n(refused 13)\n\
                       (refused 5)\n(ok)\n(refused 17)\n\
                       (slot (real 3 4294967296 64 0))\n\
                       (slot (real 2 18446744073709551615 1518 0))\n\
                       (slot (real 2 5 100 1418))\n(slot (real 2 4294967301 100 1418))\n{}",
                      begin, idle, idle, idle);
    let older = format!("{}(refused 17)\n{}{}(refused 17)\n(ok)\n(refused 17)\n(ok)\n\
                         (refused 17)\n(refused 17)\n(refused 17)\n(refused 17)\n\
                         (slot (real 3 7 64 0))\n(slot (real 2 5 100 1418))\n{}{}{}",
                        begin, idle, idle, idle, idle, idle);
    match LARGEST_HANDLE {
        18446744073709551615 => assert_eq!(printed(LONG_HANDLES), new),
        4294967295 => assert_eq!(printed(LONG_HANDLES), older),
        _ => {}
    }
}

/// A handle of 32 bits; of 64, or of these with 5 as its lower half; one of the last three up to
/// the limit of the edition, or of the first three above it; or one that would wrap in 64 bits.
fn chance_handle(chance: &mut Chance) -> u128 {
    let mut half = || u128::from(chance.below(33554432)) * 128 + u128::from(chance.below(128));
    let (lower, upper) = (half(), half());
    let limit = u128::from(LARGEST_HANDLE);
    match chance.below(8) {
        0 | 1 => lower,
        2 | 3 => upper * 4294967296 + lower,
        4 => upper * 4294967296 + 5,
        5 => limit - lower % 3,
        6 => limit + 1 + lower % 3,
        _ => (1 + lower % 1000) * 18446744073709551616 + upper,
    }
}

/// A line of a script for the clients of `FOUR`, and its call; no call where a handle is above the
/// limit of the edition.
fn chance_line(chance: &mut Chance) -> (String, Option<Call>) {
    let (id, ..) = FOUR[chance.below(4) as usize];
    match chance.below(7) {
        0 => {
            let count = chance.below(3);
            (format!("(load {} {})", id, count), Some(Call::Load { id, count }))
        }
        1 | 2 => ("(tick)".to_string(), Some(Call::Tick)),
        _ => {
            let (handle, length) = (chance_handle(chance), 63 + chance.below(1457));
            let line = format!("(arrive {} (packet {} {}))", id, handle, length);
            let call = u64::try_from(handle).ok().filter(|&handle| handle <= LARGEST_HANDLE);
            (line, call.map(|handle| Call::Arrive { id, handle, length }))
        }
    }
}

/// Scripts of chance. Each line prints what its call gets on a core that was given the calls alone:
/// a line with a handle above the limit prints 17 and changes nothing else.
#[test]
fn s6_scripts() {
    let mut chance = Chance { v: 6 };
    let (mut refused, mut sent) = (0, 0);
    for count in 0..100 {
        let mut text = format!("(open 1024 {} 1)\n", count % 2);
        for (id, kind, rate, burst) in FOUR {
            text.push_str(&match kind {
                PRIVATE => format!("(join {} (private {}))\n", id, rate),
                _ => format!("(join {} (indifferent {} {}))\n", id, rate, burst),
            });
        }
        text.push_str(&"(tick)\n".repeat(219)); // 64 tokens at rate 300
        let before = printed(&text).len();
        let mut core = core_with(count % 2, &FOUR);
        let mut wanted = String::new();
        for _ in 0..600 {
            let (line, call) = chance_line(&mut chance);
            let answer = call.map_or(Answer::Refused(17), |call| core.perform(&call));
            text.push_str(&format!("{}\n", line));
            wanted.push_str(&print(&answer));
            refused += u32::from(answer == Answer::Refused(17));
            sent += u32::from(apart(answer).1.is_some_and(|handle| handle > 4294967295));
        }
        assert_eq!(&printed(&text)[before..], wanted);
    }
    assert!(refused > 1000);
    assert!(sent > 1000 || LARGEST_HANDLE < 18446744073709551615, "{}", sent);
}

/// A longer handle takes what any packet takes, and nothing else: a place and a token.
#[test]
fn s6_places_and_tokens() {
    for handle in handles() {
        let mut core = core_with(0, &[(3, INDIFFERENT, 24, 2), (9, PRIVATE, 1000, 0)]);
        assert_eq!(arrive(&mut core, 3, handle, 64), Answer::Accepted);
        assert_eq!(level(&core, 3), 1024);
        assert_eq!(arrive(&mut core, 3, handle, 64), Answer::Accepted);
        assert_eq!(arrive(&mut core, 3, handle, 64), Answer::Refused(15));
        assert_eq!(arrive(&mut core, 3, handle, 63), Answer::Refused(13));
        assert_eq!(arrive(&mut core, 64, handle, 64), Answer::Refused(4));
        assert_eq!(arrive(&mut core, 5, handle, 64), Answer::Refused(5));
        assert_eq!(load(&mut core, 9, 255), Answer::Accepted);
        for _ in 0..PLACES {
            assert_eq!(arrive(&mut core, 9, handle, 1518), Answer::Accepted);
        }
        assert_eq!(arrive(&mut core, 9, handle, 1518), Answer::Refused(14));
    }
}

/// docs/LONG_RUNS.md, "The check": the words of an answer, mixed in one by one.
fn mixed(check: u32, words: &[u32]) -> u32 {
    words.iter().fold(check, |check, &word| xorshift32(check.wrapping_add(word)))
}

/// "A handle has 64 bits (paper 02, S-6), so it gives two words", the lower half first.
#[test]
fn s6_words_of_a_handle() {
    for (handle, lower, upper) in [(0, 0, 0), (5, 5, 0), (4294967295, 4294967295, 0),
                                   (4294967296, 0, 1), (30064771077, 5, 7), (21474836487, 7, 5),
                                   (9223372036854775808, 0, 2147483648),
                                   (18446744069414584320, 0, 4294967295),
                                   (18446744073709551615, 4294967295, 4294967295)] {
        let real = Answer::Slot(Outcome::Real { id: 9, handle, length: 64, padding: 1454 });
        for check in [0, 1, 4294967295] {
            let wanted = mixed(check, &[3, 9, lower, upper, 64, 1454]);
            assert_eq!(mix_answer(check, &real), wanted, "{}", handle);
        }
    }
}

/// The words of the other answers, and one check reckoned apart from this program.
#[test]
fn s6_words_of_the_others() {
    let slot = |outcome| Answer::Slot(outcome);
    for (answer, words) in [(Answer::Accepted, vec![1]), (Answer::Refused(17), vec![2, 17]),
                            (slot(Outcome::Dummy { id: 7 }), vec![4, 7]),
                            (slot(Outcome::Idle { id: 7 }), vec![5, 7]),
                            (slot(Outcome::Nobody), vec![6])] {
        assert_eq!(mix_answer(99, &answer), mixed(99, &words));
    }
    let real = Outcome::Real { id: 2, handle: 30064771077, length: 64, padding: 1454 };
    assert_eq!(mix_answer(0, &slot(real)), 3325278555);
}
