//! Paper 02, S-7: "A count sheet for every client." Each count by hand, for both types and under
//! both disciplines; what keeps the counts and what ends them; that "A refusal 14 or 15 now changes
//! its own count and nothing else", and any other refusal nothing; where each count begins again at
//! zero; the numbers of a refused sheet, and the lines of `--counts`. Over histories of chance: the
//! counts beside those made anew from the calls and their answers alone, "Accepted equals sent plus
//! emptied plus waiting", and what is the same in two histories that differ in what private
//! neighbours send and load. The printed states of S-7 are not there (S-2).

use crate::check::{arrive, change, core_of, core_with_waiting, counts_mut, join, level, load, open,
                   printed, ticks, waiting, Chance, EXAMPLE, FULL};
use crate::check_sheets::{chance_id, chance_kind, chance_open, is_struck_out, script, BAD, IDS};
use crate::core::{Answer, Call, Core, Counts, Outcome, INDIFFERENT, PRIVATE};
use crate::counts::{line, lines, sheets};
use crate::maker::Maker;
use crate::script::{parse, Line};

/// As many packets as an id has places.
const PACKETS: u64 = FULL as u64;

/// The sheet right behind a join.
const NOTHING: [u64; 6] = [0; 6];

/// What `--counts` prints.
fn counted(text: &str) -> String {
    String::from_utf8(sheets(text.as_bytes())).unwrap()
}

/// The call of a line of a script.
fn call(text: &str) -> Call {
    match parse(text.as_bytes()) {
        Line::Form(call) => call,
        Line::Refused(number) => panic!("{} gets {}", text, number),
    }
}

/// A core of threshold 1024 with these clients, each (id, type, rate, burst).
fn core_with(discipline: u32, clients: &[(u32, u32, u32, u32)]) -> Core {
    let mut core = Core::new();
    open(&mut core, 1024, discipline, 1);
    for &(id, kind, rate, burst) in clients {
        assert_eq!(join(&mut core, id, kind, rate, burst), Answer::Accepted);
    }
    core
}

/// Calls, each made so often, and the sheet of an id behind each of them.
fn assert_steps(core: &mut Core, id: u32, steps: &[(&str, u64, [u64; 6])]) {
    for (number, &(text, times, wanted)) in steps.iter().enumerate() {
        let call = call(text);
        for _ in 0..times {
            core.perform(&call);
        }
        assert_eq!(core.counts(id), Ok(wanted), "step {}, {}", number, text);
    }
}

/// Of paper 01's script. Client 2 sends its packet and its dummy, both packets of client 3 get 15
/// (S-4), and that of client 5 gets 13, which no count has.
#[test]
fn s7_example() {
    let wanted = "(counts 2 1 1 0 0 0 1)\n(counts 3 0 0 0 2 0 0)\n(counts 5 0 0 0 0 0 0)\n";
    assert_eq!(counted(EXAMPLE), wanted);
}

/// A private client, the only one, so that every slot is its own: real, dummy and idle slots, 13,
/// 14, loads that are accepted and one that gets 12, and changes that keep the type. The change of
/// type empties every place, and the pool, which no count has. From then on it is indifferent; two
/// ticks give it a token.
#[test]
fn s7_private() {
    for discipline in [0, 1] {
        let mut core = core_with(discipline, &[(5, PRIVATE, 512, 0)]);
        assert_eq!(core.counts(5), Ok(NOTHING));
        let full = PACKETS + 2; // accepted in all when every place is taken
        assert_steps(&mut core, 5, &[
            ("(tick)", 3, NOTHING),
            ("(arrive 5 (packet 1 64))", 2, [2, 0, 0, 0, 0, 0]),
            ("(tick)", 1, [2, 1, 0, 0, 0, 0]),
            ("(load 5 2)", 1, [2, 1, 0, 0, 0, 0]),
            ("(tick)", 1, [2, 2, 0, 0, 0, 0]),
            ("(tick)", 1, [2, 2, 0, 0, 0, 1]),
            ("(tick)", 1, [2, 2, 0, 0, 0, 2]),
            ("(tick)", 5, [2, 2, 0, 0, 0, 2]),
            ("(arrive 5 (packet 1 63))", 3, [2, 2, 0, 0, 0, 2]),
            ("(arrive 5 (packet 1 1518))", PACKETS, [full, 2, 0, 0, 0, 2]),
            ("(arrive 5 (packet 1 64))", 1, [full, 2, 1, 0, 0, 2]),
            ("(arrive 5 (packet 1 64))", 3, [full, 2, 4, 0, 0, 2]),
            ("(load 5 7)", 1, [full, 2, 4, 0, 0, 2]),
            ("(load 5 249)", 1, [full, 2, 4, 0, 0, 2]),
            ("(change 5 (private 512))", 2, [full, 2, 4, 0, 0, 2]),
            ("(change 5 (private 1024))", 1, [full, 2, 4, 0, 0, 2]),
            ("(change 5 (private 1025))", 1, [full, 2, 4, 0, 0, 2]),
            ("(join 5 (private 1))", 1, [full, 2, 4, 0, 0, 2]),
            ("(change 5 (indifferent 512 2))", 1, [full, 2, 4, 0, PACKETS, 2]),
            ("(arrive 5 (packet 1 64))", 3, [full, 2, 4, 3, PACKETS, 2]),
            ("(tick)", 2, [full, 2, 4, 3, PACKETS, 2]),
            ("(arrive 5 (packet 1 64))", 1, [full + 1, 2, 4, 3, PACKETS, 2]),
            ("(tick)", 2, [full + 1, 3, 4, 3, PACKETS, 2]),
        ]);
    }
}

/// An indifferent client: 15, packets that are accepted and go out, slots of a private neighbour, a
/// load, which gets 11, and changes that keep the type, also to a smaller burst. The change of type
/// empties two of its packets; the changes behind it find none, and then one. The neighbour's
/// sheet is its own.
#[test]
fn s7_indifferent() {
    for discipline in [0, 1] {
        let mut core = core_with(discipline, &[(3, INDIFFERENT, 512, 2), (9, PRIVATE, 100, 0)]);
        load(&mut core, 9, 3);
        assert_steps(&mut core, 3, &[
            ("(arrive 3 (packet 1 64))", 2, [0, 0, 0, 2, 0, 0]),
            ("(tick)", 4, [0, 0, 0, 2, 0, 0]),
            ("(arrive 3 (packet 1 64))", 2, [2, 0, 0, 2, 0, 0]),
            ("(arrive 3 (packet 1 64))", 1, [2, 0, 0, 3, 0, 0]),
            ("(arrive 3 (packet 1 1519))", 1, [2, 0, 0, 3, 0, 0]),
            ("(tick)", 1, [2, 1, 0, 3, 0, 0]),
            ("(load 3 1)", 1, [2, 1, 0, 3, 0, 0]),
            ("(change 3 (indifferent 512 64))", 1, [2, 1, 0, 3, 0, 0]),
            ("(tick)", 4, [2, 2, 0, 3, 0, 0]),
            ("(arrive 3 (packet 1 64))", 2, [4, 2, 0, 3, 0, 0]),
            ("(change 3 (indifferent 256 1))", 1, [4, 2, 0, 3, 0, 0]),
            ("(change 3 (private 0))", 1, [4, 2, 0, 3, 0, 0]),
            ("(change 3 (private 256))", 1, [4, 2, 0, 3, 2, 0]),
            ("(change 3 (indifferent 256 1))", 1, [4, 2, 0, 3, 2, 0]),
            ("(change 3 (private 924))", 1, [4, 2, 0, 3, 2, 0]),
            ("(arrive 3 (packet 1 64))", 1, [5, 2, 0, 3, 2, 0]),
            ("(change 3 (indifferent 924 1))", 1, [5, 2, 0, 3, 3, 0]),
        ]);
        assert_eq!(core.counts(9), Ok([0, 0, 0, 0, 0, 3]));
        let packet = "(arrive 3 (packet 1 64))"; // its bucket is empty again
        assert_steps(&mut core, 9, &[(packet, 9, [0, 0, 0, 0, 0, 3])]);
        assert_eq!(core.counts(3), Ok([5, 2, 0, 12, 3, 0]));
    }
}

/// 14 comes to an indifferent client too, with less than a token and with more. Whatever it has, 14
/// is counted as 14: "Checks run down the table".
#[test]
fn s7_14_of_an_indifferent_client() {
    let mut core = core_with_waiting([3, 4, 9], FULL);
    assert!(level(&core, 9) < 1024);
    assert_steps(&mut core, 9, &[
        ("(arrive 9 (packet 1 64))", 2, [PACKETS, 0, 2, 0, 0, 0]),
        ("(tick)", 1, [PACKETS, 0, 2, 0, 0, 0]), // sends the last of the others
        ("(arrive 9 (packet 1 64))", 3, [PACKETS, 0, 5, 0, 0, 0]),
        ("(tick)", 1, [PACKETS, 1, 5, 0, 0, 0]),
        ("(arrive 9 (packet 1 64))", 1, [PACKETS + 1, 1, 5, 0, 0, 0]),
        ("(arrive 9 (packet 1 64))", 1, [PACKETS + 1, 1, 6, 0, 0, 0]),
        ("(change 9 (private 1022))", 1, [PACKETS + 1, 1, 6, 0, PACKETS, 0]),
    ]);
    let of_others = [core.counts(3).unwrap(), core.counts(4).unwrap()];
    assert_eq!(of_others.iter().map(|sheet| sheet[0]).sum::<u64>(), PACKETS);
    assert_eq!(of_others.iter().map(|sheet| sheet[1]).sum::<u64>(), PACKETS);
}

/// A client of each type with all that a sheet can have: client 5, private at first, has 14, 15,
/// dummies and packets of both times, and one that waits.
fn core_with_sheet(discipline: u32, kind: u32) -> Core {
    let mut core = core_with(discipline, &[(5, PRIVATE, 1024, 0)]);
    load(&mut core, 5, 1);
    core.perform(&Call::Tick);
    (0..=FULL).for_each(|handle| drop(arrive(&mut core, 5, u64::from(handle), 64)));
    core.perform(&Call::Tick);
    change(&mut core, 5, INDIFFERENT, 1024, 1);
    arrive(&mut core, 5, 1, 64);
    core.perform(&Call::Tick);
    if kind == PRIVATE {
        change(&mut core, 5, PRIVATE, 1024, 0);
    }
    assert_eq!(arrive(&mut core, 5, 1, 64), Answer::Accepted);
    assert_eq!(core.counts(5), Ok([PACKETS + 1, 1, 1, 1, PACKETS - 1, 1]));
    core
}

/// "since the join": a leave ends the counts, and the join behind it begins at zero, of whichever
/// types the two are, at once or later. So does one behind a second open, which gives "a core
/// without clients".
#[test]
fn s7_leave_and_join_again() {
    let open = Call::Open { threshold: 1024, discipline: 0, seed: 1 };
    for (ending, away) in [(Call::Leave { id: 5 }, 0), (Call::Leave { id: 5 }, 3), (open, 0)] {
        for discipline in [0, 1] {
            for (before, behind) in [(1, 1), (1, 2), (2, 1), (2, 2)] {
                let mut core = core_with_sheet(discipline, before);
                assert_eq!(core.perform(&ending), Answer::Accepted);
                assert_eq!(core.counts(5), Err(5));
                assert_eq!(lines(&core), "");
                ticks(&mut core, away);
                assert_eq!(core.counts(5), Err(5));
                let burst = 2 - behind; // 1 or, if private, 0
                assert_eq!(join(&mut core, 5, behind, 1024, burst), Answer::Accepted);
                assert_eq!(core.counts(5), Ok(NOTHING));
                core.perform(&Call::Tick);
                arrive(&mut core, 5, 1, 64);
                assert_eq!(core.counts(5), Ok([1, 0, 0, 0, 0, 0]));
            }
        }
    }
}

/// What another client does is not on the sheet: not its leave, with packets waiting, nor its join,
/// change, 14 or 15.
#[test]
fn s7_neighbours() {
    for kind in [INDIFFERENT, PRIVATE] {
        let mut core = core_with_sheet(0, kind);
        change(&mut core, 5, kind, 100, 2 - kind);
        let wanted = [PACKETS + 1, 1, 1, 1, PACKETS - 1, 1];
        assert_steps(&mut core, 5, &[
            ("(join 4 (private 100))", 1, wanted),
            ("(load 4 1)", 1, wanted),
            ("(arrive 4 (packet 1 64))", PACKETS + 1, wanted),
            ("(join 6 (indifferent 100 1))", 1, wanted),
            ("(arrive 6 (packet 1 64))", 1, wanted),
            ("(change 6 (private 100))", 1, wanted),
            ("(arrive 6 (packet 1 64))", 1, wanted),
            ("(change 4 (indifferent 100 1))", 1, wanted),
            ("(leave 6)", 1, wanted),
            ("(leave 4)", 1, wanted),
        ]);
    }
}

/// Cores with a client 9 whose next packet gets 14 or 15: private and full, indifferent and full,
/// with less than a token and with more, and indifferent without a token, with packets and without.
fn cores_that_refuse() -> Vec<(Core, u32)> {
    let mut cores = Vec::new();
    for discipline in [0, 1] {
        let mut private = core_with(discipline, &[(9, PRIVATE, 512, 0), (5, PRIVATE, 512, 0)]);
        (0..FULL).for_each(|handle| drop(arrive(&mut private, 9, u64::from(handle), 64)));
        load(&mut private, 9, 2);
        cores.push((private, 14));
        let mut empty = core_with(discipline, &[(9, INDIFFERENT, 512, 2)]);
        cores.push((empty.clone(), 15));
        ticks(&mut empty, 5);
        assert_eq!(arrive(&mut empty, 9, 1, 64), Answer::Accepted);
        assert_eq!(arrive(&mut empty, 9, 2, 64), Answer::Accepted);
        cores.push((empty, 15));
    }
    let full = core_with_waiting([3, 4, 9], FULL);
    cores.push((full.clone(), 14));
    let mut full_with_token = full;
    ticks(&mut full_with_token, 1);
    assert!(level(&full_with_token, 9) >= 1024);
    cores.push((full_with_token, 14));
    cores
}

/// "A refusal 14 or 15 now changes its own count and nothing else": the whole core is as before but
/// for this count, which is one higher each time.
#[test]
fn s7_own_count_and_nothing_else() {
    for (mut core, number) in cores_that_refuse() {
        let mut wanted = core.clone();
        for handle in 0..5 {
            assert_eq!(arrive(&mut core, 9, handle, 64), Answer::Refused(number));
            let Counts { refused_14, refused_15, .. } = counts_mut(&mut wanted, 9);
            *(if number == 14 { refused_14 } else { refused_15 }) += 1;
            assert_eq!(core, wanted);
        }
    }
}

/// Every other refusal, by its number: "nothing changes", so that the whole core is as before, each
/// count included.
#[test]
fn s7_other_refusals() {
    let refused = [
        ("(open 0 0 1)", 1), ("(open 1024 2 1)", 2), ("(open 1024 0 0)", 3),
        ("(join 64 (private 1))", 4), ("(change 64 (private 1))", 4), ("(leave 64)", 4),
        ("(load 64 1)", 4), ("(arrive 64 (packet 1 64))", 4), ("(arrive 69 (packet 1 64))", 4),
        ("(change 6 (private 1))", 5), ("(leave 6)", 5), ("(load 6 1)", 5),
        ("(arrive 6 (packet 1 64))", 5), ("(arrive 63 (packet 1 64))", 5),
        ("(join 5 (private 1))", 6), ("(join 3 (indifferent 1 1))", 6),
        ("(change 5 (private 0))", 8), ("(change 3 (indifferent 1025 1))", 8),
        ("(change 5 (indifferent 1 65))", 9), ("(change 3 (indifferent 1 0))", 9),
        ("(change 5 (indifferent 925 1))", 10), ("(change 3 (private 925))", 10),
        ("(join 6 (private 825))", 10), ("(load 3 0)", 11), ("(load 5 256)", 12),
        ("(arrive 5 (packet 1 63))", 13), ("(arrive 3 (packet 1 1519))", 13),
    ];
    for discipline in [0, 1] {
        for kind in [INDIFFERENT, PRIVATE] {
            let mut core = core_with_sheet(discipline, kind);
            change(&mut core, 5, PRIVATE, 100, 0);
            load(&mut core, 5, 1);
            arrive(&mut core, 5, 1, 64);
            join(&mut core, 3, INDIFFERENT, 100, 2);
            arrive(&mut core, 3, 1, 64);
            ticks(&mut core, 11);
            arrive(&mut core, 3, 1, 64);
            let before = core.clone();
            for (text, number) in refused {
                assert_eq!(core.perform(&call(text)), Answer::Refused(number), "{}", text);
                assert_eq!(core, before, "{}", text);
            }
            // 7 and 9 of calls that no line has
            assert_eq!(change(&mut core, 5, 3, 1, 0), Answer::Refused(7));
            assert_eq!(join(&mut core, 6, PRIVATE, 1, 1), Answer::Refused(9));
            assert_eq!(core, before);
        }
    }
    let mut core = Core::new();
    for text in ["(tick)", "(leave 64)", "(arrive 5 (packet 1 64))", "(join 5 (private 1))"] {
        assert_eq!(core.perform(&call(text)), Answer::Refused(19));
        assert_eq!(core, Core::new());
    }
}

/// The numbers of a refused sheet, in their order: 19 whatever the id, then 4, then 5.
#[test]
fn s7_refused_sheets() {
    let ids = [0, 5, 62, 63, 64, 65, 127, 128, 256, 261, 4294967232, 4294967295];
    let mut core = Core::new();
    assert!(ids.iter().all(|&id| core.counts(id) == Err(19)));
    core.perform(&Call::Open { threshold: 0, discipline: 0, seed: 1 });
    assert!(ids.iter().all(|&id| core.counts(id) == Err(19)));
    for clients in [&[][..], &[(5, PRIVATE, 1, 0)]] {
        let core = core_of(clients);
        for id in ids {
            let wanted = match id {
                5 if !clients.is_empty() => Ok(NOTHING),
                0..=63 => Err(5),
                _ => Err(4),
            };
            assert_eq!(core.counts(id), wanted, "{}", id);
        }
    }
    let core = core_with(1, &(0..64).map(|id| (id, PRIVATE, 16, 0)).collect::<Vec<_>>());
    assert!((0..64).all(|id| core.counts(id) == Ok(NOTHING)));
    assert!((64..200).all(|id| core.counts(id) == Err(4)));
}

/// The six counts as they are set here: each its own number, and one of them the largest.
fn counts_with(largest: usize) -> (Counts, [u64; 6]) {
    let mut sheet = [10, 20, 30, 40, 50, 60];
    sheet[largest] = 18446744073709551615;
    let [accepted, sent, refused_14, refused_15, emptied, dummies] = sheet;
    (Counts { accepted, sent, refused_14, refused_15, emptied, dummies }, sheet)
}

/// "counts run to 64 bits and then begin again at zero": each of the six, with what is to count one
/// more on it, for both types where both have it. The five others stay, and the answer is as ever.
#[test]
fn s7_begin_again() {
    for discipline in [0, 1] {
        let private = core_with(discipline, &[(9, PRIVATE, 1024, 0)]);
        let mut one_waits = private.clone();
        arrive(&mut one_waits, 9, 1, 64);
        let mut with_dummy = private.clone();
        load(&mut with_dummy, 9, 1);
        let mut full = private.clone();
        (0..FULL).for_each(|handle| drop(arrive(&mut full, 9, u64::from(handle), 64)));
        let indifferent = core_with(discipline, &[(9, INDIFFERENT, 1024, 2)]);
        let mut with_token = indifferent.clone();
        ticks(&mut with_token, 1);
        let mut one_waits_too = with_token.clone();
        arrive(&mut one_waits_too, 9, 1, 64);
        let packet = "(arrive 9 (packet 1 64))";
        let cases = [
            (0, &private, packet), (0, &with_token, packet), (1, &one_waits, "(tick)"),
            (1, &one_waits_too, "(tick)"), (2, &full, packet), (3, &indifferent, packet),
            (4, &one_waits, "(change 9 (indifferent 1 1))"),
            (4, &one_waits_too, "(change 9 (private 1))"), (5, &with_dummy, "(tick)"),
        ];
        for (place, core, text) in cases {
            let mut plain = core.clone();
            let mut core = core.clone();
            let (counts, mut wanted) = counts_with(place);
            *counts_mut(&mut core, 9) = counts;
            assert_eq!(core.counts(9), Ok(wanted));
            assert_eq!(core.perform(&call(text)), plain.perform(&call(text)));
            wanted[place] = 0;
            assert_eq!(core.counts(9), Ok(wanted), "{} {}", place, text);
        }
    }
    let mut core = core_with_waiting([3, 4, 9], FULL); // 14 of an indifferent client
    *counts_mut(&mut core, 9) = counts_with(2).0;
    assert_eq!(arrive(&mut core, 9, 1, 64), Answer::Refused(14));
    assert_eq!(core.counts(9), Ok([10, 20, 0, 40, 50, 60]));
}

/// A change of type counts all that wait at once: past the end it goes on from zero with the rest.
#[test]
fn s7_begin_again_with_more() {
    for (emptied, packets, wanted) in [(18446744073709551615, 0, 18446744073709551615),
                                       (18446744073709551615, 3, 2),
                                       (18446744073709551614, 3, 1),
                                       (18446744073709551612, 3, 18446744073709551615),
                                       (18446744073709551615, PACKETS, PACKETS - 1)] {
        let mut core = core_with(0, &[(9, PRIVATE, 1024, 0)]);
        (0..packets).for_each(|handle| drop(arrive(&mut core, 9, handle, 64)));
        counts_mut(&mut core, 9).emptied = emptied;
        assert_eq!(change(&mut core, 9, INDIFFERENT, 1, 1), Answer::Accepted);
        assert_eq!(core.counts(9), Ok([packets, 0, 0, 0, wanted, 0]));
    }
}

/// "Accepted equals sent plus emptied plus waiting, modulo 2 to the power 64", of every client.
fn assert_sum(core: &Core) {
    for id in (0..64).filter(|&id| core.counts(id).is_ok()) {
        let [accepted, sent, _, _, emptied, _] = core.counts(id).unwrap();
        let waiting = u128::from(waiting(core, id as usize));
        let sum = u128::from(sent) + u128::from(emptied) + waiting;
        assert_eq!(u128::from(accepted), sum % 18446744073709551616, "{}", id);
    }
}

/// The sum while its parts begin again: accepted before sent and emptied do, and each of these
/// before the other.
#[test]
fn s7_sum_begins_again() {
    let most = 18446744073709551615;
    for (accepted, sent, emptied) in [(most, most, 0), (most, 0, most), (most - 1, most, most),
                                      (most, most - 2, 2), (0, 1, most), (5, 9, most - 3)] {
        let mut core = core_with(1, &[(9, PRIVATE, 1024, 0)]);
        *counts_mut(&mut core, 9) = Counts { accepted, sent, emptied, ..Counts::default() };
        for text in ["(arrive 9 (packet 1 64))", "(arrive 9 (packet 1 64))", "(tick)",
                     "(arrive 9 (packet 1 64))", "(change 9 (indifferent 1024 1))", "(tick)",
                     "(arrive 9 (packet 1 64))", "(change 9 (private 1024))",
                     "(arrive 9 (packet 1 64))", "(tick)", "(tick)"] {
            assert_sum(&core);
            core.perform(&call(text));
        }
        assert_sum(&core);
        let [accepted, sent, emptied] = [(accepted, 5), (sent, 2), (emptied, 3)]
            .map(|(count, more): (u64, u64)| count.wrapping_add(more));
        assert_eq!(core.counts(9), Ok([accepted, sent, 0, 0, emptied, 0]));
    }
}

/// A call and what it got.
type Step = (Call, Answer);

/// "since the join", from the calls and their answers alone: the type that the id joined with, and
/// the steps behind the join; or the number with which the sheet is refused. What ends a client is
/// an accepted leave, and an accepted open.
fn since_the_join(history: &[Step], id: u32) -> Result<(u32, &[Step]), u32> {
    let is_accepted = |step: &&Step| step.1 == Answer::Accepted;
    let is_open = |step: &Step| matches!(step.0, Call::Open { .. });
    if !history.iter().filter(is_accepted).any(is_open) {
        return Err(19);
    }
    if id > 63 {
        return Err(4);
    }
    let comes_or_goes = |step: &Step| {
        step.1 == Answer::Accepted && match step.0 {
            Call::Open { .. } => true,
            Call::Join { id: other, .. } | Call::Leave { id: other } => other == id,
            _ => false,
        }
    };
    let last = history.iter().rposition(comes_or_goes).expect("there was an open");
    match history[last].0 {
        Call::Join { kind, .. } => Ok((kind, &history[last + 1..])),
        _ => Err(5),
    }
}

/// The sheet of an id, counted anew: "Each is defined from the calls since the join." What a change
/// of type empties are the packets accepted before it that have neither been sent nor emptied out.
fn counted_anew(history: &[Step], id: u32) -> Result<[u64; 6], u32> {
    let (mut kind, steps) = since_the_join(history, id)?;
    let (mut accepted, mut sent, mut emptied) = (0, 0, 0);
    let (mut refused_14, mut refused_15, mut dummies) = (0, 0, 0);
    for (call, answer) in steps {
        match (call, answer) {
            (Call::Arrive { id: own, .. }, answer) if *own == id => match answer {
                Answer::Accepted => accepted += 1,
                Answer::Refused(14) => refused_14 += 1,
                Answer::Refused(15) => refused_15 += 1,
                _ => {}
            },
            (Call::Change { id: own, kind: new, .. }, Answer::Accepted) if *own == id => {
                if *new != kind {
                    emptied = accepted - sent;
                }
                kind = *new;
            }
            (_, Answer::Slot(Outcome::Real { id: own, .. })) if *own == id => sent += 1,
            (_, Answer::Slot(Outcome::Dummy { id: own })) if *own == id => dummies += 1,
            _ => {}
        }
    }
    Ok([accepted, sent, refused_14, refused_15, emptied, dummies])
}

/// By hand: client 5 has three packets accepted while private, of which one is sent, and two that
/// are accepted while indifferent, of which one is sent; so two are emptied out, and then one.
#[test]
fn s7_counted_anew_by_hand() {
    let packet = "(arrive 5 (packet 1 64))";
    let texts = ["(tick)", "(open 1024 0 1)", "(join 5 (private 1024))", packet, packet, packet,
                 "(tick)", "(change 5 (indifferent 1024 2))", packet, "(tick)", "(tick)", packet,
                 packet, "(tick)", "(change 5 (private 1024))", "(load 5 1)", "(tick)"];
    let mut core = Core::new();
    let mut history: Vec<Step> = Vec::new();
    for text in texts {
        let answer = core.perform(&call(text));
        history.push((call(text), answer));
    }
    assert_eq!(counted_anew(&history[..1], 5), Err(19));
    assert_eq!(counted_anew(&history[..2], 5), Err(5));
    assert_eq!(counted_anew(&history[..2], 64), Err(4));
    assert_eq!(counted_anew(&history[..3], 5), Ok(NOTHING));
    assert_eq!(counted_anew(&history[..8], 5), Ok([3, 1, 0, 0, 2, 0]));
    assert_eq!(counted_anew(&history, 5), Ok([5, 2, 0, 1, 3, 1]));
    assert_eq!(core.counts(5), Ok([5, 2, 0, 1, 3, 1]));
}

/// Packets of one client: mostly some, now and then more than it has places. Some are too short.
fn chance_packets(chance: &mut Chance) -> Vec<Call> {
    let id = chance_id(chance);
    let length = [63, 64, 65, 100, 500, 1000, 1517, 1518][chance.below(8) as usize];
    let number = match chance.below(8) {
        0 => FULL + chance.below(9),
        _ => 1 + chance.below(5),
    };
    (0..number).map(|handle| Call::Arrive { id, handle: u64::from(handle), length }).collect()
}

/// Packets or a load; now and then one that a pool has no room for.
fn chance_sending(chance: &mut Chance) -> Vec<Call> {
    match chance.below(24) {
        0 => vec![Call::Load { id: chance_id(chance), count: 254 + chance.below(9) }],
        1..=7 => vec![Call::Load { id: chance_id(chance), count: chance.below(4) }],
        _ => chance_packets(chance),
    }
}

/// A call with terms that are refused, of an id that may be so too; each can stand in a script.
fn chance_bad_terms(chance: &mut Chance) -> Call {
    let id = chance_id(chance);
    let terms = [(PRIVATE, 0, 0), (INDIFFERENT, 1025, 1), (INDIFFERENT, 1, 0), (INDIFFERENT, 1, 65),
                 (PRIVATE, 1024, 0)];
    let (kind, rate, burst) = terms[chance.below(5) as usize];
    match chance.below(7) {
        0 => Call::Open { threshold: 1025, discipline: 0, seed: 1 },
        1 => Call::Open { threshold: 1024, discipline: 2, seed: 1 },
        2 => Call::Open { threshold: 1024, discipline: 0, seed: 0 },
        3 => Call::Join { id, kind, rate, burst },
        _ => Call::Change { id, kind, rate, burst },
    }
}

/// One call, packets of one client, or some ticks.
fn chance_step(chance: &mut Chance) -> Vec<Call> {
    let (kind, burst) = chance_kind(chance);
    let (id, rate) = (chance_id(chance), 1 + chance.below(170));
    match chance.below(26) {
        0 => vec![Call::Leave { id }],
        1 | 2 => vec![Call::Join { id, kind, rate, burst }],
        3..=6 => vec![Call::Change { id, kind, rate, burst }],
        7 if chance.below(8) == 0 => vec![chance_open(chance)],
        7 | 8 => vec![chance_bad_terms(chance)],
        9..=16 => chance_sending(chance),
        _ => vec![Call::Tick; 1 + chance.below(14) as usize],
    }
}

/// A history's calls: an open, which is sometimes behind a tick and sometimes refused with 3, all
/// clients, and 80 steps more.
fn chance_calls(chance: &mut Chance) -> Vec<Call> {
    let mut calls = vec![Call::Tick; chance.below(2) as usize];
    calls.push(chance_open(chance));
    for id in IDS {
        let (kind, burst) = chance_kind(chance);
        calls.push(Call::Join { id, kind, rate: 1 + chance.below(170), burst });
    }
    for _ in 0..80 {
        calls.extend(chance_step(chance));
    }
    calls
}

/// Which ids are looked at in a history of chance: those of its clients, one that never joins, and
/// two above 63.
const LOOKED_AT: [u32; 9] = [0, 1, 2, 3, 40, 63, 50, 64, 4294967295];

/// What a refused call leaves: the core as it was, but for the count of a 14 or 15.
fn assert_refused(before: &Core, call: &Call, number: u32, core: &Core) {
    let mut wanted = before.clone();
    if let (Call::Arrive { id, .. }, 14 | 15) = (call, number) {
        let Counts { refused_14, refused_15, .. } = counts_mut(&mut wanted, *id as usize);
        *(if number == 14 { refused_14 } else { refused_15 }) += 1;
    }
    assert_eq!(*core, wanted, "{:?}", call);
}

/// Histories of chance: behind every call the sum is right, and a refused one has left what it has
/// to; every sheet is the one that is counted anew from the calls and their answers. All six counts
/// come, and so does every number that a call of a script can get.
#[test]
fn s7_histories() {
    let mut chance = Chance { v: 7 };
    let mut sums = [0; 6];
    let mut met = [0; 20];
    for _ in 0..150 {
        let mut core = Core::new();
        let mut history: Vec<Step> = Vec::new();
        for call in chance_calls(&mut chance) {
            let before = core.clone();
            let answer = core.perform(&call);
            if let Answer::Refused(number) = answer {
                assert_refused(&before, &call, number, &core);
                met[number as usize] += 1;
            }
            history.push((call, answer));
            assert_sum(&core);
            let id = LOOKED_AT[history.len() % 9];
            assert_eq!(core.counts(id), counted_anew(&history, id));
        }
        for id in LOOKED_AT {
            assert_eq!(core.counts(id), counted_anew(&history, id));
            for (sum, count) in sums.iter_mut().zip(core.counts(id).unwrap_or(NOTHING)) {
                *sum += count;
            }
        }
    }
    assert!(sums.iter().all(|&sum| sum > 30), "{:?}", sums);
    let numbers = [1, 2, 3, 4, 5, 6, 8, 9, 10, 11, 12, 13, 14, 15, 19];
    assert!(numbers.iter().all(|&number| met[number] > 10), "{:?}", met);
}

/// Long runs, with 66 ids and every number: the same, now and then. From these seeds a queue of an
/// indifferent client gets full too; some of the sheets with such a 14 are looked at behind it.
#[test]
fn s7_long_runs() {
    for seed in [25, 54, 66] {
        let mut maker = Maker::new(seed);
        let mut core = Core::new();
        let mut history: Vec<Step> = Vec::new();
        let mut met_14 = 0;
        for count in 1..=150_000 {
            let call = maker.next_call();
            let answer = core.perform(&call);
            history.push((call.clone(), answer.clone()));
            if let (Call::Arrive { id, .. }, Answer::Refused(14)) = (call, answer) {
                if met_14 < 20 && !core.is_private(id) {
                    met_14 += 1;
                    assert_eq!(core.counts(id), counted_anew(&history, id));
                }
            }
            if count % 500 == 0 {
                assert_sum(&core);
            }
            if count % 50_000 == 0 {
                assert!((0..66).all(|id| core.counts(id) == counted_anew(&history, id)));
            }
        }
        assert!(met_14 > 0);
    }
}

/// A core whose counts begin elsewhere: where one joins they are set, so that some soon begin again
/// at zero. No answer depends on it, what each has gained is the same, and so is all else.
#[test]
fn s7_counts_steer_nothing() {
    let mut chance = Chance { v: 77 };
    let starts = [[18446744073709551615; 6], [18446744073709551613, 18446744073709551612,
                  18446744073709551614, 0, 1, 18446744073709551615]];
    let mut begun_again = 0;
    for count in 0..100 {
        let start = starts[count % 2];
        let [accepted, sent, refused_14, refused_15, emptied, dummies] = start;
        let counts = Counts { accepted, sent, refused_14, refused_15, emptied, dummies };
        let (mut plain, mut other) = (Core::new(), Core::new());
        for call in chance_calls(&mut chance) {
            let answer = plain.perform(&call);
            assert_eq!(other.perform(&call), answer);
            if let (Call::Join { id, .. }, Answer::Accepted) = (&call, answer) {
                *counts_mut(&mut other, *id as usize) = counts.clone();
            }
        }
        for id in 0..64 {
            if plain.counts(id).is_err() {
                continue;
            }
            let gained = gain(start, other.counts(id).unwrap());
            assert_eq!(plain.counts(id), Ok(gained));
            begun_again += u32::from(other.counts(id).unwrap()[1] < start[1]);
            *counts_mut(&mut plain, id as usize) = Counts::default();
            *counts_mut(&mut other, id as usize) = Counts::default();
        }
        assert_eq!(plain, other);
    }
    assert!(begun_again > 100, "{}", begun_again);
}

/// What each count has gained, modulo 2 to the power 64.
fn gain(before: [u64; 6], now: [u64; 6]) -> [u64; 6] {
    let mut gained = now;
    for (gained, before) in gained.iter_mut().zip(before) {
        *gained = gained.wrapping_sub(before);
    }
    gained
}

/// What is looked at where two histories are compared: the sheets of `IDS`, and of those that are
/// indifferent "what each count has gained after the join or change that made it so".
#[derive(Debug, PartialEq, Eq)]
struct Place {
    sheets: Vec<Result<[u64; 6], u32>>,
    gains: Vec<Option<[u64; 6]>>,
}

impl Place {
    /// As a core stands, with the sheets behind the calls that made clients indifferent.
    fn of(core: &Core, since: &[Option<[u64; 6]>; 64]) -> Place {
        let sheets: Vec<_> = IDS.iter().map(|&id| core.counts(id)).collect();
        let since = IDS.iter().map(|&id| since[id as usize]);
        let gains = since.zip(&sheets).map(|(since, sheet)| Some(gain(since?, (*sheet).unwrap())));
        Place { gains: gains.collect(), sheets }
    }
}

/// Of an accepted call: the sheet behind a join as an indifferent client, or a change to one, "what
/// that change itself emptied left out", is where its gains start. A change that keeps the type has
/// not "made it so".
fn follow(since: &mut [Option<[u64; 6]>; 64], core: &Core, call: &Call) {
    match *call {
        Call::Open { .. } => *since = [None; 64],
        Call::Join { id, kind: INDIFFERENT, .. } | Call::Change { id, kind: INDIFFERENT, .. } => {
            let start = since[id as usize].or(core.counts(id).ok());
            since[id as usize] = start;
        }
        Call::Join { id, .. } | Call::Change { id, .. } | Call::Leave { id } => {
            since[id as usize] = None;
        }
        _ => {}
    }
}

/// The places of a history's kept calls, and its end.
fn places(calls: &[Call], chosen: u32) -> Vec<Place> {
    let mut core = Core::new();
    let mut since = [None; 64];
    let mut places = Vec::new();
    for call in calls {
        if !is_struck_out(&core, call, chosen) {
            places.push(Place::of(&core, &since));
        }
        if core.perform(call) == Answer::Accepted {
            follow(&mut since, &core, call);
        }
    }
    places.push(Place::of(&core, &since));
    places
}

/// Another history, which differs in what is struck out alone: some of it is left out, and before
/// every call there may be more.
fn other_history(calls: &[Call], chosen: u32, chance: &mut Chance) -> Vec<Call> {
    let mut core = Core::new();
    let mut other = Vec::new();
    for call in calls {
        if chance.below(6) == 0 {
            let more = chance_sending(chance).into_iter();
            other.extend(more.filter(|more| is_struck_out(&core, more, chosen)));
        }
        if !is_struck_out(&core, call, chosen) || chance.below(2) == 0 {
            other.push(call.clone());
        }
        core.perform(call);
    }
    other
}

/// "The chosen client's sheet is as private as its queue": at every place it is the same in two
/// histories that differ in what private neighbours send and load, the number of a refused one
/// included. "Any other sheet counts from the join, private time included": that of an indifferent
/// client is not always the same, but its gains are. The sheets of private neighbours differ.
#[test]
fn s7_two_histories() {
    let mut chance = Chance { v: 777 };
    let (mut chosen, mut indifferent, mut private) = (NOTHING, [0; 2], 0);
    for count in 0..300 {
        let own = count % 6;
        let calls = chance_calls(&mut chance);
        let other = other_history(&calls, IDS[own], &mut chance);
        let (one, two) = (places(&calls, IDS[own]), places(&other, IDS[own]));
        assert_eq!(one.len(), two.len());
        for (one, two) in one.iter().zip(&two) {
            assert_eq!(one.sheets[own], two.sheets[own]);
            assert_eq!(one.gains, two.gains);
            for place in 0..6 {
                let is_same = one.sheets[place] == two.sheets[place];
                match one.gains[place] {
                    Some(gain) if gain != NOTHING => indifferent[usize::from(is_same)] += 1,
                    None => private += u32::from(!is_same),
                    _ => {}
                }
            }
        }
        let end = one[one.len() - 1].sheets[own].unwrap_or(NOTHING);
        chosen.iter_mut().zip(end).for_each(|(sum, count)| *sum += count);
    }
    assert!(chosen.iter().all(|&sum| sum > 10), "{:?}", chosen);
    let [different, same] = indifferent;
    assert!(different > 1000 && same > 1000 && private > 1000, "{:?} {}", indifferent, private);
}

/// By hand, with paper 01's targets: clients 2 and 5 are drawn once each while client 5 is private.
/// Then it is indifferent, gets its token with the eleventh tick, and has a packet accepted and
/// sent and one refused with 15. What it sent and loaded while private is on its own sheet, and not
/// on that of client 2; what it gained since is the same.
#[test]
fn s7_two_histories_by_hand() {
    let script = |more: &str| {
        format!("(open 1024 0 1)\n(join 2 (private 300))\n(join 5 (private 100))\n(load 2 1)\n\
                 {}(arrive 2 (packet 1 64))\n(arrive 2 (packet 2 64))\n(tick)\n(tick)\n\
                 (change 5 (indifferent 100 1))\n{}", more, "(tick)\n".repeat(11))
    };
    let behind = "(arrive 5 (packet 8 64))\n(arrive 5 (packet 9 64))\n(tick)\n";
    let packets = "(arrive 5 (packet 7 64))\n".repeat(FULL as usize + 2);
    let of_2 = line(2, [2, 2, 0, 0, 0, 1]);
    for (more, start) in [("", NOTHING), ("(load 5 3)\n", [0, 0, 0, 0, 0, 1]),
                          (&packets[..], [PACKETS, 1, 2, 0, PACKETS - 1, 0])] {
        let text = script(more);
        assert_eq!(counted(&text), format!("{}{}", of_2, line(5, start)));
        let [accepted, sent, refused_14, refused_15, emptied, dummies] = start;
        let end = [accepted + 1, sent + 1, refused_14, refused_15 + 1, emptied, dummies];
        assert_eq!(counted(&format!("{}{}", text, behind)), format!("{}{}", of_2, line(5, end)));
    }
}

/// The bytes of a line, with the ends of every number.
#[test]
fn s7_line() {
    assert_eq!(line(0, NOTHING), "(counts 0 0 0 0 0 0 0)\n");
    assert_eq!(line(63, [1, 2, 3, 4, 5, 6]), "(counts 63 1 2 3 4 5 6)\n");
    let most = 18446744073709551615;
    assert_eq!(line(10, [most, 0, most - 1, 4294967296, 10, most]),
               "(counts 10 18446744073709551615 0 18446744073709551614 4294967296 10 \
                18446744073709551615)\n");
}

/// "for every active client by rising id": of all 64, with sheets of their own, and of some, in
/// whichever order they joined.
#[test]
fn s7_lines_by_rising_id() {
    let mut core = core_with(0, &(0..64).rev().map(|id| (id, PRIVATE, 16, 0)).collect::<Vec<_>>());
    for id in 0..64 {
        (0..id % (FULL + 3)).for_each(|handle| drop(arrive(&mut core, id, u64::from(handle), 64)));
    }
    let mut wanted = String::new();
    for id in 0..64 {
        let offered = u64::from(id % (FULL + 3));
        let accepted = offered.min(PACKETS);
        wanted.push_str(&line(id, [accepted, 0, offered - accepted, 0, 0, 0]));
    }
    assert_eq!(lines(&core), wanted);
    let text = "(open 1024 0 1)\n(join 10 (private 1))\n(join 9 (indifferent 1 1))\n\
                (join 63 (private 1))\n(join 0 (indifferent 1 1))\n(join 30 (private 1))\n\
                (arrive 9 (packet 1 64))\n(arrive 63 (packet 1 64))\n(leave 30)\n";
    let wanted = "(counts 0 0 0 0 0 0 0)\n(counts 9 0 0 0 1 0 0)\n(counts 10 0 0 0 0 0 0)\n\
                  (counts 63 1 0 0 0 0 0)\n";
    assert_eq!(counted(text), wanted);
}

/// "nothing for an unopened core", nor for one without clients; and none of a script's own answers.
#[test]
fn s7_no_lines() {
    for text in ["", "\n", "x", "(tick)\n", "(open 0 0 1)\n(join 2 (private 1))\n(tick)\n",
                 "(open 1 0 1)", "(open 1 0 1)\n", "(open 1 0 1)\n(tick)\n",
                 "(open 1 0 1)\n(join 2 (private 1))\n(arrive 2 (packet 1 64))\n(leave 2)\n",
                 "(open 1 0 1)\n(join 2 (private 1))\n(load 2 1)\n(tick)\n(open 1 0 1)\n"] {
        assert_eq!(counted(text), "", "{:?}", text);
    }
}

/// "as they stand after the script's last line": lines that yield no form change nothing, and bytes
/// behind the last line feed neither. The line of a sheet is no form of a script.
#[test]
fn s7_other_lines() {
    let wanted = counted(EXAMPLE);
    let sheet = "(counts 2 1 1 0 0 0 1)";
    for bad in BAD.into_iter().chain([sheet, "(counts 2)", "(counts)"]) {
        let text = EXAMPLE.replace('\n', &format!("\n{}\n", bad));
        assert_eq!(counted(&text), wanted, "{:?}", bad);
        assert_eq!(counted(&format!("{}\n", bad)), "");
    }
    for behind in ["(tick)", "(open 1 0 1)", "(leave 2)", "(arrive 2 (packet 1 64))", "x", "\r"] {
        assert_eq!(counted(&format!("{}{}", EXAMPLE, behind)), wanted);
    }
    assert_eq!(printed(&format!("{}\n", sheet)), "(refused 16)\n");
}

/// "A script over 60,000 bytes still prints `(refused 18)` as its only line"; 60,000 are read.
#[test]
fn s7_size() {
    let begin = "(open 1024 0 1)\n(join 2 (private 300))\n(load 2 200)\n";
    let ticks = "(tick)\n".repeat((60000 - begin.len()) / 7);
    let most = format!("{}{}{}", begin, ticks, "\n".repeat(60000 - begin.len() - ticks.len()));
    assert_eq!(most.len(), 60000);
    assert_eq!(counted(&most), "(counts 2 0 0 0 0 0 200)\n");
    for more in [format!("{}\n", most), format!("{}x", most), "x".repeat(60001)] {
        assert_eq!(counted(&more), "(refused 18)\n");
    }
}

/// Scripts of chance, with lines that yield no form among them: the lines are those of the sheets
/// that are counted anew. Every line that is a call has the answer that it has without `--counts`.
#[test]
fn s7_scripts() {
    let mut chance = Chance { v: 7777 };
    let mut seen = 0;
    for _ in 0..200 {
        let calls = chance_calls(&mut chance);
        let text = script(&calls, &mut chance);
        let mut core = Core::new();
        let history: Vec<Step> =
            calls.into_iter().map(|call| (call.clone(), core.perform(&call))).collect();
        let mut wanted = String::new();
        for id in 0..64 {
            if let Ok(sheet) = counted_anew(&history, id) {
                wanted.push_str(&line(id, sheet));
            }
        }
        assert_eq!(counted(&text), wanted);
        seen += wanted.lines().count();
    }
    assert!(seen > 500, "{}", seen);
}
