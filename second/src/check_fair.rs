//! S-8 of paper 02: figures worked out by hand, each reason for 22, the text and printout of
//! `fair`, and the sentences to be proved, held against 3,000 lists.

use crate::check::Chance;
use crate::fair::{rates, run};
use crate::script::{parse, Line};

/// Demands with the ids 0, 1, 2 and so on.
fn list(demands: &[u32]) -> Vec<(u32, u32)> {
    (0..).zip(demands.iter().copied()).collect()
}

fn assert_rates(threshold: u32, demands: &[u32], wanted: &[u32]) {
    assert_eq!(rates(threshold, &list(demands)), Ok(wanted.to_vec()));
}

fn assert_refused(threshold: u32, demands: &[(u32, u32)]) {
    assert_eq!(rates(threshold, demands), Err(22), "{} {:?}", threshold, demands);
}

fn printed(text: &str) -> String {
    String::from_utf8(run(text.as_bytes())).unwrap()
}

/// Three demands of 5. Level 3 takes 9 and level 4 takes 12, so that of 10 shares 1 is left, of 11
/// shares 2, and of 12 none. From 15 on all are met, and what is left then stays left.
#[test]
fn equal_demands() {
    assert_rates(3, &[5, 5, 5], &[1, 1, 1]);
    assert_rates(9, &[5, 5, 5], &[3, 3, 3]);
    assert_rates(10, &[5, 5, 5], &[4, 3, 3]);
    assert_rates(11, &[5, 5, 5], &[4, 4, 3]);
    assert_rates(12, &[5, 5, 5], &[4, 4, 4]);
    assert_rates(14, &[5, 5, 5], &[5, 5, 4]);
    assert_rates(15, &[5, 5, 5], &[5, 5, 5]);
    assert_rates(1024, &[5, 5, 5], &[5, 5, 5]);
}

/// 10 and 20 are below the level and leave 70 of 100 to the third, wherever it stands. Of 40 the
/// level is 15: 15 + 10 + 15. Of 41 it is the same, and the 1 left goes to the lower id.
#[test]
fn one_huge_demand() {
    assert_rates(100, &[1024, 10, 20], &[70, 10, 20]);
    assert_rates(100, &[10, 20, 1024], &[10, 20, 70]);
    assert_rates(40, &[1024, 10, 20], &[15, 10, 15]);
    assert_rates(41, &[1024, 10, 20], &[16, 10, 15]);
    assert_rates(41, &[10, 20, 1024], &[10, 16, 15]);
    assert_rates(1024, &[1024, 10, 20], &[994, 10, 20]);
}

#[test]
fn threshold_of_one() {
    assert_rates(1, &[1], &[1]);
    assert_rates(1, &[2], &[1]);
    assert_rates(1, &[1024], &[1]);
}

/// 64 × 16 = 1024 leaves nothing. 63 × 16 = 1008 leaves 16, which the first 16 get. 1024 alone is
/// met, at the largest level that there is; of 1023 shares it misses one.
#[test]
fn threshold_of_1024() {
    assert_rates(1024, &[1024; 64], &[16; 64]);
    assert_rates(1024, &[1024; 63], &[&[17; 16][..], &[16; 47]].concat());
    assert_rates(1024, &[1024], &[1024]);
    assert_rates(1023, &[1024], &[1023]);
    assert_rates(1024, &[1024, 1], &[1023, 1]);
    assert_rates(1024, &[1024, 1024], &[512, 512]);
    assert_rates(1023, &[1024, 1024], &[512, 511]);
}

/// One share each, whatever is demanded; the 65th share goes to the lowest id that demands more
/// than 1.
#[test]
fn as_many_demands_as_shares() {
    assert_rates(64, &[1024; 64], &[1; 64]);
    assert_rates(64, &[1; 64], &[1; 64]);
    let mut demands = [1; 64];
    demands[9] = 2;
    demands[40] = 1024;
    assert_rates(64, &demands, &[1; 64]);
    let mut wanted = [1; 64];
    wanted[9] = 2;
    assert_rates(65, &demands, &wanted);
    wanted[40] = 2;
    assert_rates(66, &demands, &wanted);
}

/// "An empty list gives no rates"; "the only check" is made of its threshold too.
#[test]
fn empty_list() {
    assert_rates(1, &[], &[]);
    assert_rates(1024, &[], &[]);
    assert_refused(0, &[]);
    assert_refused(1025, &[]);
}

/// Level 3 takes 3 + 2 + 3 + 3 + 3 = 14 and level 4 takes 3 + 2 + 4 + 4 + 4 = 17. Of 15 and 16 the
/// 1 or 2 left go to the third and fourth: the first two come earlier, but one is at the level and
/// one below it.
#[test]
fn left_shares() {
    let demands = [(3, 3), (4, 2), (10, 9), (11, 4), (63, 9)];
    assert_eq!(rates(14, &demands), Ok(vec![3, 2, 3, 3, 3]));
    assert_eq!(rates(15, &demands), Ok(vec![3, 2, 4, 3, 3]));
    assert_eq!(rates(16, &demands), Ok(vec![3, 2, 4, 4, 3]));
    assert_eq!(rates(17, &demands), Ok(vec![3, 2, 4, 4, 4]));
}

/// "ids above 63 or not rising": any other rising ids are taken, with gaps and at both ends.
#[test]
fn refused_ids() {
    assert_eq!(rates(9, &[(0, 1), (63, 1)]), Ok(vec![1, 1]));
    assert_eq!(rates(9, &[(63, 1)]), Ok(vec![1]));
    assert_refused(9, &[(64, 1)]);
    assert_refused(9, &[(4294967295, 1)]);
    assert_refused(9, &[(0, 1), (64, 1)]);
    assert_eq!(rates(9, &[(7, 1), (8, 1)]), Ok(vec![1, 1]));
    assert_refused(9, &[(7, 1), (7, 1)]);
    assert_refused(9, &[(7, 1), (6, 1)]);
    assert_refused(9, &[(1, 1), (2, 1), (3, 1), (3, 1)]);
    assert_refused(9, &[(1, 1), (3, 1), (2, 1), (4, 1)]);
}

#[test]
fn refused_thresholds_and_demands() {
    assert_refused(0, &[(0, 1)]);
    assert_rates(1, &[1], &[1]);
    assert_rates(1024, &[1], &[1]);
    assert_refused(1025, &[(0, 1)]);
    assert_refused(4294967295, &[(0, 1)]);
    for wrong in [0, 1025, 4294967295] {
        assert_refused(9, &[(0, wrong)]);
        assert_refused(9, &[(0, wrong), (1, 1)]);
        assert_refused(9, &[(0, 1), (1, wrong)]);
    }
    assert_rates(9, &[1, 1024], &[1, 8]);
    assert_rates(9, &[1024, 1], &[8, 1]);
}

/// "a list over 64, ... or more demands than shares in the threshold". 65 rising ids pass 63 as
/// well, whatever they are; so 65 demands are refused for more than one reason.
#[test]
fn refused_lengths() {
    let full = list(&[1024; 64]);
    assert!(rates(1024, &full).is_ok());
    assert_refused(1024, &list(&[1024; 65]));
    assert!(rates(64, &full).is_ok());
    assert_refused(63, &full);
    assert!(rates(63, &full[1..]).is_ok());
    assert!(rates(2, &full[..2]).is_ok());
    assert_refused(1, &full[..2]);
}

const TEXT: &str = "(threshold 11)\n(demand 0 2)\n(demand 7 10)\n(demand 63 10)\n";

/// Level 4 takes 2 + 4 + 4 = 10 and level 5 takes 12; the 1 left goes to 7.
#[test]
fn printout() {
    assert_eq!(printed(TEXT), "(rate 0 2)\n(rate 7 5)\n(rate 63 4)\n");
    assert_eq!(printed("(threshold 1)\n"), "");
    assert_eq!(printed("(threshold 1024)\n"), "");
    assert_eq!(printed("(threshold 0)\n"), "(refused 22)\n");
    assert_eq!(printed("(threshold 1025)\n"), "(refused 22)\n");
    assert_eq!(printed("(threshold 4294967295)\n"), "(refused 22)\n");
    assert_eq!(printed("(threshold 2)\n(demand 1 1)\n(demand 1 1)\n"), "(refused 22)\n");
    assert_eq!(printed("(threshold 1)\n(demand 1 1)\n(demand 2 1)\n"), "(refused 22)\n");
    assert_eq!(printed("(threshold 2)\n(demand 1 1)\n(demand 2 1)\n"), "(rate 1 1)\n(rate 2 1)\n");
}

/// 64 lines give 64 rates; any more are "of the right shape", and refused with 22.
#[test]
fn many_lines() {
    let mut text = "(threshold 64)\n".to_string();
    let mut wanted = String::new();
    for id in 0..64 {
        text.push_str(&format!("(demand {} 1024)\n", id));
        wanted.push_str(&format!("(rate {} 1)\n", id));
    }
    assert_eq!(printed(&text), wanted);
    text.push_str("(demand 64 1024)\n");
    assert_eq!(printed(&text), "(refused 22)\n");
    text.push_str(&"(demand 1 1)\n".repeat(3000));
    assert_eq!(printed(&text), "(refused 22)\n");
}

/// "No first line `(threshold T)` (an empty text too), ... a second threshold, an empty line, bytes
/// after the last line feed."
#[test]
fn wrong_shapes() {
    let wrong = [
        "", "\n", "(threshold 5)", "(threshold 5)\n\n", "\n(threshold 5)\n", "(demand 1 1)\n",
        "(threshold 5)\n(threshold 5)\n", "(demand 1 1)\n(threshold 5)\n",
        "(threshold 5)\n(demand 1 1)", "(threshold 5)\n(demand 1 1)\n\n",
        "(threshold 5)\n\n(demand 1 1)\n", "(threshold 5)\n(demand 1 1)\n(threshold 5)\n",
        "(threshold 5)\n(demand 1 1)\n ", "(threshold 5)\n(tick)\n", "(threshold 5)\n(rate 1 1)\n",
        "(threshold 5)(demand 1 1)\n", "(threshold 5) (demand 1 1)\n", "(threshold 5)\r\n",
        "(threshold)\n", "(threshold )\n", "(threshold 5 5)\n", "(threshold 05)\n",
        "(threshold 00)\n", "(threshold +5)\n", "(threshold -5)\n", "(threshold  5)\n",
        "(threshold 5 )\n", "( threshold 5)\n", "threshold 5\n", "(Threshold 5)\n",
        "(threshold #)\n", "(threshold 5)\n(demand 1)\n", "(threshold 5)\n(demand 1 1 1)\n",
        "(threshold 5)\n(demand 01 1)\n", "(threshold 5)\n(demand 1 01)\n",
        "(threshold 5)\n(demand 1  1)\n", "(threshold 5)\n(demand\t1 1)\n",
        "(threshold 5)\n(demand 1 (1))\n", "(threshold 5)\n(demand 1 1.0)\n",
    ];
    for text in wrong {
        assert_eq!(printed(text), "(refused 16)\n", "{:?}", text);
    }
    assert_eq!(run(b"(threshold 5)\n\0\n"), b"(refused 16)\n".to_vec());
    assert_eq!(run(b"(threshold 5)\n\xff"), b"(refused 16)\n".to_vec());
}

/// "of the right shape, but some number of it is above 4294967295", of any length, in any place.
#[test]
fn wrong_sizes() {
    for large in ["4294967296", "18446744073709551617", &"9".repeat(5000)] {
        let texts = [
            format!("(threshold {})\n", large),
            format!("(threshold {})\n(demand 1 1)\n", large),
            format!("(threshold 5)\n(demand {} 1)\n", large),
            format!("(threshold 5)\n(demand 1 {})\n", large),
            format!("(threshold 5)\n(demand 1 1)\n(demand 2 {})\n(demand 3 1)\n", large),
        ];
        for text in texts {
            assert_eq!(printed(&text), "(refused 17)\n", "{:?}", text);
        }
    }
    for text in ["(threshold 4294967295)\n", "(threshold 5)\n(demand 4294967295 1)\n",
                 "(threshold 5)\n(demand 1 4294967295)\n"] {
        assert_eq!(printed(text), "(refused 22)\n", "{:?}", text);
    }
}

/// "then shape (16), then size (17), then 22, whichever line the fault is on."
#[test]
fn order_of_the_numbers() {
    let cases = [
        ("(threshold 4294967296)\n(demand 1 01)\n", 16), ("(threshold 4294967296)", 16),
        ("(threshold 4294967296)\n\n", 16), ("(threshold 0)\n(demand 1 1)\n(tick)\n", 16),
        ("(threshold 5)\n(demand 64 4294967296)\n(demand 1 1)", 16),
        ("(threshold 04294967296)\n", 16), ("(threshold 0)\n(demand 1 4294967296)\n", 17),
        ("(threshold 4294967296)\n(demand 64 0)\n", 17),
        ("(threshold 1)\n(demand 2 1)\n(demand 1 1)\n(demand 4294967296 1)\n", 17),
        ("(threshold 0)\n(demand 64 0)\n", 22),
    ];
    for (text, number) in cases {
        assert_eq!(printed(text), format!("(refused {})\n", number), "{:?}", text);
    }
    let over = format!("{}{}", "(threshold 1024)\n", "(demand 1 1)\n".repeat(65));
    assert_eq!(printed(&over), "(refused 22)\n");
    assert_eq!(printed(&format!("{}(demand 1 4294967296)\n", over)), "(refused 17)\n");
    assert_eq!(printed(&format!("{}(demand 1 4294967296)", over)), "(refused 16)\n");
}

/// "the whole text is longer than 60,000 bytes. This comes before everything else." A text of just
/// 60,000 bytes for each other number; none of that length has rates, since 64 lines are shorter.
/// The last text has 17 + 4,613 × 13 + 14 bytes.
#[test]
fn length_of_the_text() {
    let shape = "\n".repeat(60000);
    let size = format!("(threshold {})\n", "9".repeat(60000 - 13));
    let refused = format!("(threshold 1024)\n{}(demand 10 1)\n", "(demand 0 1)\n".repeat(4613));
    for (text, number) in [(shape, 16), (size, 17), (refused, 22)] {
        assert_eq!(text.len(), 60000);
        assert_eq!(printed(&text), format!("(refused {})\n", number));
        assert_eq!(printed(&format!("{}\n", text)), "(refused 18)\n");
        assert_eq!(printed(&format!("({}", text)), "(refused 18)\n");
    }
}

/// The two forms are those of `fair` alone: in a script they give 16, as before.
#[test]
fn no_forms_of_the_script() {
    assert_eq!(parse(b"(threshold 5)"), Line::Refused(16));
    assert_eq!(parse(b"(demand 1 1)"), Line::Refused(16));
}

/// A threshold and demands of which nothing is refused: few or many ids, small, large or mixed
/// demands, thresholds anywhere or near what is demanded or the number of demands.
fn chance_list(chance: &mut Chance) -> (u32, Vec<(u32, u32)>) {
    let often = [3, 20, 50, 64][chance.below(4) as usize];
    let most = [1, 4, 40, 1024][chance.below(4) as usize];
    let mut demands = Vec::new();
    for id in 0..64 {
        if chance.below(64) < often {
            let top = if chance.below(8) == 0 { 1024 } else { most };
            demands.push((id, 1 + chance.below(top)));
        }
    }
    let threshold = match chance.below(4) {
        0 => 1 + chance.below(1024),
        1 => 1 + chance.below(64),
        2 => demands.len() as u32 + chance.below(20),
        _ => (total(&demands) + 5).saturating_sub(chance.below(10)),
    };
    let threshold = threshold.clamp(1, 1024);
    demands.truncate(threshold as usize); // not "more demands than shares"
    (threshold, demands)
}

fn total(demands: &[(u32, u32)]) -> u32 {
    demands.iter().map(|&(_, demand)| demand).sum()
}

/// Asks for so many lists, all right ones, and hands each on with its rates.
fn for_lists<F>(seed: u32, count: u32, mut look: F)
where
    F: FnMut(u32, &[(u32, u32)], &[u32], &mut Chance),
{
    let mut chance = Chance { v: seed };
    for _ in 0..count {
        let (threshold, demands) = chance_list(&mut chance);
        let given = rates(threshold, &demands);
        let given = given.unwrap_or_else(|_| panic!("refused: {} {:?}", threshold, demands));
        assert_eq!(given.len(), demands.len());
        look(threshold, &demands, &given, &mut chance);
    }
}

/// "no demand is exceeded; the threshold is used up unless all demands are met; and whoever got
/// less than demanded has at most one share less than anyone else." And every demand gets a share.
#[test]
fn sentences_to_be_proved() {
    let (mut met, mut uneven) = (0, 0);
    for_lists(8, 3000, |threshold, demands, rates, _| {
        let used: u32 = rates.iter().sum();
        let all_met = demands.iter().zip(rates).all(|(&(_, demand), &rate)| rate == demand);
        assert!(used == threshold || (all_met && used < threshold));
        let most = rates.iter().max().copied().unwrap_or(0);
        for (&(_, demand), &rate) in demands.iter().zip(rates) {
            assert!(rate >= 1 && rate <= demand);
            assert!(rate == demand || most <= rate + 1);
        }
        let short = |(&(_, demand), &rate): (&(u32, u32), &u32)| rate < demand && rate < most;
        met += u32::from(all_met && !demands.is_empty());
        uneven += u32::from(demands.iter().zip(rates).any(short));
    });
    assert!(met > 100 && uneven > 100, "{} {}", met, uneven);
}

/// Another way to the same rates: round after round, by rising id, one share to each whose demand
/// is not met, until the shares or the demands have run out. A level is a number of whole rounds,
/// and what is left is the round that the shares do not suffice for.
fn round_by_round(threshold: u32, demands: &[(u32, u32)]) -> Vec<u32> {
    let mut shares = vec![0; demands.len()];
    let mut left = threshold.min(total(demands));
    while left > 0 {
        for (share, &(_, demand)) in shares.iter_mut().zip(demands) {
            if left > 0 && *share < demand {
                *share += 1;
                left -= 1;
            }
        }
    }
    shares
}

#[test]
fn shares_round_by_round() {
    for_lists(80, 3000, |threshold, demands, rates, _| {
        assert_eq!(rates, round_by_round(threshold, demands));
    });
}

/// A larger threshold takes from nobody.
#[test]
fn larger_thresholds() {
    for_lists(800, 1000, |threshold, demands, given, chance| {
        for more in [1, 1 + chance.below(100)] {
            let larger = rates((threshold + more).min(1024), demands).unwrap();
            assert!(given.iter().zip(&larger).all(|(old, new)| old <= new));
        }
    });
}

/// Whoever demands more never gets less by it.
#[test]
fn larger_demands() {
    for_lists(8000, 1000, |threshold, demands, given, chance| {
        for _ in 0..demands.len().min(2) {
            let place = chance.below(demands.len() as u32) as usize;
            let mut larger = demands.to_vec();
            let more = [1, 1 + chance.below(100), 1024][chance.below(3) as usize];
            larger[place].1 = (larger[place].1 + more).min(1024);
            assert!(rates(threshold, &larger).unwrap()[place] >= given[place]);
        }
    });
}

/// A right list with one thing made wrong is refused, whatever the rest of it is.
#[test]
fn lists_made_wrong() {
    for_lists(80000, 1000, |threshold, demands, _, chance| {
        assert_refused(1025 + chance.below(9), demands);
        assert_refused(0, demands);
        if demands.is_empty() {
            return;
        }
        assert_refused(chance.below(demands.len() as u32), demands);
        let place = chance.below(demands.len() as u32) as usize;
        let mut wrong = demands.to_vec();
        wrong[place].1 = if chance.below(2) == 0 { 0 } else { 1025 + chance.below(9) };
        assert_refused(threshold, &wrong);
        let mut wrong = demands.to_vec();
        wrong[demands.len() - 1].0 = 64 + chance.below(9);
        assert_refused(threshold, &wrong);
        if place > 0 {
            let mut wrong = demands.to_vec();
            wrong[place].0 = chance.below(wrong[place - 1].0 + 1); // at most the id before it
            assert_refused(threshold, &wrong);
        }
    });
}
