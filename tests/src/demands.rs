//! Texts for the program `fair` (paper 02, S-8) from a 64-bit seed. Each maker is after a part of
//! the request, or of the spelling, that a program may get wrong.

use crate::lines::{big_number, digit_runs, near_miss, odd_byte};
use crate::random::Random;

/// The largest text that is read.
const LIMIT: usize = 60_000;

/// A threshold, and pairs of id and demand.
#[derive(Clone)]
pub struct List {
    pub threshold: u32,
    pub demands: Vec<(u32, u32)>,
}

/// What 22 is for, in the words of S-8.
pub const REASONS: [&str; 6] = [
    "a threshold outside 1..1024",
    "a list over 64",
    "ids above 63",
    "ids not rising",
    "a demand out of range",
    "more demands than shares in the threshold",
];

/// The place in `REASONS` of the one that never stands alone: 65 ids that rise pass 63.
pub const OVER_64: usize = 1;

impl List {
    pub fn text(&self) -> Vec<u8> {
        let mut text = format!("(threshold {})\n", self.threshold);
        for (id, demand) in &self.demands {
            text.push_str(&format!("(demand {} {})\n", id, demand));
        }
        text.into_bytes()
    }

    /// The list that a text spells; nothing for any other text. Any digits are taken for numbers
    /// first, and then the text has to be the one that these numbers give, to the byte.
    pub fn of_text(text: &[u8]) -> Option<List> {
        let words = std::str::from_utf8(text).ok()?;
        let runs = words.split(|letter: char| !letter.is_ascii_digit());
        let digits = runs.filter(|run| !run.is_empty());
        let numbers: Vec<u32> = digits.map(|run| run.parse().ok()).collect::<Option<_>>()?;
        let (&threshold, pairs) = numbers.split_first()?;
        let demands = pairs.chunks_exact(2).map(|pair| (pair[0], pair[1])).collect();
        let list = List { threshold, demands };
        (text.len() <= LIMIT && list.text() == text).then_some(list)
    }

    /// Which of the `REASONS` are there.
    pub fn reasons(&self) -> [bool; 6] {
        let List { threshold, demands } = self;
        let rising = demands.windows(2).all(|pair| pair[0].0 < pair[1].0);
        [
            !(1..=1024).contains(threshold),
            demands.len() > 64,
            demands.iter().any(|&(id, _)| id > 63),
            !rising,
            demands.iter().any(|&(_, demand)| !(1..=1024).contains(&demand)),
            demands.len() > *threshold as usize,
        ]
    }
}

type Maker = fn(&mut Random) -> Vec<u8>;

pub const MAKERS: [(&str, Maker); 20] = [
    ("all demands equal", all_equal),
    ("one huge demand among small ones", one_huge),
    ("demands and thresholds round a level", round_a_level),
    ("thresholds round the sum of the demands", round_the_sum),
    ("thresholds round the number of demands", round_the_count),
    ("thresholds at the ends and outside", threshold_ends),
    ("64 demands, one less and one more", round_64),
    ("no demand", no_demand),
    ("many demands", many_demands),
    ("ids rising, equal, falling, 63 and 64", odd_ids),
    ("demands at the ends and outside", demand_ends),
    ("any list", any_list),
    ("a near miss of a line", near_misses),
    ("lines missing, misplaced, twice or of a script", odd_lines),
    ("line ends", line_ends),
    ("numbers of many digits", many_digits),
    ("several faults in one text", several_faults),
    ("stray bytes", stray_bytes),
    ("sizes round 60,000 bytes", round_the_limit),
    ("numbers that fill a text", filled_by_digits),
];

/// The text of a seed, and which of the `MAKERS` made it.
pub fn text(seed: u64) -> (usize, Vec<u8>) {
    let mut random = Random::new(seed);
    let maker = random.below(MAKERS.len());
    (maker, MAKERS[maker].1(&mut random))
}

/// So many of the ids 0 to 63, by rising id.
fn rising_ids(random: &mut Random, count: usize) -> Vec<u32> {
    let mut ids = Vec::new();
    for id in 0..64 {
        let (wanted, left) = (count - ids.len(), 64 - id as usize);
        if random.below(left) < wanted {
            ids.push(id);
        }
    }
    ids
}

/// A list of at most 64 demands with ids that rise.
fn list_of(random: &mut Random, threshold: u32, demands: &[u32]) -> List {
    let ids = rising_ids(random, demands.len());
    List { threshold, demands: ids.into_iter().zip(demands.iter().copied()).collect() }
}

fn some_count(random: &mut Random) -> usize {
    let most = random.pick(&[3, 3, 8, 8, 20, 64]);
    1 + random.below(most)
}

/// A number one below, at or one above another.
fn round(random: &mut Random, number: u32) -> u32 {
    (number + random.between(0, 2)).saturating_sub(1)
}

/// A list that is not refused.
fn good_list(random: &mut Random) -> List {
    let count = some_count(random);
    let high = random.pick(&[1, 2, 10, 100, 1024]);
    let demands: Vec<u32> = (0..count).map(|_| random.between(1, high)).collect();
    let sum: u32 = demands.iter().sum();
    // Seldom much more than is asked for, since there is nothing to share out then.
    let most = (sum + sum / 8).clamp(count as u32, 1024);
    let threshold = random.between(count as u32, most);
    list_of(random, threshold, &demands)
}

/// The lines of a text, each with its line feed.
fn lines_of(text: &[u8]) -> Vec<Vec<u8>> {
    text.split_inclusive(|&byte| byte == b'\n').map(|line| line.to_vec()).collect()
}

/// The lines of a list that is not refused; the threshold line first.
fn good_lines(random: &mut Random) -> Vec<Vec<u8>> {
    lines_of(&good_list(random).text())
}

fn all_equal(random: &mut Random) -> Vec<u8> {
    let count = some_count(random);
    let demand = random.pick(&[1, 2, 3, 16, 17, 100, 1023, 1024]);
    let all = count as u32 * demand;
    let any = random.between(count as u32, 1024);
    let threshold = if random.one_in(2) { round(random, all).min(1025) } else { any };
    list_of(random, threshold, &vec![demand; count]).text()
}

fn one_huge(random: &mut Random) -> Vec<u8> {
    let count = some_count(random);
    let mut demands: Vec<u32> = (0..count).map(|_| random.between(1, 9)).collect();
    let huge = random.pick(&[1024, 1024, 1023, 512, 100]);
    demands[random.below(count)] = huge;
    let sum: u32 = demands.iter().sum();
    let threshold = random.between(count as u32, (sum + 1).min(1024));
    list_of(random, threshold, &demands).text()
}

/// A level is chosen first: demands below it, at it and above it, and a threshold that leaves
/// nothing, some shares, one less than the next level takes, or just that.
fn round_a_level(random: &mut Random) -> Vec<u8> {
    let count = some_count(random);
    let level = random.between(1, 1024 / count as u32);
    let mut demands = Vec::new();
    for _ in 0..count {
        let below = random.between(1, level);
        let above = random.between(level, 1024);
        demands.push(random.pick(&[below, level, (level + 1).min(1024), above, above]));
    }
    let cut: u32 = demands.iter().map(|&demand| demand.min(level)).sum();
    let above = demands.iter().filter(|&&demand| demand > level).count() as u32;
    let some = random.between(0, above);
    let left = random.pick(&[0, 1, some, some, above.saturating_sub(1), above]);
    list_of(random, (cut + left).min(1024), &demands).text()
}

fn round_the_sum(random: &mut Random) -> Vec<u8> {
    let count = some_count(random);
    let high = 1023 / count as u32;
    let demands: Vec<u32> = (0..count).map(|_| random.between(1, high)).collect();
    let threshold = round(random, demands.iter().sum());
    list_of(random, threshold, &demands).text()
}

fn round_the_count(random: &mut Random) -> Vec<u8> {
    let count = some_count(random);
    let high = random.pick(&[1, 2, 1024]);
    let demands: Vec<u32> = (0..count).map(|_| random.between(1, high)).collect();
    let threshold = round(random, count as u32);
    list_of(random, threshold, &demands).text()
}

/// Thresholds as they are written: the last two have too large a number.
const THRESHOLDS: [&str; 13] = [
    "0", "1", "1", "2", "1023", "1024", "1024", "1025", "2048", "65536", "4294967295", "4294967296",
    "4294967297",
];

fn threshold_ends(random: &mut Random) -> Vec<u8> {
    let mut lines = good_lines(random);
    lines[0] = format!("(threshold {})\n", random.pick(&THRESHOLDS)).into_bytes();
    let few = 1 + random.below(3);
    if random.one_in(2) {
        lines.truncate(few);
    }
    lines.concat()
}

fn round_64(random: &mut Random) -> Vec<u8> {
    let count = random.pick(&[63, 64, 64, 64, 65]);
    let threshold = random.pick(&[62, 63, 64, 64, 65, 66, 127, 128, 129, 1023, 1024]);
    let high = random.pick(&[1, 2, 3, 1024]);
    let first = if count == 63 { random.between(0, 1) } else { 0 };
    let mut demands: Vec<(u32, u32)> =
        (first..first + count).map(|id| (id, random.between(1, high))).collect();
    // Of 65 the last is above 63, or else it does not rise.
    if count == 65 && random.one_in(2) {
        demands[64].0 = 63;
    }
    List { threshold, demands }.text()
}

fn no_demand(random: &mut Random) -> Vec<u8> {
    let any = random.between(1, 1024).to_string();
    let threshold = random.pick(&[any.as_str(), "1", "1024", "0", "1025", "4294967296"]);
    format!("(threshold {})\n", threshold).into_bytes()
}

fn many_demands(random: &mut Random) -> Vec<u8> {
    let most = random.pick(&[2, 10, 200, 3000]);
    let count = 65 + random.below(most) as u32;
    let way = random.below(3);
    let id_of = |place: u32| match way {
        0 => place,
        1 => place % 64,
        _ => place.min(63),
    };
    let threshold = random.pick(&[1, 64, 65, 1023, 1024]);
    let demands = (0..count).map(|place| (id_of(place), random.between(1, 3))).collect();
    List { threshold, demands }.text()
}

fn odd_ids(random: &mut Random) -> Vec<u8> {
    let mut list = good_list(random);
    let last = list.demands.len() - 1;
    let place = random.below(last + 1);
    let past = random.pick(&[64, 65, 127, 128, 256, 65536, 4294967295]);
    match random.below(7) {
        0 => list.demands[last].0 = 63,
        1 => list.demands[last].0 = 64,
        2 => list.demands[place].0 = past,
        3 => list.demands[place].0 = list.demands[place.saturating_sub(1)].0,
        4 => list.demands.swap(place, last),
        5 => list.demands.reverse(),
        _ => list.demands[place].0 = random.between(0, 63),
    }
    list.text()
}

fn demand_ends(random: &mut Random) -> Vec<u8> {
    const ENDS: [u32; 10] = [0, 1, 1, 1023, 1024, 1024, 1025, 2048, 65537, 4294967295];
    let mut list = good_list(random);
    let end = random.pick(&ENDS);
    // One that has the whole link to itself.
    if random.one_in(4) {
        return list_of(random, 1024, &[end]).text();
    }
    let place = random.below(list.demands.len());
    list.demands[place].1 = end;
    if random.one_in(4) {
        list.demands.iter_mut().for_each(|(_, demand)| *demand = end);
    }
    list.text()
}

fn any_list(random: &mut Random) -> Vec<u8> {
    let count = random.below(65);
    let demands: Vec<u32> = (0..count).map(|_| random.between(1, 1024)).collect();
    let threshold = random.between(1, 1024);
    list_of(random, threshold, &demands).text()
}

fn near_misses(random: &mut Random) -> Vec<u8> {
    let mut lines = good_lines(random);
    let place = if random.one_in(3) { 0 } else { random.below(lines.len()) };
    missed(random, &mut lines[place]);
    lines.concat()
}

/// Puts a near miss for a line.
fn missed(random: &mut Random, line: &mut Vec<u8>) {
    let form = line.strip_suffix(b"\n").unwrap_or(line);
    *line = [&near_miss(random, form)[..], b"\n"].concat();
}

/// Lines that are forms elsewhere, or nearly forms here.
const OTHERS: [&str; 14] = [
    "(open 512 0 1)\n",
    "(join 1 (private 5))\n",
    "(change 1 (private 5))\n",
    "(leave 1)\n",
    "(load 1 5)\n",
    "(tick)\n",
    "(rate 1 5)\n",
    "(refused 22)\n",
    "(threshold)\n",
    "(threshold 5 5)\n",
    "(demand 1)\n",
    "(demand 1 5 5)\n",
    "(demand 1 (5))\n",
    "(demand 64 0 (threshold 5))\n",
];

fn odd_lines(random: &mut Random) -> Vec<u8> {
    let mut lines = good_lines(random);
    let threshold = lines[0].clone();
    let place = 1 + random.below(lines.len());
    match random.below(8) {
        0 => drop(lines.remove(0)),
        1 => lines.swap(0, 1),
        2 => lines.insert(place, threshold),
        3 => lines.rotate_left(1),
        4 => lines.clear(),
        5 => lines.insert(place, random.pick(&OTHERS).into()),
        6 => lines[place - 1] = random.pick(&OTHERS).into(),
        _ => lines.insert(0, random.pick(&OTHERS).into()),
    }
    lines.concat()
}

fn line_ends(random: &mut Random) -> Vec<u8> {
    let mut lines = good_lines(random);
    let (place, last) = (random.below(lines.len()), lines.len() - 1);
    let length = lines[place].len();
    match random.below(8) {
        0 | 1 => drop(lines[last].pop()),
        2 => lines[place].insert(length - 1, b'\r'),
        3 => lines[place][length - 1] = b'\r',
        4 => lines.iter_mut().for_each(|line| line.insert(line.len() - 1, b'\r')),
        5 => lines.insert(place, b"\n".to_vec()),
        6 => lines.push(b"\n".to_vec()),
        _ => lines.push(vec![odd_byte(random)]),
    }
    lines.concat()
}

/// A number of so many digits; the first one is not 0.
fn digits(random: &mut Random, count: usize) -> String {
    (0..count).map(|place| random.between(u32::from(place == 0), 9).to_string()).collect()
}

/// Puts another number for one of a text.
fn other_number(random: &mut Random, text: &[u8], number: &str) -> Vec<u8> {
    let (start, end) = random.pick(&digit_runs(text));
    [&text[..start], number.as_bytes(), &text[end..]].concat()
}

/// A number, mostly too large, with few digits or many.
fn long_number(random: &mut Random) -> String {
    let count = random.pick(&[9, 10, 10, 11, 11, 19, 20, 20, 21, 21, 39, 40, 100, 1000]);
    if random.one_in(2) { digits(random, count) } else { big_number(random) }
}

fn many_digits(random: &mut Random) -> Vec<u8> {
    let text = good_list(random).text();
    let number = long_number(random);
    other_number(random, &text, &number)
}

/// Two faults or three, of shape, of size and of what is refused with 22, each on any line, so
/// that the fault that counts may come first or last. Some have too many demands as well.
fn several_faults(random: &mut Random) -> Vec<u8> {
    let mut lines =
        if random.one_in(4) { lines_of(&many_demands(random)) } else { good_lines(random) };
    let left_out = random.below(4);
    for fault in (0..3).filter(|&fault| fault != left_out) {
        let place = random.below(lines.len());
        let number = match fault {
            0 => {
                missed(random, &mut lines[place]);
                continue;
            }
            1 => (1u64 << 32) + u64::from(random.between(0, 64)),
            _ => random.pick(&[0, 64, 1025, 4294967295]),
        };
        if !digit_runs(&lines[place]).is_empty() {
            lines[place] = other_number(random, &lines[place], &number.to_string());
        }
    }
    lines.concat()
}

/// Bytes without a plan: any bytes, odd ones, or words of the grammar in any order.
fn stray_bytes(random: &mut Random) -> Vec<u8> {
    const WORDS: [&str; 10] = [
        "(", ")", " ", "\n", "threshold", "demand", "(threshold 5)\n", "(demand 1 5)\n", "7", "\n(",
    ];
    let (way, mut text) = (random.below(3), Vec::new());
    if random.one_in(2) {
        text.extend(b"(threshold 5)\n");
    }
    for _ in 0..random.below(60) {
        match way {
            0 => text.push(random.word() as u8),
            1 => text.push(odd_byte(random)),
            _ => text.extend(random.pick(&WORDS).bytes()),
        }
    }
    text
}

/// A text of an exact size that is of the right shape and has small numbers, but too many lines.
fn sized(size: usize) -> Vec<u8> {
    let mut text = b"(threshold 9)\n".to_vec();
    // Lines of 13 bytes, and as many of 14 as are needed to end at the size.
    while (size - text.len()) % 13 > 0 {
        text.extend(b"(demand 10 1)\n");
    }
    while text.len() < size {
        text.extend(b"(demand 1 1)\n");
    }
    text
}

fn round_the_limit(random: &mut Random) -> Vec<u8> {
    let sizes = [LIMIT - 1, LIMIT, LIMIT, LIMIT, LIMIT + 1, LIMIT + 1, LIMIT + 2, 65_536, 140_000];
    let size = random.pick(&sizes);
    let mut text = sized(size);
    match random.below(6) {
        0 => text[size - 1] = b' ',
        1 => text[0] = b' ',
        2 => text = vec![random.pick(b"\n\0 9"); size],
        _ => {}
    }
    text
}

/// A text of an exact size whose last number has thousands of digits.
fn filled_by_digits(random: &mut Random) -> Vec<u8> {
    let size = random.pick(&[30_000, LIMIT - 1, LIMIT, LIMIT, LIMIT + 1, LIMIT + 1]);
    let fronts = ["(threshold ", "(threshold 5)\n(demand ", "(threshold 5)\n(demand 1 "];
    let front = random.pick(&fronts);
    let end = random.pick(&[")\n", " 1)\n", ")"]);
    let number = digits(random, size - front.len() - end.len());
    [front, &number, end].concat().into_bytes()
}
