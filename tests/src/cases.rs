//! `cases SLOTS FAIR FILE..`: scripts and texts of demands beside the lines that the papers give for them, and whole texts round
//! the limit of 60,000 bytes. The programs under test and the second program are held to what is written down.
//!
//! A line of a file of scripts is `LINE => ANSWER`, `N times LINE => ANSWER`, `LINE ~> ANSWER` (the last line of the text,
//! without its line feed), empty, or a comment that begins with `#`. In LINE, \0, \t, \r, \\ and \xHH stand for a byte.
//! `--sure N => ANSWER` is no line of the text: it asks for S-14's figure (paper 02) behind the lines above it, and ANSWER is all
//! that is printed then. `--operator => ANSWER` and `--tenant I => ANSWER`, before which `N times` may stand, are none either. They
//! are of the sheets of S-5: the lines between two empty ones are a text by themselves too, and all answers there with the same
//! option, in order, are what is printed for that text with it. `--counts => ANSWER` asks for the count sheets of S-7 behind the
//! lines of the part above it: such lines that stand together are all that is printed then, and `nothing` is no line at all.
//!
//! A file that ends in `.texts` has texts for FAIR (paper 02, S-8). Each goes up to the next empty line, and a line that prints
//! nothing stands without an answer. `=> ANSWER` is no line of the text, but one that is printed for all of it.

use tests::program;

/// What is asked for: the printout of a script, the figure for so many ticks behind it, one of its sheets, the count sheets behind
/// it, or the rates for a text of demands.
#[derive(Clone, Copy, PartialEq)]
enum Asked {
    Printout,
    Sure(u32),
    Operator,
    Tenant(u32),
    Counts,
    Rates,
}

struct Case {
    name: String,
    asked: Asked,
    text: Vec<u8>,
    expected: Vec<u8>,
}

fn main() {
    let arguments: Vec<String> = std::env::args().collect();
    let [_, slots, fair, paths @ ..] = &arguments[..] else {
        eprintln!("use: cases SLOTS FAIR FILE..");
        std::process::exit(2);
    };
    let of_file = |path: &String| if path.ends_with(".texts") { read_texts(path) } else { read(path) };
    let mut cases: Vec<Case> = paths.iter().flat_map(of_file).collect();
    cases.extend(whole_texts());
    cases.extend(whole_texts_asked());
    cases.extend(whole_sheets());
    cases.extend(whole_counts());
    cases.extend(whole_lists());
    cases.extend(whole_texts_of_demands());
    let failed = cases.iter().filter(|case| !holds(slots, fair, case)).count();
    println!("{} passed, {} failed", cases.len() - failed, failed);
    std::process::exit(if failed == 0 { 0 } else { 1 });
}

/// Both programs print what is expected.
fn holds(slots: &str, fair: &str, case: &Case) -> bool {
    let (who, run, second) = match case.asked {
        Asked::Printout => ("slots", program::run(slots, &case.text), second::script::run(&case.text)),
        Asked::Sure(n) => ("slots", program::run_sure(slots, n, &case.text), second::script::sure(&case.text, n)),
        Asked::Operator => ("slots", program::run_operator(slots, &case.text), second::sheet::operator(&case.text)),
        Asked::Tenant(id) => ("slots", program::run_tenant(slots, id, &case.text), second::sheet::tenant(&case.text, id)),
        Asked::Counts => ("slots", program::run_counts(slots, &case.text), second::counts::sheets(&case.text)),
        Asked::Rates => ("fair", program::run(fair, &case.text), second::fair::run(&case.text)),
    };
    let first = run.ended_well && agrees(who, &run.printout, case);
    let second = agrees("second", &second, case);
    if first && second {
        let lines = case.expected.iter().filter(|&&byte| byte == b'\n').count();
        println!("passed: {} ({} bytes, {} printed lines)", case.name, case.text.len(), lines);
    }
    first && second
}

/// Whether a printout is the expected one; the first line that is not is shown.
fn agrees(who: &str, printed: &[u8], case: &Case) -> bool {
    if printed == case.expected {
        return true;
    }
    let lines = |text: &[u8]| -> Vec<String> { text.split_inclusive(|&byte| byte == b'\n').map(program::shown).collect() };
    let (is, should) = (lines(printed), lines(&case.expected));
    let at = (0..is.len().max(should.len())).find(|&i| is.get(i) != should.get(i)).unwrap_or(0);
    let line = |of: &[String]| of.get(at).map(|line| line.trim_end().to_string());
    println!("failed: {}: line {} of {} is {:?}, not {:?}", case.name, at + 1, who, line(&is), line(&should));
    false
}

/// A file of lines and answers, what is asked for behind some of them, and the sheets of its parts.
fn read(path: &str) -> Vec<Case> {
    let content = content_of(path);
    let mut case = Case { name: path.to_string(), asked: Asked::Printout, text: Vec::new(), expected: Vec::new() };
    let (mut asked, mut sheets, mut begin) = (Vec::new(), Vec::new(), 0);
    for (number, row) in rows(&content) {
        if row.is_empty() {
            asked.extend(with_text(&mut sheets, &case.text[begin..]));
            begin = case.text.len();
            continue;
        }
        let Some((line, answer, closed)) = parts(row) else {
            panic!("{path}: no answer in {row}");
        };
        let (times, line) = repeated(line);
        let place = format!("{path}:{number}");
        match option_of(line) {
            Some(Asked::Sure(n)) => asked.push(question(&place, n, &case.text, answer)),
            Some(Asked::Counts) => add_counts(&mut asked, &place, &case.text[begin..], answer),
            Some(sheet) => (0..times).for_each(|_| lines_of(&mut sheets, sheet, &place, line).add_answer(answer)),
            None => (0..times).for_each(|_| case.add(line, closed, answer)),
        }
    }
    asked.extend(with_text(&mut sheets, &case.text[begin..]));
    asked.insert(0, case);
    asked
}

/// What an option asks for; nothing for a line of the text.
fn option_of(line: &str) -> Option<Asked> {
    let number = |text: &str| second::script::number(text.as_bytes()).expect("a number of a script");
    match (line.strip_prefix("--sure "), line.strip_prefix("--tenant ")) {
        (Some(n), _) => Some(Asked::Sure(number(n))),
        (_, Some(id)) => Some(Asked::Tenant(number(id))),
        _ if line == "--counts" => Some(Asked::Counts),
        _ => (line == "--operator").then_some(Asked::Operator),
    }
}

/// A line of the count sheets behind a text, which goes on with those before it.
fn add_counts(asked: &mut Vec<Case>, place: &str, text: &[u8], answer: &str) {
    if !asked.last().is_some_and(|case| case.asked == Asked::Counts && case.text == text) {
        asked.push(counts(&format!("{place}, --counts"), text.to_vec(), ""));
    }
    if let (Some(case), true) = (asked.last_mut(), answer != "nothing") {
        case.add_answer(answer);
    }
}

/// The sheet of this option among those of a part, which it joins with its first line.
fn lines_of<'a>(sheets: &'a mut Vec<Case>, asked: Asked, place: &str, line: &str) -> &'a mut Case {
    let at = sheets.iter().position(|case| case.asked == asked).unwrap_or(sheets.len());
    if at == sheets.len() {
        sheets.push(Case { name: format!("{place}, {line}"), asked, text: Vec::new(), expected: Vec::new() });
    }
    &mut sheets[at]
}

/// The sheets of a part of the file, which ends here; they have its lines for a text.
fn with_text(sheets: &mut Vec<Case>, text: &[u8]) -> Vec<Case> {
    sheets.drain(..).map(|sheet| Case { text: text.to_vec(), ..sheet }).collect()
}

impl Case {
    fn add(&mut self, line: &str, closed: bool, answer: &str) {
        self.add_line(line, closed);
        self.add_answer(answer);
    }

    fn add_line(&mut self, line: &str, closed: bool) {
        self.text.extend(bytes(line));
        if closed {
            self.text.push(b'\n');
        }
    }

    fn add_answer(&mut self, answer: &str) {
        self.expected.extend(answer.as_bytes());
        self.expected.push(b'\n');
    }
}

fn content_of(path: &str) -> String {
    std::fs::read_to_string(path).unwrap_or_else(|error| panic!("{path}: {error}"))
}

/// The lines of a file with their numbers, without the comments.
fn rows(content: &str) -> impl Iterator<Item = (usize, &str)> {
    (1..).zip(content.lines()).filter(|(_, row)| !row.starts_with('#'))
}

/// The two sides of a row, and whether a line feed closes the line; nothing if it has no answer.
fn parts(row: &str) -> Option<(&str, &str, bool)> {
    match (row.split_once(" => "), row.split_once(" ~> ")) {
        (Some((line, answer)), _) => Some((line, answer, true)),
        (None, Some((line, answer))) => Some((line, answer, false)),
        (None, None) => None,
    }
}

/// A file of texts of demands, each with what is printed for it.
fn read_texts(path: &str) -> Vec<Case> {
    let content = content_of(path);
    let (mut cases, mut within): (Vec<Case>, bool) = (Vec::new(), false);
    for (number, row) in rows(&content) {
        if !row.is_empty() && !within {
            cases.push(rates(&format!("{path}:{number}"), Vec::new(), ""));
        }
        within = !row.is_empty();
        let Some(case) = cases.last_mut().filter(|_| within) else {
            continue;
        };
        match (row.strip_prefix("=> "), parts(row)) {
            (Some(answer), _) => case.add_answer(answer),
            (None, Some((line, answer, closed))) => case.add(line, closed, answer),
            (None, None) => case.add_line(row, true),
        }
    }
    cases
}

/// A text of demands and all that is printed for it.
fn rates(name: &str, text: Vec<u8>, expected: &str) -> Case {
    Case { name: name.to_string(), asked: Asked::Rates, text, expected: expected.as_bytes().to_vec() }
}

/// A text and all count sheets behind it.
fn counts(name: &str, text: Vec<u8>, expected: &str) -> Case {
    Case { name: name.to_string(), asked: Asked::Counts, text, expected: expected.as_bytes().to_vec() }
}

/// The figure for n ticks behind a text: "the only line printed".
fn question(place: &str, n: u32, text: &[u8], answer: &str) -> Case {
    let expected = format!("{answer}\n").into_bytes();
    Case { name: format!("{place}, --sure {n}"), asked: Asked::Sure(n), text: text.to_vec(), expected }
}

/// `N times LINE` is the line N times.
fn repeated(line: &str) -> (usize, &str) {
    match line.split_once(" times ") {
        Some((count, rest)) => (count.parse().expect("how many times"), rest),
        None => (1, line),
    }
}

/// The bytes of a line, with what stands for a byte put in its place.
fn bytes(line: &str) -> Vec<u8> {
    let mut out = Vec::new();
    let mut rest = line.bytes();
    while let Some(byte) = rest.next() {
        if byte != b'\\' {
            out.push(byte);
            continue;
        }
        match rest.next() {
            Some(b'0') => out.push(0),
            Some(b't') => out.push(b'\t'),
            Some(b'r') => out.push(b'\r'),
            Some(b'\\') => out.push(b'\\'),
            Some(b'x') => {
                let digits: Vec<u8> = rest.by_ref().take(2).collect();
                let digits = String::from_utf8(digits).expect("two digits");
                out.push(u8::from_str_radix(&digits, 16).expect("two digits"));
            }
            other => panic!("what byte is {other:?} in {line}"),
        }
    }
    out
}

/// "whole text over 60,000 bytes; the only line printed", at both sides; "An empty script prints nothing."
fn whole_texts() -> Vec<Case> {
    let case = |name: &str, text: Vec<u8>, expected: String| Case {
        name: name.to_string(),
        asked: Asked::Printout,
        text,
        expected: expected.into_bytes(),
    };
    let ticks = |bytes: usize| -> Vec<u8> { b"(tick)\n".iter().copied().cycle().take(bytes).collect() };
    let number = format!("(leave {})\n", "9".repeat(59000));
    let too_long = "(refused 18)\n".to_string();
    vec![
        case("an empty script", Vec::new(), String::new()),
        case("one line feed", b"\n".to_vec(), "(refused 16)\n".to_string()),
        case("60,000 line feeds", vec![b'\n'; 60000], "(refused 16)\n".repeat(60000)),
        case("60,001 line feeds", vec![b'\n'; 60001], too_long.clone()),
        case("60,000 zero bytes", vec![0; 60000], "(refused 16)\n".to_string()),
        case("60,001 zero bytes", vec![0; 60001], too_long.clone()),
        case("59,997 bytes of ticks", ticks(59997), "(refused 19)\n".repeat(8571)),
        case("60,000 bytes of ticks", ticks(60000), "(refused 19)\n".repeat(8571) + "(refused 16)\n"),
        case("60,001 bytes of ticks", ticks(60001), too_long.clone()),
        case("a number of 59,000 digits", number.into_bytes(), "(refused 17)\n".to_string()),
        case("65,536 bytes of ticks", ticks(65536), too_long.clone()),
        case("65,537 bytes of ticks", ticks(65537), too_long.clone()),
        case("a million bytes of ticks", ticks(1_000_000), too_long),
    ]
}

/// The same limit where a figure is asked for; without indifferent clients all ticks are sure.
fn whole_texts_asked() -> Vec<Case> {
    let opened = b"(open 1 0 1)\n(join 0 (private 1))\n".to_vec();
    let filled = |bytes: usize| [&opened[..], &vec![b'\n'; bytes - opened.len()]].concat();
    vec![
        question("an empty script", 7, b"", "(refused 19)"),
        question("60,000 bytes", 7, &filled(60_000), "(sure 7 7)"),
        question("60,001 bytes", 7, &filled(60_001), "(refused 18)"),
        question("60,001 bytes without an open", 7, &vec![b'\n'; 60_001], "(refused 18)"),
        question("a million bytes", 0, &filled(1_000_000), "(refused 18)"),
    ]
}

/// The same limit for the sheets. With one share, of one private client, every target is 0; behind the 35 bytes of its open and join
/// 59,965 bytes are 8,566 ticks and three line feeds.
fn whole_sheets() -> Vec<Case> {
    let opened = b"(open 1 0 1)\n(join 63 (private 1))\n".to_vec();
    let ticks = [&opened[..], &b"(tick)\n".repeat(8566)].concat();
    let filled = |bytes: usize| [&ticks[..], &vec![b'\n'; bytes - ticks.len()]].concat();
    let sentences = "Client 63 had nothing to send, drawn at target 0 of a rate sum of 1.\n".repeat(8566);
    let no_ticks = [&opened[..], &vec![b'\n'; 60_000 - opened.len()]].concat();
    let both = |name: &str, text: Vec<u8>, expected: &str| {
        let case = |asked: Asked, option: &str| {
            Case { name: format!("{name}, {option}"), asked, text: text.clone(), expected: expected.as_bytes().to_vec() }
        };
        [case(Asked::Operator, "--operator"), case(Asked::Tenant(63), "--tenant 63")]
    };
    let cases = [
        both("an empty script", Vec::new(), ""),
        both("one line feed", b"\n".to_vec(), ""),
        both("60,000 zero bytes", vec![0; 60_000], ""),
        both("60,000 bytes without a tick", no_ticks, ""),
        both("59,997 bytes of ticks without an open", b"(tick)\n".repeat(8571), &"(refused 19)\n".repeat(8571)),
        both("60,000 bytes", filled(60_000), &sentences),
        both("60,001 bytes", filled(60_001), "(refused 18)\n"),
        both("60,001 zero bytes", vec![0; 60_001], "(refused 18)\n"),
        both("65,536 bytes", filled(65_536), "(refused 18)\n"),
        both("65,537 bytes", filled(65_537), "(refused 18)\n"),
        both("a million bytes", filled(1_000_000), "(refused 18)\n"),
    ];
    cases.into_iter().flatten().collect()
}

/// The same limit for the count sheets. Behind the 35 bytes of an open and a join 59,965 bytes are 1,817 packets, each with the tick
/// that sends it, and four line feeds. And the sheets of all ids, which join by falling id.
fn whole_counts() -> Vec<Case> {
    let opened = b"(open 1 0 1)\n(join 63 (private 1))\n".to_vec();
    let sent = [&opened[..], &b"(arrive 63 (packet 0 64))\n(tick)\n".repeat(1817)].concat();
    let filled = |bytes: usize| [&sent[..], &vec![b'\n'; bytes - sent.len()]].concat();
    let joins: String = (0..64).rev().map(|id| format!("(join {id} (private 16))\n")).collect();
    let zeros: String = (0..64).map(|id| format!("(counts {id} 0 0 0 0 0 0)\n")).collect();
    let case = |name: &str, text: Vec<u8>, expected: &str| counts(&format!("{name}, --counts"), text, expected);
    vec![
        case("an empty script", Vec::new(), ""),
        case("one line feed", b"\n".to_vec(), ""),
        case("60,000 zero bytes", vec![0; 60_000], ""),
        case("59,997 bytes of ticks without an open", b"(tick)\n".repeat(8571), ""),
        case("64 clients", format!("(open 1024 0 1)\n{joins}").into_bytes(), &zeros),
        case("60,000 bytes", filled(60_000), "(counts 63 1817 1817 0 0 0 0)\n"),
        case("60,001 bytes", filled(60_001), "(refused 18)\n"),
        case("60,001 zero bytes", vec![0; 60_001], "(refused 18)\n"),
        case("65,536 bytes", filled(65_536), "(refused 18)\n"),
        case("65,537 bytes", filled(65_537), "(refused 18)\n"),
        case("a million bytes", filled(1_000_000), "(refused 18)\n"),
    ]
}

/// Lists of 63, 64 and 65 demands, too long to be written down. "a list over 64" is also one whose ids pass 63 or do not rise;
/// "more demands than shares in the threshold" is not, and 22 comes for it with 64 demands and 63 shares.
fn whole_lists() -> Vec<Case> {
    let list = |threshold: u32, ids: &[u32]| -> Vec<u8> {
        let demands: String = ids.iter().map(|id| format!("(demand {id} 1024)\n")).collect();
        format!("(threshold {threshold})\n{demands}").into_bytes()
    };
    let rate = |share: &dyn Fn(u32) -> u32| -> String { (0..64).map(|id| format!("(rate {id} {})\n", share(id))).collect() };
    let ids: Vec<u32> = (0..65).collect();
    let last_twice: Vec<u32> = (0..65).map(|id: u32| id.min(63)).collect();
    let too_large = [&list(1024, &ids)[..], b"(demand 65 4294967296)\n"].concat();
    let refused = "(refused 22)\n";
    vec![
        rates("64 demands and 63 shares", list(63, &ids[..64]), refused),
        rates("63 demands and 62 shares", list(62, &ids[..63]), refused),
        rates("64 demands and 64 shares", list(64, &ids[..64]), &rate(&|_| 1)),
        rates("64 demands and 65 shares", list(65, &ids[..64]), &rate(&|id| if id == 0 { 2 } else { 1 })),
        rates("64 demands and 127 shares", list(127, &ids[..64]), &rate(&|id| if id == 63 { 1 } else { 2 })),
        rates("64 demands and 1023 shares", list(1023, &ids[..64]), &rate(&|id| if id == 63 { 15 } else { 16 })),
        rates("64 demands and 1024 shares", list(1024, &ids[..64]), &rate(&|_| 16)),
        rates("65 demands, the last of 64", list(1024, &ids), refused),
        rates("65 demands, the last two of 63", list(1024, &last_twice), refused),
        rates("128 demands", list(1024, &ids[..64].repeat(2)), refused),
        rates("65 demands, and too large a number", too_large, "(refused 17)\n"),
    ]
}

/// 18 "comes before everything else", at both sides of the limit; an empty text has no first line.
fn whole_texts_of_demands() -> Vec<Case> {
    let threshold = b"(threshold 1024)\n";
    let filled = |bytes: usize, line: &[u8]| -> Vec<u8> {
        threshold.iter().chain(line.iter().cycle()).copied().take(bytes).collect()
    };
    // Behind the 17 bytes of the first line, 59,983 bytes are 3,157 lines of 19 bytes.
    let demand = b"(demand 1000 1000)\n";
    let number = |digits: usize| [b"(threshold ", "9".repeat(digits).as_bytes(), b")\n"].concat();
    vec![
        rates("an empty text", Vec::new(), "(refused 16)\n"),
        rates("one line feed", b"\n".to_vec(), "(refused 16)\n"),
        rates("60,000 bytes of demands", filled(60_000, demand), "(refused 22)\n"),
        rates("60,001 bytes of demands", filled(60_001, demand), "(refused 18)\n"),
        rates("59,999 bytes of demands", filled(59_999, demand), "(refused 16)\n"),
        rates("60,000 bytes, most of them line feeds", filled(60_000, b"\n"), "(refused 16)\n"),
        rates("60,001 bytes, most of them line feeds", filled(60_001, b"\n"), "(refused 18)\n"),
        rates("a number of 59,987 digits", number(59_987), "(refused 17)\n"),
        rates("a number of 59,988 digits", number(59_988), "(refused 18)\n"),
        rates("65,536 bytes of demands", filled(65_536, demand), "(refused 18)\n"),
        rates("65,537 bytes of demands", filled(65_537, demand), "(refused 18)\n"),
        rates("a million bytes of demands", filled(1_000_000, demand), "(refused 18)\n"),
    ]
}
