//! Runs the program under test as a process of its own.

use std::io::Write;
use std::process::{Command, Stdio};

/// What a run gave: all it printed, and whether it ended well.
#[derive(Clone, PartialEq, Eq)]
pub struct Run {
    pub printout: Vec<u8>,
    pub ended_well: bool,
}

/// One run without arguments: the printout of a script.
pub fn run(program: &str, text: &[u8]) -> Run {
    run_with(program, &[], text)
}

/// One run that asks for S-14's figure (paper 02) for `n` ticks behind a script.
pub fn run_sure(program: &str, n: u32, text: &[u8]) -> Run {
    run_with(program, &["--sure", &n.to_string()], text)
}

/// One run that asks for the operator's sheet of a script (paper 02, S-5).
pub fn run_operator(program: &str, text: &[u8]) -> Run {
    run_with(program, &["--operator"], text)
}

/// One run that asks for the sheet of a private tenant (paper 02, S-5).
pub fn run_tenant(program: &str, id: u32, text: &[u8]) -> Run {
    run_with(program, &["--tenant", &id.to_string()], text)
}

/// One run that asks for the count sheets behind a script (paper 02, S-7).
pub fn run_counts(program: &str, text: &[u8]) -> Run {
    run_with(program, &["--counts"], text)
}

/// One run. The text is written by a thread of its own: a program that prints before it has read
/// everything would otherwise wait for us while we wait for it.
fn run_with(program: &str, arguments: &[&str], text: &[u8]) -> Run {
    let mut child = Command::new(program)
        .args(arguments)
        .stdin(Stdio::piped())
        .stdout(Stdio::piped())
        .spawn()
        .unwrap_or_else(|error| panic!("cannot start {}: {}", program, error));
    let mut input = child.stdin.take().expect("the input is piped");
    let text = text.to_vec();
    let writer = std::thread::spawn(move || {
        // A program that stops reading early (a text too long) is not at fault for that.
        let _ = input.write_all(&text);
    });
    let output = child.wait_with_output().expect("the program can be waited for");
    writer.join().expect("the writer ends");
    Run { printout: output.stdout, ended_well: output.status.success() }
}

/// Bytes for the eye, cut after `LONGEST_SHOWN` lines: one line each, odd bytes escaped.
pub fn shown(bytes: &[u8]) -> String {
    const LONGEST_SHOWN: usize = 200;
    let mut text = String::new();
    let lines: Vec<&[u8]> = bytes.split_inclusive(|&byte| byte == b'\n').collect();
    for line in lines.iter().take(LONGEST_SHOWN) {
        let body = line.strip_suffix(b"\n");
        text.push_str(&body.unwrap_or(line).escape_ascii().to_string());
        text.push_str(if body.is_some() { "\n" } else { " [no line feed]\n" });
    }
    if lines.len() > LONGEST_SHOWN {
        text.push_str(&format!("... {} lines in all\n", lines.len()));
    }
    text
}
