//! Reads a script from standard input and writes its printout. In place of it `--sure N` writes the
//! line of S-14's figure (paper 02) for N ticks, `--operator` and `--tenant I` the sheets of S-5
//! (docs/MANUAL.md), and `--counts` the count sheets of S-7.

mod core;
mod counts;
mod script;
mod sheet;

use std::ffi::OsString;
use std::io::{Read, Write};

/// docs/MANUAL.md, "Arguments": the line of usage, and S-7's option in it.
const USAGE: &str = "usage: slots [--sure N | --operator | --tenant I | --counts | --help]\n";

/// What is asked for: the printout, what the private side is sure of over so many ticks, a sheet,
/// the count sheets, or the line of usage.
enum Task {
    Printout,
    Sure(u32),
    Operator,
    Tenant(u32),
    Counts,
    Help,
}

/// No argument, or one of the five options; nothing for any others. N and I are numbers "of the
/// script's spelling, at most 4294967295".
fn task(arguments: &[OsString]) -> Option<Task> {
    match arguments {
        [] => Some(Task::Printout),
        [option] if option == "--operator" => Some(Task::Operator),
        [option] if option == "--counts" => Some(Task::Counts),
        [option] if option == "--help" => Some(Task::Help),
        [option, n] if option == "--sure" => {
            let n = script::number(n.as_encoded_bytes())?;
            Some(Task::Sure(n))
        }
        [option, id] if option == "--tenant" => {
            let id = script::number(id.as_encoded_bytes())?;
            Some(Task::Tenant(id))
        }
        _ => None,
    }
}

/// All of standard input.
fn text() -> std::io::Result<Vec<u8>> {
    let mut text = Vec::new();
    std::io::stdin().read_to_end(&mut text)?;
    Ok(text)
}

fn main() -> std::io::Result<()> {
    let arguments: Vec<OsString> = std::env::args_os().skip(1).collect();
    let Some(task) = task(&arguments) else {
        eprint!("{}", USAGE);
        std::process::exit(2);
    };
    let lines = match task {
        Task::Printout => script::run(&text()?),
        Task::Sure(n) => script::sure(&text()?, n),
        Task::Operator => sheet::operator(&text()?),
        Task::Tenant(id) => sheet::tenant(&text()?, id),
        Task::Counts => counts::sheets(&text()?),
        Task::Help => USAGE.as_bytes().to_vec(),
    };
    std::io::stdout().write_all(&lines)
}
