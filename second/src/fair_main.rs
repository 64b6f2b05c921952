//! The program `fair`: reads a threshold and demands from standard input and writes the rates of
//! S-8 (paper 02), or the number of the refusal.

#[allow(dead_code)] // of the core only the form of an answer is used
mod core;
mod fair;
#[allow(dead_code)] // and of the script only its spelling
mod script;

use std::io::{Read, Write};

fn main() -> std::io::Result<()> {
    if std::env::args_os().len() > 1 {
        eprintln!("usage: fair");
        std::process::exit(2);
    }
    let mut text = Vec::new();
    std::io::stdin().read_to_end(&mut text)?;
    std::io::stdout().write_all(&fair::run(&text))
}
