//! What `sirob run` does, and with the word `work` and a number of workers what `sirob work` does, as plain Rust: no
//! proof, no limits but that of a book's endings, no faults; it stops where an input is not well-formed.
//! The store has the design of sirob's: a `BTreeMap` from cells to lists of versions.
mod engine;
mod order;
mod program;
mod script;
mod work;

use std::env;
use std::io::{self, Read, Write};

fn main() -> io::Result<()> {
    let mut input = String::new();
    io::stdin().read_to_string(&mut input)?;
    let (text, lines) = input.split_once("\n%%\n").expect("two parts");
    let set = program::read(text);
    let mut out = String::new();
    let words: Vec<String> = env::args().skip(1).collect();
    match words.as_slice() {
        [word, workers] if word == "work" => work::run(&set, lines, workers.parse().expect("a number"), &mut out),
        _ => script::run(&set, lines, &mut out),
    }
    io::stdout().write_all(out.as_bytes())
}
