//! Scripts: their lines, and the line of each reply.
use crate::engine::{Cause, Cell, Deed, Engine, Region, Reply, Store};
use crate::order::{Order, serial_order};
use crate::program::Set;
use std::collections::BTreeMap;
use std::fmt::Write;

fn cell(set: &Set, out: &mut String, cell: &Cell) {
    let table = &set.tables[cell.table];
    let _ = match table.columns {
        1 => write!(out, "{}[{}]", table.name, cell.first),
        _ => write!(out, "{}[{}, {}]", table.name, cell.first, cell.second),
    };
}

fn region(set: &Set, out: &mut String, region: &Region) {
    let table = &set.tables[region.low.table];
    let (low, high) = (&region.low, &region.high);
    let _ = match table.columns {
        1 => write!(out, "{}[{}..{}]", table.name, low.first, high.first),
        _ => write!(out, "{}[{}, {}..{}]", table.name, low.first, low.second, high.second),
    };
}

fn deed(set: &Set, out: &mut String, deed: &Deed) {
    match deed {
        Deed::Read(place, value) => {
            out.push_str("read ");
            cell(set, out, place);
            let _ = match value {
                Some(value) => write!(out, " {value}"),
                None => write!(out, " absent"),
            };
        }
        Deed::Counted(range, value) | Deed::Summed(range, value) => {
            out.push_str(if matches!(deed, Deed::Counted(..)) { "count " } else { "sum " });
            region(set, out, range);
            let _ = write!(out, " {value}");
        }
        Deed::Put(place, value) => {
            out.push_str("put ");
            cell(set, out, place);
            let _ = write!(out, " {value}");
        }
        Deed::Removed(place) | Deed::Kept(place) => {
            out.push_str(if matches!(deed, Deed::Kept(..)) { "kept " } else { "removed " });
            cell(set, out, place);
        }
    }
}

fn cause(set: &Set, out: &mut String, cause: &Cause) {
    match cause {
        Cause::Asked => out.push_str("asked"),
        Cause::Overflow => out.push_str("overflow"),
        Cause::Missing(place) => {
            out.push_str("missing ");
            cell(set, out, place);
        }
        Cause::Present(place) => {
            out.push_str("present ");
            cell(set, out, place);
        }
    }
}

fn line(set: &Set, out: &mut String, number: usize, reply: &Reply) {
    let _ = write!(out, "{number} ");
    match reply {
        Reply::Did(done) => deed(set, out, done),
        Reply::Ready(replies) => {
            out.push_str("ready");
            for reply in *replies {
                let _ = write!(out, " {reply}");
            }
        }
        Reply::Aborted(why) => {
            out.push_str("aborted ");
            cause(set, out, why);
        }
        Reply::Committed(commit) => {
            let _ = write!(out, "committed {commit}");
        }
        Reply::Clashed(place, commit) => {
            out.push_str("clashed on ");
            cell(set, out, place);
            let _ = write!(out, " with {commit}");
        }
        Reply::NoSuchInstance => out.push_str("no such instance"),
        Reply::Ended => out.push_str("ended"),
        Reply::NotReady => out.push_str("not ready"),
        Reply::Withdrawn => out.push_str("withdrawn"),
    }
    out.push('\n');
}

enum Event {
    Begin(usize, Vec<i64>),
    Step(usize),
    Commit(usize),
    Abort(usize),
    Vacuum,
}

fn read(set: &Set, lines: &str) -> (BTreeMap<Cell, i64>, Vec<Event>) {
    let mut rows = BTreeMap::new();
    let mut events = Vec::new();
    for line in lines.lines() {
        let words: Vec<&str> = line.split(' ').filter(|word| !word.is_empty()).collect();
        let number = |word: &str| word.parse::<i64>().unwrap();
        let instance = |at: usize| words[at].parse::<usize>().unwrap();
        match words[..] {
            ["row", table, first, "=", value] => {
                let cell = Cell { table: set.table_numbers[table], first: number(first), second: 0 };
                rows.insert(cell, number(value));
            }
            ["row", table, first, second, "=", value] => {
                let (first, second) = (number(first), number(second));
                rows.insert(Cell { table: set.table_numbers[table], first, second }, number(value));
            }
            ["begin", program, ref args @ ..] => {
                let args = args.iter().map(|word| number(word)).collect();
                events.push(Event::Begin(set.program_numbers[program], args));
            }
            ["step", _, times] => {
                for _ in 0..times.parse().unwrap() {
                    events.push(Event::Step(instance(1)));
                }
            }
            ["step", _] => events.push(Event::Step(instance(1))),
            ["commit", _] => events.push(Event::Commit(instance(1))),
            ["abort", _] => events.push(Event::Abort(instance(1))),
            ["vacuum"] => events.push(Event::Vacuum),
            _ => {}
        }
    }
    (rows, events)
}

/// The line of each row.
pub fn push_rows(set: &Set, store: &Store, out: &mut String) {
    for (place, value) in store.rows() {
        let table = &set.tables[place.table];
        let _ = match table.columns {
            1 => writeln!(out, "row {} {} = {value}", table.name, place.first),
            _ => writeln!(out, "row {} {} {} = {value}", table.name, place.first, place.second),
        };
    }
}

pub fn run(set: &Set, lines: &str, out: &mut String) {
    let (rows, events) = read(set, lines);
    let mut engine = Engine::open(set, rows);
    for event in events {
        match event {
            Event::Begin(program, args) => {
                let _ = match engine.begin(program, args) {
                    Some((number, start)) => writeln!(out, "{number} begun at {start}"),
                    None => writeln!(out, "refused wrong arguments"),
                };
            }
            Event::Step(number) => line(set, out, number, &engine.step(number)),
            Event::Commit(number) => line(set, out, number, &engine.commit(number)),
            Event::Abort(number) => line(set, out, number, &engine.abort(number)),
            Event::Vacuum => {
                let gone = engine.vacuum();
                writeln!(out, "vacuumed {gone}").unwrap();
            }
        }
    }
    push_rows(set, &engine.store, out);
    let (word, numbers) = match serial_order(&engine.traces) {
        Order::Serial(numbers) => ("order", numbers),
        Order::Cycle(numbers) => ("cycle", numbers),
    };
    out.push_str(word);
    for number in numbers {
        let _ = write!(out, " {number}");
    }
    out.push('\n');
}
