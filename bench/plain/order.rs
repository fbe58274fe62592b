//! The serial order of what committed, or a cycle of dependencies.
use crate::engine::{Cell, Region};
use std::cmp::Reverse;
use std::collections::{BTreeMap, BinaryHeap};

pub enum Sight {
    One(Cell),
    /// A region but for the cells that the instance had changed.
    Range(Region, Vec<Cell>),
}

/// What a commit looked at and changed, and how many commits it saw.
pub struct Trace {
    pub start: usize,
    pub changed: Vec<Cell>,
    pub looked: Vec<Sight>,
}

pub enum Order {
    Serial(Vec<usize>),
    Cycle(Vec<usize>),
}

/// For each commit, numbered from 1, those that have to stand behind it: enough of them.
fn precedence(traces: &[Trace]) -> Vec<Vec<usize>> {
    let mut writers: BTreeMap<Cell, Vec<usize>> = BTreeMap::new();
    for (trace, number) in traces.iter().zip(1..) {
        for cell in &trace.changed {
            writers.entry(*cell).or_default().push(number);
        }
    }
    let mut after = vec![Vec::new(); traces.len() + 1];
    for numbers in writers.values() {
        for pair in numbers.windows(2) {
            after[pair[0]].push(pair[1]);
        }
    }
    let look = |after: &mut Vec<Vec<usize>>, start: usize, reader: usize, numbers: &[usize]| {
        let seen = numbers.partition_point(|number| *number <= start);
        if let Some(last) = numbers[..seen].last() {
            after[*last].push(reader);
        }
        if let Some(next) = numbers.get(seen).filter(|next| **next != reader) {
            after[reader].push(*next);
        }
    };
    for (trace, reader) in traces.iter().zip(1..) {
        for sight in &trace.looked {
            match sight {
                Sight::One(cell) => {
                    if let Some(numbers) = writers.get(cell) {
                        look(&mut after, trace.start, reader, numbers);
                    }
                }
                Sight::Range(region, own) => {
                    for (cell, numbers) in writers.range(region.low..=region.high) {
                        if own.binary_search(cell).is_err() {
                            look(&mut after, trace.start, reader, numbers);
                        }
                    }
                }
            }
        }
    }
    after
}

/// At each place the least number before which all stand that have to.
pub fn serial_order(traces: &[Trace]) -> Order {
    let after = precedence(traces);
    let mut waiting = vec![0; after.len()];
    for number in after.iter().flatten() {
        waiting[*number] += 1;
    }
    let free = (1..after.len()).filter(|number| waiting[*number] == 0);
    let mut free: BinaryHeap<_> = free.map(Reverse).collect();
    let mut order = Vec::new();
    while let Some(Reverse(number)) = free.pop() {
        order.push(number);
        for behind in &after[number] {
            waiting[*behind] -= 1;
            if waiting[*behind] == 0 {
                free.push(Reverse(*behind));
            }
        }
    }
    if order.len() == traces.len() {
        return Order::Serial(order);
    }
    Order::Cycle(cycle(&after, &waiting))
}

/// A cycle among those that wait, the least number first.
fn cycle(after: &[Vec<usize>], waiting: &[usize]) -> Vec<usize> {
    let mut before = vec![0; after.len()];
    for number in (1..after.len()).filter(|number| waiting[*number] > 0) {
        for behind in &after[number] {
            before[*behind] = number;
        }
    }
    let mut seen = vec![false; after.len()];
    let mut at = (1..after.len()).find(|number| waiting[*number] > 0).unwrap();
    while !seen[at] {
        seen[at] = true;
        at = before[at];
    }
    let mut found = vec![at];
    while before[*found.last().unwrap()] != at {
        found.push(before[*found.last().unwrap()]);
    }
    found.reverse();
    let least = (0..found.len()).min_by_key(|place| found[*place]).unwrap();
    found.rotate_left(least);
    found
}
