//! The store of versions, and instances that are stepped over it.
use crate::order::{Sight, Trace};
use crate::program::{Comparison, Expr, Key, Program, Range, Set, Stmt, Test};
use std::collections::{BTreeMap, BTreeSet, VecDeque};
use std::ops::RangeInclusive;

#[derive(Clone, Copy, PartialEq, Eq, PartialOrd, Ord)]
pub struct Cell {
    pub table: usize,
    pub first: i64,
    pub second: i64,
}

#[derive(Clone, Copy)]
pub struct Region {
    pub low: Cell,
    pub high: Cell,
}

impl Region {
    fn is_empty(&self) -> bool {
        self.low > self.high
    }
}

#[derive(Default)]
struct Chain {
    versions: Vec<(u64, Option<i64>)>,
    mark: u64,
}

impl Chain {
    fn at(&self, start: u64) -> Option<i64> {
        match self.versions.partition_point(|version| version.0 <= start) {
            0 => None,
            behind => self.versions[behind - 1].1,
        }
    }

    fn last_touch(&self) -> u64 {
        self.mark.max(self.versions.last().map_or(0, |version| version.0))
    }

    /// Drops the versions at most the floor but the last of them, and that one too where it is a removal.
    fn trim(&mut self, floor: u64) -> usize {
        let within = self.versions.partition_point(|version| version.0 <= floor);
        let is_row = within > 0 && self.versions[within - 1].1.is_some();
        let gone = within - usize::from(is_row);
        self.versions.drain(..gone);
        if self.mark <= floor {
            self.mark = 0;
        }
        gone
    }
}

#[derive(Default)]
pub struct Store {
    chains: BTreeMap<Cell, Chain>,
    pub commits: u64,
    /// The cells that each commit above the floor touched.
    pending: VecDeque<(u64, Cell)>,
}

impl Store {
    pub fn open(rows: BTreeMap<Cell, i64>) -> Store {
        let chain = |value| Chain { versions: vec![(0, Some(value))], mark: 0 };
        let chains = rows.into_iter().map(|(cell, value)| (cell, chain(value))).collect();
        Store { chains, commits: 0, pending: VecDeque::new() }
    }

    pub fn clash(&self, start: u64, run: &Run) -> Option<(Cell, u64)> {
        let touched = run.changes.keys().chain(&run.kept);
        let last = |cell: &Cell| self.chains.get(cell).map_or(0, Chain::last_touch);
        touched.map(|cell| (*cell, last(cell))).filter(|found| found.1 > start).min()
    }

    pub fn install(&mut self, run: &Run) -> u64 {
        self.commits += 1;
        for (cell, value) in &run.changes {
            self.chains.entry(*cell).or_default().versions.push((self.commits, *value));
            self.pending.push_back((self.commits, *cell));
        }
        for cell in &run.kept {
            self.chains.entry(*cell).or_default().mark = self.commits;
            self.pending.push_back((self.commits, *cell));
        }
        self.commits
    }

    /// Drops what no read from the floor on sees, and answers how many versions these were.
    pub fn vacuum(&mut self, floor: u64) -> usize {
        let mut gone = 0;
        while self.pending.front().is_some_and(|(number, _)| *number <= floor) {
            let Some((_, cell)) = self.pending.pop_front() else { break };
            let Some(chain) = self.chains.get_mut(&cell) else { continue };
            gone += chain.trim(floor);
            if chain.versions.is_empty() && chain.mark == 0 {
                self.chains.remove(&cell);
            }
        }
        gone
    }

    pub fn rows(&self) -> impl Iterator<Item = (&Cell, i64)> {
        self.chains.iter().filter_map(|(cell, chain)| Some((cell, chain.versions.last()?.1?)))
    }
}

/// What holds the snapshots that runs look at.
pub trait Snapshots {
    fn get(&self, start: u64, cell: &Cell) -> Option<i64>;
    fn each_row(&self, start: u64, ends: RangeInclusive<Cell>, see: impl FnMut(&Cell, i64));
}

impl Snapshots for Store {
    fn get(&self, start: u64, cell: &Cell) -> Option<i64> {
        self.chains.get(cell).and_then(|chain| chain.at(start))
    }

    fn each_row(&self, start: u64, ends: RangeInclusive<Cell>, mut see: impl FnMut(&Cell, i64)) {
        for (cell, chain) in self.chains.range(ends) {
            if let Some(value) = chain.at(start) {
                see(cell, value);
            }
        }
    }
}

pub enum Deed {
    Read(Cell, Option<i64>),
    Counted(Region, i64),
    Summed(Region, i64),
    Put(Cell, i64),
    Removed(Cell),
    Kept(Cell),
}

pub enum Cause {
    Asked,
    Missing(Cell),
    Present(Cell),
    Overflow,
}

pub enum Reply<'r> {
    Did(Deed),
    Ready(&'r [i64]),
    Aborted(Cause),
    Committed(u64),
    Clashed(Cell, u64),
    NoSuchInstance,
    Ended,
    NotReady,
    Withdrawn,
}

pub struct Run<'a> {
    start: u64,
    open: Vec<(&'a [Stmt], usize)>,
    values: Vec<i64>,
    changes: BTreeMap<Cell, Option<i64>>,
    kept: BTreeSet<Cell>,
    looked: Vec<Sight>,
    pub replies: Vec<i64>,
    ready: bool,
}

pub enum Stop {
    Did(Deed),
    Ready,
    Aborted(Cause),
}

impl<'a> Run<'a> {
    pub fn new(start: u64, body: &'a [Stmt], args: Vec<i64>) -> Run<'a> {
        Run {
            start,
            open: vec![(body, args.len())],
            values: args,
            changes: BTreeMap::new(),
            kept: BTreeSet::new(),
            looked: Vec::new(),
            replies: Vec::new(),
            ready: false,
        }
    }

    /// What the run looked at and changed.
    pub fn trace(&mut self) -> Trace {
        let looked = std::mem::take(&mut self.looked);
        Trace { start: self.start as usize, changed: self.changes.keys().copied().collect(), looked }
    }

    fn value(&self, expr: &Expr) -> Result<i64, Stop> {
        let exact = |value: Option<i64>| value.ok_or(Stop::Aborted(Cause::Overflow));
        match expr {
            Expr::Literal(value) => Ok(*value),
            Expr::Slot(slot) => Ok(self.values[*slot]),
            Expr::Plus(a, b) => exact(self.value(a)?.checked_add(self.value(b)?)),
            Expr::Minus(a, b) => exact(self.value(a)?.checked_sub(self.value(b)?)),
            Expr::Times(a, b) => exact(self.value(a)?.checked_mul(self.value(b)?)),
        }
    }

    fn compare(&self, c: &Comparison) -> Result<bool, Stop> {
        let (a, b) = (self.value(&c.left)?, self.value(&c.right)?);
        let holds = match c.sign.as_str() {
            "<" => a < b,
            "<=" => a <= b,
            ">" => a > b,
            ">=" => a >= b,
            "==" => a == b,
            _ => a != b,
        };
        Ok(holds != c.negated)
    }

    fn holds(&self, test: &Test) -> Result<bool, Stop> {
        let mut any = false;
        for clause in test {
            let mut all = true;
            for comparison in clause {
                all &= self.compare(comparison)?;
            }
            any |= all;
        }
        Ok(any)
    }

    fn cell(&self, key: &Key) -> Result<Cell, Stop> {
        let first = self.value(&key.first)?;
        let second = key.second.as_ref().map_or(Ok(0), |second| self.value(second))?;
        Ok(Cell { table: key.table, first, second })
    }

    fn region(&self, range: &Range) -> Result<Region, Stop> {
        let cell = |first, second| Cell { table: range.table, first, second };
        let fixed = range.first.as_ref().map(|first| self.value(first)).transpose()?;
        let (low, high) = (self.value(&range.low)?, self.value(&range.high)?);
        Ok(match fixed {
            Some(first) => Region { low: cell(first, low), high: cell(first, high) },
            None => Region { low: cell(low, 0), high: cell(high, 0) },
        })
    }

    fn look(&mut self, store: &impl Snapshots, cell: &Cell) -> Option<i64> {
        match self.changes.get(cell) {
            Some(own) => *own,
            None => {
                self.looked.push(Sight::One(*cell));
                store.get(self.start, cell)
            }
        }
    }

    fn rows(&mut self, store: &impl Snapshots, region: &Region) -> Vec<i64> {
        if region.is_empty() {
            return Vec::new();
        }
        let ends = region.low..=region.high;
        let own = self.changes.range(ends.clone()).map(|(cell, _)| *cell).collect();
        self.looked.push(Sight::Range(*region, own));
        let mut values: Vec<i64> = self.changes.range(ends.clone()).filter_map(|(_, value)| *value).collect();
        let is_own = |cell: &Cell| self.changes.contains_key(cell);
        store.each_row(self.start, ends, |cell, value| if !is_own(cell) { values.push(value) });
        values
    }

    fn bind(&mut self, value: i64) {
        self.values.push(value);
    }

    fn statement(&mut self, store: &impl Snapshots, stmt: &'a Stmt) -> Result<(), Stop> {
        match stmt {
            Stmt::Bind(value) => {
                let value = self.value(value)?;
                self.bind(value);
                Ok(())
            }
            Stmt::Reply(value) => {
                let value = self.value(value)?;
                self.replies.push(value);
                Ok(())
            }
            Stmt::Abort => Err(Stop::Aborted(Cause::Asked)),
            Stmt::If(test, yes, no) => {
                let block = if self.holds(test)? { yes } else { no };
                self.open.push((block, self.values.len()));
                Ok(())
            }
            Stmt::Get(key, otherwise) => {
                let cell = self.cell(key)?;
                let found = self.look(store, &cell);
                let value = match found {
                    Some(value) => value,
                    None => self.value(otherwise)?,
                };
                self.bind(value);
                Err(Stop::Did(Deed::Read(cell, found)))
            }
            Stmt::Need(key) => {
                let cell = self.cell(key)?;
                let Some(value) = self.look(store, &cell) else {
                    return Err(Stop::Aborted(Cause::Missing(cell)));
                };
                self.bind(value);
                Err(Stop::Did(Deed::Read(cell, Some(value))))
            }
            Stmt::Count(range) => {
                let region = self.region(range)?;
                let count = self.rows(store, &region).len() as i64;
                self.bind(count);
                Err(Stop::Did(Deed::Counted(region, count)))
            }
            Stmt::Sum(range) => {
                let region = self.region(range)?;
                let total: i128 = self.rows(store, &region).iter().map(|value| i128::from(*value)).sum();
                let Ok(total) = i64::try_from(total) else {
                    return Err(Stop::Aborted(Cause::Overflow));
                };
                self.bind(total);
                Err(Stop::Did(Deed::Summed(region, total)))
            }
            Stmt::Lacks(key) => {
                let cell = self.cell(key)?;
                match self.look(store, &cell) {
                    Some(_) => Err(Stop::Aborted(Cause::Present(cell))),
                    None => Err(Stop::Did(Deed::Read(cell, None))),
                }
            }
            Stmt::Put(key, value) => {
                let cell = self.cell(key)?;
                let value = self.value(value)?;
                self.changes.insert(cell, Some(value));
                Err(Stop::Did(Deed::Put(cell, value)))
            }
            Stmt::Insert(key, value) => {
                let cell = self.cell(key)?;
                let value = self.value(value)?;
                if self.look(store, &cell).is_some() {
                    return Err(Stop::Aborted(Cause::Present(cell)));
                }
                self.changes.insert(cell, Some(value));
                Err(Stop::Did(Deed::Put(cell, value)))
            }
            Stmt::Delete(key) => {
                let cell = self.cell(key)?;
                self.changes.insert(cell, None);
                Err(Stop::Did(Deed::Removed(cell)))
            }
            Stmt::Keep(key) => {
                let cell = self.cell(key)?;
                self.kept.insert(cell);
                Err(Stop::Did(Deed::Kept(cell)))
            }
        }
    }

    pub fn step(&mut self, store: &impl Snapshots) -> Stop {
        loop {
            let Some((rest, scope)) = self.open.last_mut() else {
                return Stop::Ready;
            };
            let Some((stmt, behind)) = rest.split_first() else {
                let scope = *scope;
                self.values.truncate(scope);
                self.open.pop();
                continue;
            };
            *rest = behind;
            if let Err(stop) = self.statement(store, stmt) {
                return stop;
            }
        }
    }
}

pub struct Engine<'a> {
    set: &'a Set,
    pub store: Store,
    begun: Vec<Option<Run<'a>>>,
    active: BTreeSet<usize>,
    pub floor: u64,
    pub traces: Vec<Trace>,
}

impl<'a> Engine<'a> {
    pub fn open(set: &'a Set, rows: BTreeMap<Cell, i64>) -> Engine<'a> {
        let store = Store::open(rows);
        Engine { set, store, begun: Vec::new(), active: BTreeSet::new(), floor: 0, traces: Vec::new() }
    }

    /// The instance's number and start, where the arguments fit.
    pub fn begin(&mut self, program: usize, args: Vec<i64>) -> Option<(usize, u64)> {
        let Program { params, body } = &self.set.programs[program];
        if *params != args.len() {
            return None;
        }
        let (number, start) = (self.begun.len(), self.store.commits);
        self.begun.push(Some(Run::new(start, body, args)));
        self.active.insert(number);
        Some((number, start))
    }

    fn end(&mut self, number: usize) {
        self.begun[number] = None;
        self.active.remove(&number);
    }

    pub fn step(&mut self, number: usize) -> Reply<'_> {
        let stop = match self.begun.get_mut(number) {
            None => return Reply::NoSuchInstance,
            Some(None) => return Reply::Ended,
            Some(Some(run)) => run.step(&self.store),
        };
        match stop {
            Stop::Did(deed) => Reply::Did(deed),
            Stop::Aborted(cause) => {
                self.end(number);
                Reply::Aborted(cause)
            }
            Stop::Ready => {
                let run = self.begun[number].as_mut().unwrap();
                run.ready = true;
                Reply::Ready(&run.replies)
            }
        }
    }

    pub fn commit(&mut self, number: usize) -> Reply<'_> {
        let run = match self.begun.get_mut(number) {
            None => return Reply::NoSuchInstance,
            Some(None) => return Reply::Ended,
            Some(Some(run)) => run,
        };
        if !run.ready {
            return Reply::NotReady;
        }
        let reply = match self.store.clash(run.start, run) {
            Some((cell, last)) => Reply::Clashed(cell, last),
            None => {
                self.traces.push(run.trace());
                Reply::Committed(self.store.install(run))
            }
        };
        self.end(number);
        reply
    }

    pub fn abort(&mut self, number: usize) -> Reply<'_> {
        match self.begun.get(number) {
            None => Reply::NoSuchInstance,
            Some(None) => Reply::Ended,
            Some(Some(_)) => {
                self.end(number);
                Reply::Withdrawn
            }
        }
    }

    pub fn vacuum(&mut self) -> usize {
        let first = self.active.first().and_then(|number| self.begun[*number].as_ref());
        self.floor = first.map_or(self.store.commits, |run| run.start);
        self.store.vacuum(self.floor)
    }
}
