//! Lists of jobs, run by workers over one store under one lock, which looks share, and then compared with what the
//! store kept.
use crate::engine::{Cause, Cell, Run, Snapshots, Stop, Store};
use crate::order::Trace;
use crate::program::Set;
use crate::script;
use std::collections::BTreeMap;
use std::fmt::Write;
use std::ops::RangeInclusive;
use std::sync::RwLock;
use std::sync::atomic::{AtomicUsize, Ordering};
use std::thread;

/// As many instances end in a book at most.
const MOST_ENDINGS: usize = 100_000;

/// A worker gives up old versions after so many jobs that it ended.
const VACUUM_AFTER: usize = 16;

struct Job {
    program: usize,
    args: Vec<i64>,
    retries: u64,
}

/// An instance that ended, and what it replied.
struct Row {
    program: usize,
    args: Vec<i64>,
    replies: Vec<i64>,
}

enum Ending {
    Committed,
    Clashed(Row),
    Aborted(Row),
}

/// What is under the lock.
struct Book {
    store: Store,
    begun: u64,
    /// The starts of the active instances.
    active: BTreeMap<u64, u64>,
    rows: Vec<Row>,
    endings: Vec<Ending>,
    traces: Vec<Trace>,
    floor: u64,
}

impl Book {
    fn begin(&mut self) -> Option<(u64, u64)> {
        if self.endings.len() + self.active.len() >= MOST_ENDINGS {
            return None;
        }
        let (number, start) = (self.begun, self.store.commits);
        self.begun += 1;
        self.active.insert(number, start);
        Some((number, start))
    }

    /// The number of the commit, where it does not clash.
    fn commit(&mut self, number: u64, start: u64, row: Row, mut run: Run) -> Option<u64> {
        self.active.remove(&number);
        if self.store.clash(start, &run).is_some() {
            self.endings.push(Ending::Clashed(row));
            return None;
        }
        self.traces.push(run.trace());
        self.rows.push(row);
        self.endings.push(Ending::Committed);
        Some(self.store.install(&run))
    }

    fn abort(&mut self, number: u64, row: Row) {
        self.active.remove(&number);
        self.endings.push(Ending::Aborted(row));
    }

    fn vacuum(&mut self) {
        self.floor = self.active.values().min().copied().unwrap_or(self.store.commits);
        self.store.vacuum(self.floor);
    }
}

/// Looks share the lock, and each other call has it alone.
struct Shared(RwLock<Book>);

impl Snapshots for Shared {
    fn get(&self, start: u64, cell: &Cell) -> Option<i64> {
        self.0.read().unwrap().store.get(start, cell)
    }

    fn each_row(&self, start: u64, ends: RangeInclusive<Cell>, see: impl FnMut(&Cell, i64)) {
        self.0.read().unwrap().store.each_row(start, ends, see)
    }
}

enum End {
    Committed { number: u64, replies: Vec<i64> },
    Aborted,
    Clashed,
    Refused,
}

/// How a job ended, and how many of its tries clashed.
struct Outcome {
    end: End,
    clashes: u64,
}

fn finish(run: &mut Run, shared: &Shared) -> Option<Cause> {
    loop {
        match run.step(shared) {
            Stop::Did(_) => {}
            Stop::Ready => return None,
            Stop::Aborted(cause) => return Some(cause),
        }
    }
}

/// How a try ended; nothing where it clashed.
fn try_once(set: &Set, shared: &Shared, job: &Job) -> Option<End> {
    let program = &set.programs[job.program];
    if program.params != job.args.len() {
        return Some(End::Refused);
    }
    let begun = shared.0.write().unwrap().begin();
    let Some((number, start)) = begun else {
        return Some(End::Refused);
    };
    let mut run = Run::new(start, &program.body, job.args.clone());
    let aborted = finish(&mut run, shared);
    let replies = run.replies.clone();
    let row = Row { program: job.program, args: job.args.clone(), replies: replies.clone() };
    let mut book = shared.0.write().unwrap();
    if aborted.is_some() {
        book.abort(number, row);
        return Some(End::Aborted);
    }
    let number = book.commit(number, start, row, run)?;
    Some(End::Committed { number, replies })
}

fn run_job(set: &Set, shared: &Shared, job: &Job) -> Outcome {
    for clashes in 0..=job.retries {
        if let Some(end) = try_once(set, shared, job) {
            return Outcome { end, clashes };
        }
    }
    Outcome { end: End::Clashed, clashes: job.retries + 1 }
}

fn work(set: &Set, shared: &Shared, jobs: &[Job], next: &AtomicUsize) -> Vec<(usize, Outcome)> {
    let mut reports = Vec::new();
    loop {
        let number = next.fetch_add(1, Ordering::SeqCst);
        let Some(job) = jobs.get(number) else {
            return reports;
        };
        reports.push((number, run_job(set, shared, job)));
        if reports.len() % VACUUM_AFTER == 0 {
            shared.0.write().unwrap().vacuum();
        }
    }
}

/// The outcome of each job, which has just one.
fn gather(jobs: &[Job], done: Vec<Vec<(usize, Outcome)>>) -> Vec<Outcome> {
    let mut outcomes: Vec<Option<Outcome>> = jobs.iter().map(|_| None).collect();
    for (number, outcome) in done.into_iter().flatten() {
        assert!(outcomes[number].replace(outcome).is_none(), "job {number} has two outcomes");
    }
    outcomes.into_iter().map(|outcome| outcome.expect("an outcome")).collect()
}

/// How many instances of each call clashed and aborted.
type Tally<'j> = BTreeMap<(usize, &'j [i64]), (u64, u64)>;

fn kept(endings: &[Ending]) -> Tally<'_> {
    let mut tally = Tally::new();
    for ending in endings {
        match ending {
            Ending::Committed => {}
            Ending::Clashed(row) => tally.entry((row.program, &row.args)).or_default().0 += 1,
            Ending::Aborted(row) => tally.entry((row.program, &row.args)).or_default().1 += 1,
        }
    }
    tally
}

fn told<'j>(jobs: &'j [Job], outcomes: &[Outcome]) -> Tally<'j> {
    let mut tally = Tally::new();
    for (job, outcome) in jobs.iter().zip(outcomes) {
        let aborted = matches!(outcome.end, End::Aborted);
        if outcome.clashes > 0 || aborted {
            let counts = tally.entry((job.program, &job.args[..])).or_default();
            counts.0 += outcome.clashes;
            counts.1 += u64::from(aborted);
        }
    }
    tally
}

/// Stops where the outcomes do not correspond to the book.
fn compare(jobs: &[Job], outcomes: &[Outcome], book: &Book) {
    let mut is_told = vec![false; book.rows.len()];
    for (job, outcome) in jobs.iter().zip(outcomes) {
        if let End::Committed { number, replies } = &outcome.end {
            let at = *number as usize - 1;
            let row = &book.rows[at];
            let is_of_job = row.program == job.program && row.args == job.args && row.replies == *replies;
            assert!(is_of_job, "another job's commit");
            assert!(!std::mem::replace(&mut is_told[at], true), "two jobs of one commit");
        }
    }
    assert!(is_told.iter().all(|told| *told), "a commit of no job");
    assert!(kept(&book.endings) == told(jobs, outcomes), "other clashes or aborts");
}

fn read(set: &Set, lines: &str) -> (BTreeMap<Cell, i64>, Vec<Job>) {
    let (mut rows, mut jobs) = (BTreeMap::new(), Vec::new());
    let number = |word: &str| word.parse::<i64>().unwrap();
    for line in lines.lines() {
        let words: Vec<&str> = line.split(' ').filter(|word| !word.is_empty()).collect();
        match words[..] {
            ["row", table, first, "=", value] => {
                rows.insert(Cell { table: set.table_numbers[table], first: number(first), second: 0 }, number(value));
            }
            ["job", retries, program, ref args @ ..] => jobs.push(Job {
                program: set.program_numbers[program],
                args: args.iter().map(|word| number(word)).collect(),
                retries: retries.parse().unwrap(),
            }),
            _ => {}
        }
    }
    (rows, jobs)
}

pub fn run(set: &Set, lines: &str, workers: usize, out: &mut String) {
    let (rows, jobs) = read(set, lines);
    let book = Book {
        store: Store::open(rows),
        begun: 0,
        active: BTreeMap::new(),
        rows: Vec::new(),
        endings: Vec::new(),
        traces: Vec::new(),
        floor: 0,
    };
    let (shared, next) = (Shared(RwLock::new(book)), AtomicUsize::new(0));
    let done = thread::scope(|scope| {
        let started: Vec<_> = (0..workers).map(|_| scope.spawn(|| work(set, &shared, &jobs, &next))).collect();
        started.into_iter().map(|handle| handle.join().unwrap()).collect()
    });
    let book = shared.0.into_inner().unwrap();
    let outcomes = gather(&jobs, done);
    compare(&jobs, &outcomes, &book);
    let count = |is: fn(&End) -> bool| outcomes.iter().filter(|outcome| is(&outcome.end)).count();
    let _ = writeln!(out, "committed {}", count(|end| matches!(end, End::Committed { .. })));
    let _ = writeln!(out, "aborted {}", count(|end| matches!(end, End::Aborted)));
    let _ = writeln!(out, "clashed {}", count(|end| matches!(end, End::Clashed)));
    let _ = writeln!(out, "refused {}", count(|end| matches!(end, End::Refused)));
    script::push_rows(set, &book.store, out);
}
