//! The same check in plain Rust. The argument is the keys of the set: apart or third.
use std::time::Instant;

#[derive(Clone, Copy, PartialEq)]
#[allow(dead_code)]
enum Kind {
    Reads,
    Sees,
    Lacks,
    Writes,
    Adds,
    Keeps,
}

#[derive(Clone, Copy, PartialEq)]
#[allow(dead_code)]
enum Term {
    Param(usize),
    Literal(i64),
    Unknown(usize),
}

#[derive(Clone, Copy)]
struct Column {
    low: Term,
    high: Term,
}

#[derive(Clone, Copy)]
struct Access {
    kind: Kind,
    table: usize,
    first: Column,
    second: Option<Column>,
    #[allow(dead_code)]
    place: usize,
}

#[derive(Clone, Copy, PartialEq)]
#[allow(dead_code)]
enum Node {
    Mine(usize),
    MineUnknown(usize),
    Theirs(usize),
    TheirsUnknown(usize),
    Number(i64),
}

#[derive(Clone, Copy, PartialEq, Eq, PartialOrd, Ord)]
struct Question {
    x: u32,
    a: u32,
    y: u32,
    b: u32,
}

enum Reason {
    Apart(Vec<Node>),
    Cover { mine: u32, theirs: u32, chains: Vec<Vec<Node>> },
}

struct Entry {
    question: Question,
    reason: Reason,
}

struct Certificate {
    entries: Vec<Entry>,
    levels: Vec<u32>,
}

#[derive(Debug)]
#[allow(dead_code)]
enum Fault {
    TooLarge,
    PathCount,
    NoSuchEntry(usize),
    EntryOrder(usize),
    BadCover(usize),
    BadChain(usize),
    LevelFalls(usize, usize),
    Dangerous(usize, usize, usize),
}

#[derive(Clone, Copy)]
struct Placed {
    node: usize,
    number: usize,
    access: Access,
}

const LIMIT: usize = 1_000_000;
const ZERO: Column = Column { low: Term::Literal(0), high: Term::Literal(0) };

fn mine(term: Term) -> Node {
    match term {
        Term::Param(number) => Node::Mine(number),
        Term::Literal(number) => Node::Number(number),
        Term::Unknown(number) => Node::MineUnknown(number),
    }
}

fn theirs(term: Term) -> Node {
    match term {
        Term::Param(number) => Node::Theirs(number),
        Term::Literal(number) => Node::Number(number),
        Term::Unknown(number) => Node::TheirsUnknown(number),
    }
}

fn asks_read_write(mine: Kind, theirs: Kind) -> bool {
    match mine {
        Kind::Reads => matches!(theirs, Kind::Writes | Kind::Adds),
        Kind::Lacks => theirs == Kind::Adds,
        _ => false,
    }
}

fn asks_write_read(mine: Kind, theirs: Kind) -> bool {
    match mine {
        Kind::Reads => matches!(theirs, Kind::Writes | Kind::Adds),
        Kind::Sees => theirs == Kind::Adds,
        _ => false,
    }
}

fn both_write(mine: Kind, theirs: Kind) -> bool {
    mine == Kind::Writes && theirs == Kind::Writes
}

fn asks(first: &Placed, second: &Placed) -> bool {
    let (mine, theirs) = (first.access.kind, second.access.kind);
    first.access.table == second.access.table
        && (asks_read_write(mine, theirs)
            || asks_write_read(mine, theirs)
            || (both_write(mine, theirs)
                && (first.node, first.number) <= (second.node, second.number)))
}

fn lowest(node: Node) -> i64 {
    if let Node::Number(number) = node { number } else { i64::MIN }
}

fn highest(node: Node) -> i64 {
    if let Node::Number(number) = node { number } else { i64::MAX }
}

fn runs_down(chain: &[Node]) -> bool {
    matches!((chain.first(), chain.last()), (Some(Node::Number(a)), Some(Node::Number(b))) if b < a)
}

fn is_column_fact(x: Column, y: Column, lo: Node, hi: Node) -> bool {
    (mine(x.low) == lo && theirs(y.low) == hi) || (theirs(y.low) == lo && mine(x.high) == hi)
}

fn is_fact(x: &Access, y: &Access, lo: Node, hi: Node) -> bool {
    is_column_fact(x.first, y.first, lo, hi)
        || ((x.second.is_some() || y.second.is_some())
            && is_column_fact(x.second.unwrap_or(ZERO), y.second.unwrap_or(ZERO), lo, hi))
}

fn is_step(x: &Access, y: &Access, a: Node, b: Node) -> bool {
    is_fact(x, y, a, b) || highest(a) <= lowest(b)
}

fn is_chain(x: &Access, y: &Access, chain: &[Node]) -> bool {
    !chain.is_empty() && chain.windows(2).all(|pair| is_step(x, y, pair[0], pair[1]))
}

fn never_meet(x: &Access, y: &Access, chain: &[Node]) -> bool {
    runs_down(chain) && is_chain(x, y, chain)
}

fn runs(asked: (&Access, &Access), from: Node, to: Node, chain: &[Node]) -> bool {
    chain.first() == Some(&from) && chain.last() == Some(&to) && is_chain(asked.0, asked.1, chain)
}

fn terms(x: &Access, y: &Access) -> impl Iterator<Item = (Term, Term)> {
    let second = (x.second.is_some() || y.second.is_some())
        .then(|| (x.second.unwrap_or(ZERO).low, y.second.unwrap_or(ZERO).low));
    [(x.first.low, y.first.low)].into_iter().chain(second)
}

fn show_equal(asked: (&Access, &Access), x: &Access, y: &Access, chains: &[Vec<Node>]) -> bool {
    terms(x, y).zip(chains.chunks(2)).all(|((x, y), chains)| {
        let (x, y) = (mine(x), theirs(y));
        runs(asked, x, y, &chains[0]) && runs(asked, y, x, &chains[1])
    })
}

fn may_cover(access: &Access) -> bool {
    matches!(access.kind, Kind::Writes | Kind::Adds | Kind::Keeps)
}

fn access_at(paths: &[Vec<Access>], node: u32, number: u32) -> Option<&Access> {
    paths.get(node as usize)?.get(number as usize)
}

fn placed(node: u32, number: u32, access: &Access) -> Placed {
    Placed { node: node as usize, number: number as usize, access: *access }
}

/// Whether the chains of a cover hold, if the accesses that it names may cover the question.
fn shown(paths: &[Vec<Access>], entry: &Entry, asked: (&Access, &Access)) -> Option<bool> {
    let Reason::Cover { mine, theirs, chains } = &entry.reason else { return None };
    let Question { x, y, .. } = entry.question;
    let (m, t) = (access_at(paths, x, *mine)?, access_at(paths, y, *theirs)?);
    let fits = asks_read_write(asked.0.kind, asked.1.kind)
        && may_cover(m)
        && may_cover(t)
        && m.table == t.table
        && chains.len() == 2 * terms(m, t).count();
    fits.then(|| show_equal(asked, m, t, chains))
}

fn check_entry(paths: &[Vec<Access>], entries: &[Entry], k: usize) -> Result<(), Fault> {
    let Entry { question: q, reason } = &entries[k];
    let pair = access_at(paths, q.x, q.a).zip(access_at(paths, q.y, q.b));
    let asked = pair.filter(|(x, y)| asks(&placed(q.x, q.a, x), &placed(q.y, q.b, y)));
    let (x, y) = asked.ok_or(Fault::NoSuchEntry(k))?;
    if k > 0 && entries[k - 1].question >= *q {
        return Err(Fault::EntryOrder(k));
    }
    let holds = match reason {
        Reason::Apart(chain) => never_meet(x, y, chain),
        Reason::Cover { .. } => shown(paths, &entries[k], (x, y)).ok_or(Fault::BadCover(k))?,
    };
    if holds { Ok(()) } else { Err(Fault::BadChain(k)) }
}

struct Left {
    size: usize,
    edges: Vec<bool>,
    vulnerable: Vec<bool>,
}

fn left_of(places: &[Placed], size: usize, entries: &[Entry]) -> Left {
    let (mut edges, mut vulnerable) = (vec![false; size * size], vec![false; size * size]);
    let mut at = 0;
    for first in places {
        for second in places.iter().filter(|second| asks(first, second)) {
            let (x, y) = (first.node, second.node);
            let question = Question { x: x as u32, a: first.number as u32, y: y as u32, b: second.number as u32 };
            while at < entries.len() && entries[at].question < question {
                at += 1;
            }
            let told = entries.get(at).filter(|entry| entry.question == question).map(|entry| &entry.reason);
            if matches!(told, Some(Reason::Apart(_))) {
                continue;
            }
            let (mine, theirs) = (first.access.kind, second.access.kind);
            edges[x * size + y] |= asks_read_write(mine, theirs) || both_write(mine, theirs);
            edges[y * size + x] |= asks_write_read(mine, theirs) || both_write(mine, theirs);
            vulnerable[x * size + y] |= told.is_none() && asks_read_write(mine, theirs);
        }
    }
    Left { size, edges, vulnerable }
}

fn check_levels(left: &Left, levels: &[u32]) -> Result<(), Fault> {
    let size = left.size;
    for x in 0..size {
        for y in 0..size {
            if left.edges[x * size + y] && levels[y] < levels[x] {
                return Err(Fault::LevelFalls(x, y));
            }
        }
    }
    let behind = |y: usize| (0..size).filter(move |z| left.vulnerable[y * size + z]);
    let lowest: Vec<_> = (0..size).map(|y| behind(y).map(|z| levels[z]).min()).collect();
    for x in 0..size {
        if let Some(y) = behind(x).find(|y| lowest[*y].is_some_and(|level| level <= levels[x])) {
            let z = behind(y).find(|z| levels[*z] <= levels[x]).expect("one has the lowest level");
            return Err(Fault::Dangerous(x, y, z));
        }
    }
    Ok(())
}

fn all_places(paths: &[Vec<Access>]) -> Vec<Placed> {
    let of_path = |(node, path): (usize, &Vec<Access>)| {
        path.iter()
            .enumerate()
            .map(move |(number, access)| Placed { node, number, access: *access })
            .collect::<Vec<_>>()
    };
    paths.iter().enumerate().flat_map(of_path).collect()
}

fn question_count(places: &[Placed]) -> usize {
    places.iter().map(|first| places.iter().filter(|second| asks(first, second)).count()).sum()
}

#[inline(never)]
fn verify(keys: &str, certificate: &Certificate) -> Result<(), Fault> {
    let paths = paths_of(keys);
    let places = all_places(&paths);
    if question_count(&places) > LIMIT {
        return Err(Fault::TooLarge);
    }
    if certificate.levels.len() != paths.len() {
        return Err(Fault::PathCount);
    }
    for k in 0..certificate.entries.len() {
        check_entry(&paths, &certificate.entries, k)?;
    }
    check_levels(&left_of(&places, paths.len(), &certificate.entries), &certificate.levels)
}

fn key(keys: &str, program: usize, place: usize) -> (Term, Term) {
    match (keys, place) {
        ("apart", _) => (Term::Literal((100 * program + place) as i64), Term::Literal(0)),
        (_, 3) => (Term::Literal(0), Term::Param(0)),
        (_, _) => (Term::Literal(place as i64), Term::Param(place)),
    }
}

fn access(keys: &str, program: usize, place: usize) -> Access {
    let (first, second) = key(keys, program, place);
    let column = |term| Column { low: term, high: term };
    let kind = if place == 3 { Kind::Writes } else { Kind::Reads };
    Access { kind, table: 0, first: column(first), second: Some(column(second)), place: 5 + place }
}

fn paths_of(keys: &str) -> Vec<Vec<Access>> {
    (0..512).map(|node| (0..4).map(|place| access(keys, node / 32, place)).collect()).collect()
}

/// What the set's certificate says of a question, if anything. It is read off the set: literals differ, or one name.
fn reason(first: &Placed, second: &Placed) -> Option<Reason> {
    let (x, y) = (&first.access, &second.access);
    let (from, to) = (mine(x.first.low), theirs(y.first.low));
    if let (Node::Number(a), Node::Number(b)) = (from, to) {
        if a != b {
            return Some(Reason::Apart(if a > b { vec![from, to] } else { vec![to, from] }));
        }
    }
    if x.kind != Kind::Reads {
        return None;
    }
    let (p, q) = (mine(x.second?.low), theirs(y.second?.low));
    let chains = vec![vec![from], vec![to], vec![p, q], vec![q, p]];
    Some(Reason::Cover { mine: 3, theirs: 3, chains })
}

fn certificate_of(keys: &str) -> Certificate {
    let places = all_places(&paths_of(keys));
    let mut entries = Vec::new();
    for first in &places {
        for second in places.iter().filter(|second| asks(first, second)) {
            let (x, a, y, b) = (first.node as u32, first.number as u32, second.node as u32, second.number as u32);
            if let Some(reason) = reason(first, second) {
                entries.push(Entry { question: Question { x, a, y, b }, reason });
            }
        }
    }
    Certificate { entries, levels: vec![512; 512] }
}

fn main() {
    let keys = std::env::args().nth(1).unwrap();
    let certificate = certificate_of(&keys);
    let start = Instant::now();
    let verdict = verify(&keys, &certificate);
    let took = start.elapsed().as_nanos();
    println!("{} {took} {}", certificate.entries.len(), verdict.is_ok());
    if let Err(fault) = verdict {
        eprintln!("fault {fault:?}");
    }
    std::mem::forget(certificate);
}
