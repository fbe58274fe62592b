//! The same analysis in plain Rust. The arguments are those of analysis_speed.
use std::time::Instant;

#[derive(Clone, Copy, PartialEq)]
enum Kind {
    Reads,
    Writes,
}

#[derive(Clone, Copy, PartialEq)]
enum Term {
    Param(usize),
    Literal(i64),
}

#[derive(Clone, Copy)]
struct Column {
    low: Term,
    high: Term,
}

#[derive(Clone, Copy)]
struct Access {
    kind: Kind,
    table: usize,
    first: Column,
    second: Option<Column>,
}

#[derive(Clone, Copy, PartialEq)]
enum Node {
    Mine(usize),
    Theirs(usize),
    Number(i64),
}

#[derive(Clone, Copy)]
struct Fact {
    lo: Node,
    hi: Node,
}

enum Chain {
    Two([Node; 2]),
    Listed(Vec<Node>),
}

#[allow(dead_code)]
enum Verdict {
    Apart(Chain),
    Covered { mine: usize, theirs: usize, chains: Vec<Chain> },
    Exposed(Vec<(Node, i64)>),
}

#[derive(Clone, Copy)]
struct Question {
    x: usize,
    a: usize,
    y: usize,
    b: usize,
    mine: Kind,
    theirs: Kind,
}

struct Entry {
    question: Question,
    verdict: Verdict,
}

#[derive(Clone, Copy)]
struct Placed {
    node: usize,
    number: usize,
    access: Access,
}

/// What stands for a second column that a table doesn't have.
const ZERO: Column = Column { low: Term::Literal(0), high: Term::Literal(0) };

fn mine(term: Term) -> Node {
    match term {
        Term::Param(number) => Node::Mine(number),
        Term::Literal(number) => Node::Number(number),
    }
}

fn theirs(term: Term) -> Node {
    match term {
        Term::Param(number) => Node::Theirs(number),
        Term::Literal(number) => Node::Number(number),
    }
}

fn lowest(node: Node) -> i64 {
    if let Node::Number(number) = node { number } else { i64::MIN }
}

fn highest(node: Node) -> i64 {
    if let Node::Number(number) = node { number } else { i64::MAX }
}

fn is_below(a: Node, b: Node) -> bool {
    a == b || highest(a) <= lowest(b)
}

fn facts_of(x: &Access, y: &Access) -> Vec<Fact> {
    let mut facts = vec![
        Fact { lo: mine(x.first.low), hi: theirs(y.first.low) },
        Fact { lo: theirs(y.first.low), hi: mine(x.first.high) },
    ];
    if x.second.is_some() || y.second.is_some() {
        let (x, y) = (x.second.unwrap_or(ZERO), y.second.unwrap_or(ZERO));
        facts.push(Fact { lo: mine(x.low), hi: theirs(y.low) });
        facts.push(Fact { lo: theirs(y.low), hi: mine(x.high) });
    }
    facts
}

struct Closed {
    facts: Vec<Fact>,
    matrix: Vec<bool>,
    consistent: bool,
}

impl Closed {
    fn of(facts: Vec<Fact>) -> Closed {
        let size = facts.len();
        let mut matrix: Vec<bool> =
            facts.iter().flat_map(|from| facts.iter().map(|to| is_below(from.hi, to.lo))).collect();
        close(&mut matrix, size);
        let consistent = !facts.iter().enumerate().any(|(from, f)| {
            facts
                .iter()
                .enumerate()
                .any(|(to, t)| highest(t.hi) < lowest(f.lo) && (to == from || matrix[from * size + to]))
        });
        Closed { facts, matrix, consistent }
    }

    fn leads_to(&self, from: usize, y: Node) -> bool {
        is_below(self.facts[from].hi, y)
            || self
                .facts
                .iter()
                .enumerate()
                .any(|(to, t)| self.matrix[from * self.facts.len() + to] && is_below(t.hi, y))
    }

    fn leads_from(&self, x: Node, to: usize) -> bool {
        is_below(x, self.facts[to].lo)
            || self
                .facts
                .iter()
                .enumerate()
                .any(|(from, f)| self.matrix[from * self.facts.len() + to] && is_below(x, f.lo))
    }

    fn reaches(&self, x: Node, y: Node) -> bool {
        is_below(x, y)
            || self.facts.iter().enumerate().any(|(from, f)| is_below(x, f.lo) && self.leads_to(from, y))
    }

    fn is_step(&self, a: Node, b: Node) -> bool {
        self.facts.iter().any(|f| f.lo == a && f.hi == b) || highest(a) <= lowest(b)
    }

    fn chain(&self, x: Node, y: Node) -> Option<Vec<Node>> {
        if !self.reaches(x, y) {
            return None;
        }
        if x == y {
            return Some(vec![x]);
        }
        let mut reached = vec![(y, 0)];
        let mut known = 0;
        loop {
            if let Some(first) = reached.iter().position(|r| self.is_step(x, r.0)) {
                let (mut chain, mut at) = (vec![x], first);
                while at > 0 {
                    chain.push(reached[at].0);
                    at = reached[at].1;
                }
                chain.push(y);
                return Some(chain);
            }
            let end = reached.len();
            for node in self.facts.iter().flat_map(|f| [f.lo, f.hi]) {
                if !reached.iter().any(|r| r.0 == node) {
                    if let Some(next) = (known..end).find(|k| self.is_step(node, reached[*k].0)) {
                        reached.push((node, next));
                    }
                }
            }
            known = end;
        }
    }

    fn sample(&self) -> Vec<(Node, i64)> {
        let mut choices: Vec<(Node, i64)> = Vec::with_capacity(self.facts.len());
        for node in self.facts.iter().flat_map(|f| [f.lo, f.hi]) {
            if matches!(node, Node::Number(_)) || choices.iter().any(|c| c.0 == node) {
                continue;
            }
            let (mut low, mut high) = (i64::MIN, i64::MAX);
            for (at, fact) in self.facts.iter().enumerate() {
                if lowest(fact.lo) > low && self.leads_to(at, node) {
                    low = lowest(fact.lo);
                }
                if highest(fact.hi) < high && self.leads_from(node, at) {
                    high = highest(fact.hi);
                }
            }
            choices.push((node, low.max(high.min(0))));
        }
        choices
    }
}

fn is_equal(closed: &Closed, x: Term, y: Term) -> bool {
    closed.reaches(mine(x), theirs(y)) && closed.reaches(theirs(y), mine(x))
}

fn second_terms(x: &Access, y: &Access) -> Option<(Term, Term)> {
    let low = |column: Option<Column>| column.map_or(Term::Literal(0), |column| column.low);
    (x.second.is_some() || y.second.is_some()).then(|| (low(x.second), low(y.second)))
}

fn covers(closed: &Closed, x: &Access, y: &Access) -> bool {
    x.kind == Kind::Writes
        && y.kind == Kind::Writes
        && x.table == y.table
        && is_equal(closed, x.first.low, y.first.low)
        && second_terms(x, y).is_none_or(|(x, y)| is_equal(closed, x, y))
}

fn least_cover(closed: &Closed, xs: &[Access], ys: &[Access]) -> Option<(usize, usize)> {
    xs.iter().enumerate().find_map(|(m, x)| ys.iter().position(|y| covers(closed, x, y)).map(|t| (m, t)))
}

fn chains(closed: &Closed, x: &Access, y: &Access) -> Vec<Chain> {
    let mut chains = Vec::new();
    for (x, y) in [(x.first.low, y.first.low)].into_iter().chain(second_terms(x, y)) {
        let (x, y) = (mine(x), theirs(y));
        chains.push(Chain::Listed(closed.chain(x, y).unwrap()));
        chains.push(Chain::Listed(closed.chain(y, x).unwrap()));
    }
    chains
}

fn fall(from: Node, to: Node) -> Option<Chain> {
    match (from, to) {
        (Node::Number(greater), Node::Number(smaller)) if smaller < greater => Some(Chain::Two([from, to])),
        _ => None,
    }
}

fn column_fall(x: Column, y: Column) -> Option<Chain> {
    fall(mine(x.low), theirs(y.low)).or_else(|| fall(theirs(y.low), mine(x.high)))
}

fn number_fall(x: &Access, y: &Access) -> Option<Chain> {
    column_fall(x.first, y.first).or_else(|| column_fall(x.second.unwrap_or(ZERO), y.second.unwrap_or(ZERO)))
}

fn contradiction(closed: &Closed) -> Chain {
    let mut best: Option<Vec<Node>> = None;
    for from in closed.facts.iter().map(|f| f.lo) {
        for to in closed.facts.iter().map(|f| f.hi) {
            if fall(from, to).is_some() {
                let found = closed.chain(from, to);
                if found.is_some()
                    && best.as_ref().is_none_or(|best| found.as_ref().unwrap().len() < best.len())
                {
                    best = found;
                }
            }
        }
    }
    Chain::Listed(best.unwrap())
}

fn verdict(xs: &[Access], a: usize, ys: &[Access], b: usize) -> Verdict {
    let (x, y) = (&xs[a], &ys[b]);
    if let Some(chain) = number_fall(x, y) {
        return Verdict::Apart(chain);
    }
    let closed = Closed::of(facts_of(x, y));
    if !closed.consistent {
        return Verdict::Apart(contradiction(&closed));
    }
    if x.kind == Kind::Reads {
        if let Some((m, t)) = least_cover(&closed, xs, ys) {
            return Verdict::Covered { mine: m, theirs: t, chains: chains(&closed, &xs[m], &ys[t]) };
        }
    }
    Verdict::Exposed(closed.sample())
}

fn asks(first: &Placed, second: &Placed) -> bool {
    first.access.table == second.access.table
        && second.access.kind == Kind::Writes
        && (first.access.kind == Kind::Reads || (first.node, first.number) <= (second.node, second.number))
}

fn count(places: &[Placed]) -> usize {
    places.iter().map(|first| places.iter().filter(|second| asks(first, second)).count()).sum()
}

fn pairs(paths: &[Vec<Access>]) -> Option<Vec<Entry>> {
    let placed = |(node, path): (usize, &Vec<Access>)| {
        path.iter()
            .enumerate()
            .map(move |(number, access)| Placed { node, number, access: *access })
            .collect::<Vec<_>>()
    };
    let places: Vec<Placed> = paths.iter().enumerate().flat_map(placed).collect();
    if count(&places) > 1_000_000 {
        return None;
    }
    let mut entries = Vec::new();
    for first in &places {
        for second in places.iter().filter(|second| asks(first, second)) {
            let (x, a, y, b) = (first.node, first.number, second.node, second.number);
            let question = Question { x, a, y, b, mine: first.access.kind, theirs: second.access.kind };
            entries.push(Entry { question, verdict: verdict(&paths[x], a, &paths[y], b) });
        }
    }
    Some(entries)
}

fn close(matrix: &mut [bool], size: usize) {
    let cells = |row: usize| row * size..row * size + size;
    for through in (0..size).rev() {
        for row in (0..size).filter(|row| *row != through) {
            if matrix[row * size + through] {
                let [row, through] = matrix.get_disjoint_mut([cells(row), cells(through)]).unwrap();
                row.iter_mut().zip(through).for_each(|(to, via)| *to |= *via);
            }
        }
    }
}

/// For each node a row of bits, one for each node.
#[derive(Clone)]
struct Bits {
    size: usize,
    width: usize,
    words: Vec<u64>,
}

impl Bits {
    fn new(size: usize) -> Bits {
        let width = size.div_ceil(64);
        Bits { size, width, words: vec![0; size * width] }
    }

    fn get(&self, from: usize, to: usize) -> bool {
        self.words[from * self.width + to / 64] >> (to % 64) & 1 == 1
    }

    fn raise(&mut self, from: usize, to: usize) {
        self.words[from * self.width + to / 64] |= 1 << (to % 64);
    }

    fn join_row(&mut self, row: usize, through: usize) {
        let cells = |row: usize| row * self.width..row * self.width + self.width;
        if let Ok([row, through]) = self.words.get_disjoint_mut([cells(row), cells(through)]) {
            row.iter_mut().zip(through).for_each(|(to, via)| *to |= *via);
        }
    }

    fn next(&self, from: usize, start: usize) -> Option<usize> {
        let mut at = start;
        while at < self.size {
            let (first, rest) = (at / 64 * 64, self.words[from * self.width + at / 64] >> (at % 64));
            if rest != 0 {
                return Some(at + rest.trailing_zeros() as usize);
            }
            at = first + 64;
        }
        None
    }

    fn close(&mut self) {
        for through in 0..self.size {
            for row in 0..self.size {
                if self.get(row, through) {
                    self.join_row(row, through);
                }
            }
        }
    }

    /// The nodes that it joins a node to.
    fn joined(&self, from: usize) -> impl Iterator<Item = usize> {
        std::iter::successors(self.next(from, 0), move |node| self.next(from, node + 1))
    }
}

struct Graph {
    size: usize,
    edges: Bits,
    vulnerable: Bits,
    reach: Bits,
}

fn is_vulnerable(entry: &Entry) -> bool {
    entry.question.mine == Kind::Reads && matches!(entry.verdict, Verdict::Exposed(_))
}

fn build(entries: &[Entry], size: usize) -> Graph {
    let (mut edges, mut vulnerable) = (Bits::new(size), Bits::new(size));
    for entry in entries.iter().filter(|entry| !matches!(entry.verdict, Verdict::Apart(_))) {
        let (x, y) = (entry.question.x, entry.question.y);
        // a read-write question leads there and, as a write-read one, back; so does one of two writes
        edges.raise(x, y);
        edges.raise(y, x);
        if is_vulnerable(entry) {
            vulnerable.raise(x, y);
        }
    }
    let mut reach = edges.clone();
    (0..size).for_each(|node| reach.raise(node, node));
    reach.close();
    Graph { size, edges, vulnerable, reach }
}

fn level(graph: &Graph, x: usize) -> usize {
    (0..graph.size).filter(|u| graph.reach.get(*u, x)).count()
}

fn least_way(graph: &Graph, from: usize, end: usize) -> Vec<usize> {
    let size = graph.size;
    let mut distances = vec![None; size];
    distances[end] = Some(0);
    let mut round = 0;
    while distances[from].is_none() {
        round += 1;
        let leads = |node: usize| graph.edges.joined(node).any(|next| distances[next].is_some());
        distances = (0..size).map(|node| distances[node].or_else(|| leads(node).then_some(round))).collect();
    }
    let (mut way, mut at, mut left) = (vec![from], from, round);
    while left > 0 {
        left -= 1;
        at = graph.edges.joined(at).find(|next| distances[*next] == Some(left)).unwrap();
        way.push(at);
    }
    way
}

fn least_triple(graph: &Graph) -> Option<(usize, usize, usize)> {
    for x in 0..graph.size {
        for y in graph.vulnerable.joined(x) {
            if let Some(z) = graph.vulnerable.joined(y).find(|z| graph.reach.get(*z, x)) {
                return Some((x, y, z));
            }
        }
    }
    None
}

fn first_exposure(entries: &[Entry], x: usize, y: usize) -> (Question, Vec<(Node, i64)>) {
    let entry = entries
        .iter()
        .find(|entry| is_vulnerable(entry) && entry.question.x == x && entry.question.y == y)
        .unwrap();
    let Verdict::Exposed(sample) = &entry.verdict else { unreachable!() };
    (entry.question, sample.clone())
}

fn columns(keys: &str, program: usize, place: usize, writes: bool) -> (Column, Option<Column>) {
    let from_to = |low, high| Column { low, high };
    let name = Term::Param(if writes { 0 } else { place % 4 });
    let literal = Term::Literal((100 * program + place) as i64);
    let few = Term::Literal(((program + place) % 4) as i64);
    match keys {
        "numbers" => (from_to(literal, literal), None),
        "ranges" if !writes => (from_to(name, literal), None),
        "pairs" => (from_to(few, few), Some(from_to(name, name))),
        _ => (from_to(name, name), None),
    }
}

fn path(keys: &str, program: usize, reads: usize) -> Vec<Access> {
    let access = |place| {
        let (first, second) = columns(keys, program, place, place == reads);
        Access { kind: if place == reads { Kind::Writes } else { Kind::Reads }, table: 0, first, second }
    };
    (0..=reads).map(access).collect()
}

fn analyse(paths: &[Vec<Access>]) {
    let start = Instant::now();
    let Some(entries) = pairs(paths) else {
        println!("too large");
        return;
    };
    println!("pairs {}", start.elapsed().as_nanos());

    let start = Instant::now();
    let graph = build(&entries, paths.len());
    let levels: usize = (0..graph.size).map(|x| level(&graph, x)).sum();
    println!("graph {}", start.elapsed().as_nanos());

    let start = Instant::now();
    let danger = least_triple(&graph).map(|(x, y, z)| {
        let back = least_way(&graph, z, x);
        (x, y, z, first_exposure(&entries, x, y).0, first_exposure(&entries, y, z).0, back)
    });
    println!("danger {}", start.elapsed().as_nanos());

    let number = |is: fn(&Verdict) -> bool| entries.iter().filter(|entry| is(&entry.verdict)).count();
    let apart = number(|verdict| matches!(verdict, Verdict::Apart(_)));
    let covered = number(|verdict| matches!(verdict, Verdict::Covered { .. }));
    println!("answer {} {apart} {covered} {} {levels}", entries.len(), entries.len() - apart - covered);
    if let Some((x, y, z, first, second, back)) = danger {
        println!("answer {x} {y} {z}");
        println!("answer {} {} {} {}", first.a, first.b, second.a, second.b);
        println!("answer {}", back.len());
    }
    drop(graph);

    let start = Instant::now();
    drop(entries);
    println!("drop {}", start.elapsed().as_nanos());
}

fn main() {
    let words: Vec<String> = std::env::args().collect();
    let reads = if words.len() == 3 { 3 } else { 1 };
    let paths: Vec<Vec<Access>> = (0..512).map(|number| path(&words[1], number / 32, reads)).collect();
    analyse(&paths);
}
