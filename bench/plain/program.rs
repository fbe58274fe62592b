//! Programs: their trees, and a reader of their text. Names of values are numbers of slots.
use std::collections::HashMap;

pub struct Table {
    pub name: String,
    pub columns: usize,
}

pub enum Expr {
    Literal(i64),
    Slot(usize),
    Plus(Box<Expr>, Box<Expr>),
    Minus(Box<Expr>, Box<Expr>),
    Times(Box<Expr>, Box<Expr>),
}

pub struct Comparison {
    pub negated: bool,
    pub left: Expr,
    pub sign: String,
    pub right: Expr,
}

pub type Test = Vec<Vec<Comparison>>;

pub struct Key {
    pub table: usize,
    pub first: Expr,
    pub second: Option<Expr>,
}

pub struct Range {
    pub table: usize,
    pub first: Option<Expr>,
    pub low: Expr,
    pub high: Expr,
}

pub enum Stmt {
    Bind(Expr),
    Get(Key, Expr),
    Need(Key),
    Count(Range),
    Sum(Range),
    Lacks(Key),
    Put(Key, Expr),
    Insert(Key, Expr),
    Delete(Key),
    Keep(Key),
    If(Test, Vec<Stmt>, Vec<Stmt>),
    Reply(Expr),
    Abort,
}

pub struct Program {
    pub params: usize,
    pub body: Vec<Stmt>,
}

pub struct Set {
    pub tables: Vec<Table>,
    pub programs: Vec<Program>,
    pub table_numbers: HashMap<String, usize>,
    pub program_numbers: HashMap<String, usize>,
}

struct Reader<'a> {
    tokens: Vec<&'a str>,
    at: usize,
    names: Vec<&'a str>,
    tables: HashMap<String, usize>,
}

fn tokens(text: &str) -> Vec<&str> {
    let bytes = text.as_bytes();
    let mut found = Vec::new();
    let mut at = 0;
    while at < bytes.len() {
        let start = at;
        let is_word = |b: u8| b.is_ascii_alphanumeric() || b == b'_';
        if bytes[at].is_ascii_whitespace() {
            at += 1;
            continue;
        } else if bytes[at] == b'#' {
            while at < bytes.len() && bytes[at] != b'\n' {
                at += 1;
            }
            continue;
        } else if is_word(bytes[at]) {
            while at < bytes.len() && is_word(bytes[at]) {
                at += 1;
            }
        } else {
            let two = text.get(at..at + 2).unwrap_or("");
            at += if ["..", "<=", ">=", "==", "!="].contains(&two) { 2 } else { 1 };
        }
        found.push(&text[start..at]);
    }
    found
}

impl<'a> Reader<'a> {
    fn peek(&self) -> &'a str {
        self.tokens.get(self.at).copied().unwrap_or("")
    }

    fn next(&mut self) -> &'a str {
        self.at += 1;
        self.tokens[self.at - 1]
    }

    fn eat(&mut self, token: &str) -> bool {
        let found = self.peek() == token;
        self.at += usize::from(found);
        found
    }

    fn expect(&mut self, token: &str) {
        assert!(self.eat(token), "{token} expected, {} found", self.peek());
    }

    fn factor(&mut self) -> Expr {
        match self.next() {
            "-" => match self.next() {
                digits => Expr::Literal(-digits.parse::<i64>().unwrap()),
            },
            "least" => Expr::Literal(i64::MIN),
            "greatest" => Expr::Literal(i64::MAX),
            "(" => {
                let inner = self.expr();
                self.expect(")");
                inner
            }
            word if word.as_bytes()[0].is_ascii_digit() => Expr::Literal(word.parse().unwrap()),
            name => Expr::Slot(self.names.iter().rposition(|known| *known == name).unwrap()),
        }
    }

    fn product(&mut self) -> Expr {
        let mut left = self.factor();
        while self.eat("*") {
            left = Expr::Times(Box::new(left), Box::new(self.factor()));
        }
        left
    }

    fn expr(&mut self) -> Expr {
        let mut left = self.product();
        loop {
            if self.eat("+") {
                left = Expr::Plus(Box::new(left), Box::new(self.product()));
            } else if self.eat("-") {
                left = Expr::Minus(Box::new(left), Box::new(self.product()));
            } else {
                return left;
            }
        }
    }

    fn comparison(&mut self) -> Comparison {
        let negated = self.eat("not");
        let left = self.expr();
        let sign = self.next().to_string();
        Comparison { negated, left, sign, right: self.expr() }
    }

    fn test(&mut self) -> Test {
        let mut any = vec![vec![self.comparison()]];
        loop {
            if self.eat("and") {
                let next = self.comparison();
                any.last_mut().unwrap().push(next);
            } else if self.eat("or") {
                any.push(vec![self.comparison()]);
            } else {
                return any;
            }
        }
    }

    fn table(&mut self) -> usize {
        let name = self.next();
        self.tables[name]
    }

    fn key(&mut self) -> Key {
        let table = self.table();
        self.expect("[");
        let first = self.expr();
        let second = if self.eat(",") { Some(self.expr()) } else { None };
        self.expect("]");
        Key { table, first, second }
    }

    fn range(&mut self) -> Range {
        let table = self.table();
        self.expect("[");
        let mut low = self.expr();
        let mut first = None;
        if self.eat(",") {
            first = Some(low);
            low = self.expr();
        }
        self.expect("..");
        let high = self.expr();
        self.expect("]");
        Range { table, first, low, high }
    }

    fn binding(&mut self) -> Stmt {
        let name = self.next();
        self.expect("=");
        let stmt = if self.eat("get") {
            let key = self.key();
            self.expect("else");
            Stmt::Get(key, self.expr())
        } else if self.eat("need") {
            Stmt::Need(self.key())
        } else if self.eat("count") {
            Stmt::Count(self.range())
        } else if self.eat("sum") {
            Stmt::Sum(self.range())
        } else {
            Stmt::Bind(self.expr())
        };
        self.names.push(name);
        stmt
    }

    fn statement(&mut self) -> Stmt {
        let stmt = match self.next() {
            "let" => self.binding(),
            "lacks" => Stmt::Lacks(self.key()),
            "delete" => Stmt::Delete(self.key()),
            "keep" => Stmt::Keep(self.key()),
            "reply" => Stmt::Reply(self.expr()),
            "abort" => Stmt::Abort,
            word @ ("put" | "insert") => {
                let key = self.key();
                self.expect("=");
                let value = self.expr();
                if word == "put" { Stmt::Put(key, value) } else { Stmt::Insert(key, value) }
            }
            "if" => {
                let test = self.test();
                let yes = self.block();
                let no = if self.eat("else") { self.block() } else { Vec::new() };
                return Stmt::If(test, yes, no);
            }
            word => panic!("statement expected, {word} found"),
        };
        self.expect(";");
        stmt
    }

    fn block(&mut self) -> Vec<Stmt> {
        self.expect("{");
        let outside = self.names.len();
        let mut stmts = Vec::new();
        while !self.eat("}") {
            stmts.push(self.statement());
        }
        self.names.truncate(outside);
        stmts
    }

    fn program(&mut self) -> Program {
        self.names.clear();
        self.expect("(");
        while !self.eat(")") {
            let name = self.next();
            self.names.push(name);
            self.eat(",");
        }
        let params = self.names.len();
        Program { params, body: self.block() }
    }
}

pub fn read(text: &str) -> Set {
    let mut reader = Reader { tokens: tokens(text), at: 0, names: Vec::new(), tables: HashMap::new() };
    let mut set = Set {
        tables: Vec::new(),
        programs: Vec::new(),
        table_numbers: HashMap::new(),
        program_numbers: HashMap::new(),
    };
    while reader.eat("table") {
        let name = reader.next().to_string();
        let columns = reader.next().parse().unwrap();
        reader.eat("grow");
        reader.expect(";");
        reader.tables.insert(name.clone(), set.tables.len());
        set.tables.push(Table { name, columns });
    }
    while reader.eat("program") {
        let name = reader.next().to_string();
        set.program_numbers.insert(name, set.programs.len());
        let program = reader.program();
        set.programs.push(program);
    }
    set.table_numbers = reader.tables;
    set
}
