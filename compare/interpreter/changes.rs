//! One-token changes of the definitions: an operator, a comparison, a number, a field, the order of two arguments, a function left out, two
//! branches exchanged; and a sum or product grouped otherwise. Each is run on the recorded rows until one notices. A row on which the
//! changed definition gives at every call what the definition itself gives cannot notice, and is not run; at most 3,000 calls of a row
//! are looked at. Both ways of running have a limit on their calls, so that a change that never ends is left behind.

use crate::{
    parse::{Clause, Term},
    program::Program,
    rows::{Row, Solver},
    run::{Apart, OTHER_TYPE},
    text::{result, types, Entity, Texts, Token},
};
use std::{collections::BTreeSet, path::Path};

/// What a change is, where it stands, and the term in which it is made.
struct Change {
    what: String,
    line: usize,
    column: usize,
    term: Term,
}

/// The comparisons and the like of the library, each with another in its place.
const OTHERS: [(&str, &str); 18] = [
    ("Rattle.std.specs.Float.Ieee.lt", "Rattle.std.specs.Float.Ieee.le"),
    ("Rattle.std.specs.Float.Ieee.le", "Rattle.std.specs.Float.Ieee.lt"),
    ("Rattle.std.specs.Float.Ieee.eq", "Rattle.std.specs.Float.Ieee.ne"),
    ("Rattle.std.specs.Float.Ieee.ne", "Rattle.std.specs.Float.Ieee.eq"),
    ("Rattle.std.specs.Prelude.ltb", "Rattle.std.specs.Prelude.leb"),
    ("Rattle.std.specs.Prelude.leb", "Rattle.std.specs.Prelude.ltb"),
    ("Rattle.std.specs.Prelude.eqb", "Rattle.std.specs.Prelude.leb"),
    ("Rattle.std.specs.Prelude.nat_lt", "Rattle.std.specs.Prelude.nat_le"),
    ("Rattle.std.specs.Prelude.nat_le", "Rattle.std.specs.Prelude.nat_lt"),
    ("Rattle.std.specs.Prelude.min", "Rattle.std.specs.Prelude.max"),
    ("Rattle.std.specs.Prelude.max", "Rattle.std.specs.Prelude.min"),
    ("Rattle.std.specs.Float.Ieee.add", "Rattle.std.specs.Float.Ieee.sub"),
    ("Rattle.std.specs.Float.Ieee.sub", "Rattle.std.specs.Float.Ieee.add"),
    ("Rattle.std.specs.Float.Ieee.mul", "Rattle.std.specs.Float.Ieee.div"),
    ("Rattle.std.specs.Float.Ieee.div", "Rattle.std.specs.Float.Ieee.mul"),
    ("Rattle.std.specs.Prelude.take", "Rattle.std.specs.Prelude.drop"),
    ("Rattle.std.specs.Prelude.true", "Rattle.std.specs.Prelude.false"),
    ("Rattle.std.specs.Prelude.false", "Rattle.std.specs.Prelude.true"),
];

/// The library's functions from a type to itself, which are left out.
const LEFT_OUT: [&str; 4] = [
    "Rattle.std.specs.Float.Ieee.neg",
    "Rattle.std.specs.Prelude.not",
    "Rattle.std.specs.Prelude.suc",
    "Rattle.std.specs.Prelude.neg_ℤ",
];

/// The library's functions of two arguments of one type whose order matters.
const TURNED: [&str; 9] = [
    "Rattle.std.specs.Float.Ieee.lt",
    "Rattle.std.specs.Float.Ieee.le",
    "Rattle.std.specs.Prelude.ltb",
    "Rattle.std.specs.Prelude.leb",
    "Rattle.std.specs.Prelude.nat_lt",
    "Rattle.std.specs.Prelude.nat_le",
    "Rattle.std.specs.Float.Ieee.sub",
    "Rattle.std.specs.Float.Ieee.div",
    "Rattle.std.specs.Float.Ieee.rem",
];

/// Each infix name, with another in its place.
const INFIX: [(&str, &str); 13] = [
    ("==", "nat_le"),
    ("⊕", "⊖"),
    ("⊖", "⊕"),
    ("⊗", "⊘"),
    ("⊘", "⊗"),
    ("&&", "||"),
    ("||", "&&"),
    ("+", "-"),
    ("-", "+"),
    ("*", "+"),
    ("/", "*"),
    ("%", "/"),
    ("^", "*"),
];

struct Changer<'a> {
    texts: &'a Texts,
    file: usize,
    /// For each field, those of the same type in a record that has both.
    fields: &'a [(String, BTreeSet<String>)],
}

impl Changer<'_> {
    fn meant(&self, term: &Term) -> Option<(Entity, Token)> {
        match term {
            Term::Name(token) => self.texts.meaning(self.file, &token.text).map(|e| (e, token.clone())),
            Term::Qualified(module, token) => self.texts.within(module, &token.text).map(|e| (e, token.clone())),
            _ => None,
        }
    }

    /// The infix name's meaning, looked up among the operators of the project and the library.
    fn operator(&self, name: &str) -> Option<Entity> {
        let whole = format!("◌{name}◌");
        self.texts.meaning(self.file, &whole).or_else(|| {
            let double = self.texts.file("float", "Double");
            match name {
                "nat_le" => Some(Entity::Library(format!("Rattle.std.specs.Prelude.{name}"))),
                "⊕" | "⊖" | "⊗" | "⊘" => self.texts.meaning(double, &whole),
                _ => Some(Entity::Library(format!("Rattle.std.specs.Prelude.{whole}"))),
            }
        })
    }

    /// All changes of a term.
    fn changes(&self, term: &Term) -> Vec<Change> {
        let mut all = vec![];
        let mut put = |what: String, token: &Token, term: Term| {
            all.push(Change {
                what,
                line: token.line,
                column: token.column,
                term,
            })
        };
        match term {
            Term::Number(n, token) => put(
                format!("{} to {}", token.text, n + 1),
                token,
                Term::Number(n + 1, token.clone()),
            ),
            Term::Name(_) | Term::Qualified(..) => {
                if let Some((Entity::Library(path), token)) = self.meant(term) {
                    if let Some((_, other)) = OTHERS.iter().find(|o| o.0 == path) {
                        let name = other.rsplit('.').next().unwrap_or("");
                        put(
                            format!("{} to {name}", token.text),
                            &token,
                            Term::Meant(Entity::Library(other.to_string()), token.clone()),
                        );
                    }
                }
            }
            Term::Field(inner, token) => {
                if let Some((_, others)) = self.fields.iter().find(|f| f.0 == token.text) {
                    for other in others {
                        let name = Token {
                            text: other.clone(),
                            ..token.clone()
                        };
                        put(
                            format!(".{} to .{other}", token.text),
                            token,
                            Term::Field(inner.clone(), name),
                        );
                    }
                }
            }
            Term::Infix(token, left, right) => {
                if let Some((_, other)) = INFIX.iter().find(|o| o.0 == token.text) {
                    if let Some(entity) = self.operator(other) {
                        let op = Term::Meant(entity, token.clone());
                        let term = Term::Apply(Box::new(op), vec![(**left).clone(), (**right).clone()]);
                        put(format!("{} to {other}", token.text), token, term);
                    }
                }
                if let Term::Infix(inner, a, b) = &**left {
                    if (token.text == inner.text && ["⊕", "⊗"].contains(&token.text.as_str()))
                        || (token.text == "⊘" && inner.text == "⊗")
                    {
                        let grouped = Term::Infix(token.clone(), b.clone(), right.clone());
                        let term = Term::Infix(inner.clone(), a.clone(), Box::new(grouped));
                        put(
                            format!("{} {} grouped from the right", inner.text, token.text),
                            token,
                            term,
                        );
                    }
                }
                if ["⊖", "⊘", "-", "/", "%", "^", "++"].contains(&token.text.as_str()) {
                    put(
                        format!("{} turned round", token.text),
                        token,
                        Term::Infix(token.clone(), right.clone(), left.clone()),
                    );
                }
            }
            Term::Apply(function, arguments) => {
                let Some((entity, token)) = self.meant(function) else {
                    return self.inner(term, all);
                };
                let turned = |k: usize| {
                    let mut other = arguments.clone();
                    other.swap(k, k + 1);
                    Term::Apply(function.clone(), other)
                };
                let mut alike: Vec<usize> = vec![];
                let mut left_out = false;
                match &entity {
                    Entity::Library(path) => {
                        if path == "Rattle.std.specs.Prelude.cond" && arguments.len() >= 3 {
                            put("branches exchanged".to_string(), &token, turned(1));
                        }
                        if TURNED.contains(&path.as_str()) && arguments.len() >= 2 {
                            alike.push(arguments.len() - 2);
                        }
                        left_out = LEFT_OUT.contains(&path.as_str());
                    }
                    Entity::Definition(d) => {
                        let signature = &self.texts.definitions[*d].signature;
                        let takes = types(signature);
                        alike.extend(
                            (1..takes.len().min(arguments.len()))
                                .filter(|k| takes[k - 1] == takes[*k])
                                .map(|k| k - 1),
                        );
                        left_out = takes.len() == 1 && takes[0] == result(signature);
                    }
                    Entity::Constructor(tag) => {
                        let takes = &self.texts.constructors[*tag as usize].types;
                        alike.extend(
                            (1..takes.len().min(arguments.len()))
                                .filter(|k| takes[k - 1] == takes[*k])
                                .map(|k| k - 1),
                        );
                    }
                    Entity::Type(_) => {}
                }
                for k in alike {
                    put(
                        format!("{}: arguments {} and {} exchanged", token.text, k + 1, k + 2),
                        &token,
                        turned(k),
                    );
                }
                if left_out && arguments.len() == 1 {
                    put(format!("{} left out", token.text), &token, arguments[0].clone());
                }
            }
            _ => {}
        }
        self.inner(term, all)
    }

    /// The changes of a term itself, and those of its parts.
    fn inner(&self, term: &Term, mut all: Vec<Change>) -> Vec<Change> {
        let mut part = |inner: &Term, whole: &dyn Fn(Term) -> Term| {
            for change in self.changes(inner) {
                all.push(Change {
                    term: whole(change.term),
                    ..change
                });
            }
        };
        match term {
            Term::Apply(function, arguments) => {
                part(function, &|f| Term::Apply(Box::new(f), arguments.clone()));
                for (k, argument) in arguments.iter().enumerate() {
                    part(argument, &|a| {
                        let mut other = arguments.clone();
                        other[k] = a;
                        Term::Apply(function.clone(), other)
                    });
                }
            }
            Term::Lambda(patterns, body) => part(body, &|b| Term::Lambda(patterns.clone(), Box::new(b))),
            Term::Let(pattern, value, body) => {
                part(value, &|v| Term::Let(pattern.clone(), Box::new(v), body.clone()));
                part(body, &|b| Term::Let(pattern.clone(), value.clone(), Box::new(b)));
            }
            Term::Field(inner, token) => part(inner, &|i| Term::Field(Box::new(i), token.clone())),
            Term::Record(fields) => {
                for (k, (_, value)) in fields.iter().enumerate() {
                    part(value, &|v| {
                        let mut other = fields.clone();
                        other[k].1 = v;
                        Term::Record(other)
                    });
                }
            }
            Term::Infix(token, left, right) => {
                part(left, &|l| Term::Infix(token.clone(), Box::new(l), right.clone()));
                part(right, &|r| Term::Infix(token.clone(), left.clone(), Box::new(r)));
            }
            Term::Cases(on, cases) => {
                part(on, &|o| Term::Cases(Box::new(o), cases.clone()));
                for (k, (_, body)) in cases.iter().enumerate() {
                    part(body, &|b| {
                        let mut other = cases.clone();
                        other[k].1 = b;
                        Term::Cases(on.clone(), other)
                    });
                }
            }
            _ => {}
        }
        all
    }
}

/// The fields of every record, specs' and generated, with those of the same type.
fn fields(texts: &Texts) -> Vec<(String, BTreeSet<String>)> {
    let mut all: std::collections::BTreeMap<String, BTreeSet<String>> = Default::default();
    let records = texts
        .files
        .iter()
        .flat_map(|f| f.records.values())
        .chain(texts.structs.values());
    for record in records {
        for (k, (name, of)) in record.iter().enumerate() {
            // the next one round of the same type
            let others = (1..record.len()).map(|j| &record[(k + j) % record.len()]);
            if let Some(other) = others.into_iter().find(|other| other.1 == *of) {
                all.entry(name.clone()).or_default().insert(other.0.clone());
            }
        }
    }
    all.into_iter().collect()
}

/// Every change of the definitions that are reached, in the order of files and lines.
fn all(program: &Program) -> Vec<(usize, Change, Vec<Clause>)> {
    let fields = fields(&program.texts);
    let mut order = program.order.clone();
    let place = |d: &usize| {
        let definition = &program.texts.definitions[*d];
        (definition.file, definition.line)
    };
    order.sort_by_key(place);
    let mut changes = vec![];
    for d in order {
        let changer = Changer {
            texts: &program.texts,
            file: program.texts.definitions[d].file,
            fields: &fields,
        };
        let read = &program.reached[&d];
        for (k, clause) in read.iter().enumerate() {
            for change in changer.changes(&clause.body) {
                let mut other = read.clone();
                other[k].body = change.term.clone();
                changes.push((d, change, other));
            }
        }
    }
    changes
}

/// What came of the changes. One that no row notices has its number, its name in compare/unnoticed.txt, and where it stands.
#[derive(Default)]
pub struct Tally {
    pub tried: usize,
    pub noticed: usize,
    pub unnoticed: Vec<(usize, String, String)>,
}

/// The name of every change: file, definition and what is changed; and which it is, where there are several of one kind in a definition.
fn names(program: &Program, changes: &[(usize, Change, Vec<Clause>)]) -> Vec<String> {
    let mut met: std::collections::BTreeMap<String, usize> = Default::default();
    let name = |(d, change, _): &(usize, Change, Vec<Clause>)| {
        let definition = &program.texts.definitions[*d];
        let path = program.texts.files[definition.file].path.display();
        let name = format!("{path} {}: {}", definition.name, change.what);
        let before = met.entry(name.clone()).or_default();
        *before += 1;
        match *before {
            1 => name,
            many => format!("{name}, {many}"),
        }
    };
    changes.iter().map(name).collect()
}

/// A change that was run for so many calls on early rows, none of which noticed, is run on no more of them; and likewise on the others.
const MOST: u64 = 20_000_000;

/// A changed definition may make a row this many times as long, and this many calls beside; more counts as noticed.
const LONGER: u64 = 10;
const SPARE: u64 = 1_000_000;

/// Changes `from` on, at most `most`, of these every `step`-th, each on every so many rows.
pub fn run(root: &Path, folders: &[&Path], every: usize, from: usize, most: usize, step: usize) -> Tally {
    let mut solver = Solver::new(root, true);
    // the early ones first, and the cheapest first
    let mut rows: Vec<(u64, Row)> = vec![];
    for row in Row::all(folders, every) {
        let why = solver.try_row(&row);
        assert!(why.is_empty(), "a row differs before any change: {why}");
        rows.push((solver.machine.calls, row));
    }
    rows.sort_by_key(|(calls, row)| (!row.early, *calls));
    let changes = all(&solver.program);
    let names = names(&solver.program, &changes);
    let mut code = vec![None; changes.len()];
    for (number, (d, _, clauses)) in changes.iter().enumerate().skip(from).take(most).step_by(step) {
        let (compiled, met) = solver.program.compile(*d, clauses);
        if met.iter().all(|m| solver.program.reached.contains_key(m)) {
            code[number] = Some(compiled);
            solver.machine.others[*d].push((number, compiled));
        }
    }
    let mut tally = Tally {
        tried: code.iter().flatten().count(),
        ..Tally::default()
    };
    // on how many rows each gave another value, and on how many it may have
    let mut times = vec![[0; 2]; changes.len()];
    let mut spent = vec![0; changes.len()];
    for (k, (calls, row)) in rows.iter().enumerate() {
        if k > 0 && rows[k - 1].1.early && !row.early {
            spent.fill(0);
        }
        solver.machine.compared = vec![(0, 0); changes.len()];
        let left_out = |s: &u64| if *s >= MOST { Apart::Unsettled } else { Apart::Same };
        solver.machine.told_apart = spent.iter().map(left_out).collect();
        solver.try_row(row);
        let told_apart = std::mem::take(&mut solver.machine.told_apart);
        let others = std::mem::take(&mut solver.machine.others);
        let mut gone = BTreeSet::new();
        for &(number, compiled) in others.iter().flatten() {
            if told_apart[number] == Apart::Same || spent[number] >= MOST {
                continue;
            }
            let d = changes[number].0;
            times[number][usize::from(told_apart[number] == Apart::Unsettled)] += 1;
            solver.machine.others = vec![vec![]; others.len()];
            let original = solver.machine.replace(d, compiled);
            solver.machine.most = LONGER * calls + SPARE;
            let why = solver.try_row(row);
            spent[number] += solver.machine.calls;
            solver.machine.most = u64::MAX;
            solver.machine.replace(d, original);
            if !why.is_empty() {
                gone.insert(number);
                // not well typed: no change of a definition
                let typed = !why.contains(OTHER_TYPE);
                tally.tried -= usize::from(!typed);
                tally.noticed += usize::from(typed);
            }
        }
        solver.machine.others = others;
        for others in &mut solver.machine.others {
            others.retain(|o| !gone.contains(&o.0));
        }
        if k % 1000 == 999 || (k % 10 == 9 && k + 100 > rows.len()) {
            eprintln!(
                "{} of {} rows: {} of {} noticed",
                k + 1,
                rows.len(),
                tally.noticed,
                tally.tried
            );
        }
    }
    for &(number, _) in solver.machine.others.iter().flatten() {
        let change = &changes[number].1;
        let told = match times[number] {
            [0, 0] => "no row has another value there".to_string(),
            [0, rows] => format!("on {rows} rows not compared there"),
            [rows, _] => format!("another value there on {rows} rows"),
        };
        let place = format!("line {}, column {}", change.line, change.column);
        tally
            .unnoticed
            .push((number, names[number].clone(), format!("{place}: {told}")));
    }
    tally
}
