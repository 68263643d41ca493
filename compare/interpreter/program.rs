//! From terms to code: what each name means, what a definition needs of its arguments, and the code that the machine runs.

use crate::{
    parse::{clauses, Clause, Pattern, Term},
    run::{library_constant, nat, Code, Compiled, Machine, Match, Node, Primitive, Value, LIBRARY},
    text::{stop, Entity, Texts, Token},
};
use std::{
    cell::Cell,
    collections::{BTreeSet, HashMap, HashSet},
};

/// A term whose names are told apart: locals by number, the rest by what they are.
enum Known {
    Local(u32),
    Number(u128),
    Constant(Value),
    Global(usize),
    Constructor(u32, usize),
    Primitive(Primitive),
    Apply(Box<Known>, Vec<Known>),
    Lambda(Vec<u32>, Box<Known>),
    Let(u32, Box<Known>, Box<Known>),
    Field(Box<Known>, u32),
    Record(Vec<(u32, Known)>),
    Cases(Box<Known>, Vec<(Form, Known)>, String),
}

enum Form {
    Any,
    Bind(u32),
    Zero,
    Suc(Box<Form>),
    Number(u128),
    Nil,
    Cons(Box<[Form; 2]>),
    Bool(bool),
    Data(u32, Vec<Form>),
    Nan,
    Inf(Box<Form>),
    Fin(Box<[Form; 3]>),
    Record(Vec<(u32, Form)>),
}

struct Resolved {
    arity: usize,
    clauses: Vec<(Vec<Form>, Known)>,
}

/// A definition that is run by a function of this program in its place.
pub struct Native {
    pub definition: usize,
    pub primitive: Primitive,
}

pub struct Program {
    pub texts: Texts,
    pub natives: Vec<Native>,
    /// The clauses of each definition that is reached.
    pub reached: HashMap<usize, Vec<Clause>>,
    /// In the order in which they are reached.
    pub order: Vec<usize>,
    strict: HashMap<usize, Vec<bool>>,
    fields: HashMap<String, u32>,
    shapes: HashMap<Vec<u32>, u32>,
    pub shape_list: Vec<Vec<u32>>,
}

/// Turns the clauses of one definition, with its locals numbered.
struct Naming<'a> {
    program: &'a mut Program,
    file: usize,
    scope: Vec<(String, u32)>,
    next: u32,
    /// The definitions that are met.
    met: Vec<usize>,
}

impl Naming<'_> {
    fn bind(&mut self, name: &str) -> u32 {
        self.next += 1;
        self.scope.push((name.to_string(), self.next));
        self.next
    }

    fn fail(&self, token: &Token, what: &str) -> ! {
        stop(self.program.texts.at(self.file, token, what))
    }

    fn form(&mut self, pattern: &Pattern) -> Form {
        match pattern {
            Pattern::Any => Form::Any,
            Pattern::Name(token) => Form::Bind(self.bind(&token.text)),
            Pattern::Number(n) => Form::Number(*n),
            Pattern::Record(fields) => {
                let parts = fields
                    .iter()
                    .map(|(name, p)| (self.program.field(name), self.form(p)))
                    .collect();
                Form::Record(parts)
            }
            Pattern::Constructor(entity, token, parts) => {
                let mut inner: Vec<Form> = parts.iter().map(|p| self.form(p)).collect();
                let many = inner.len();
                let mut part = || Box::new(inner.remove(0));
                let (form, arity) = match entity {
                    Entity::Constructor(tag) => {
                        let arity = self.program.texts.constructors[*tag as usize].arity;
                        (Form::Data(*tag, inner), arity)
                    }
                    Entity::Library(path) => match path.rsplit('.').next().unwrap_or("") {
                        "zero" => (Form::Zero, 0),
                        "suc" if many == 1 => (Form::Suc(part()), 1),
                        "[]" => (Form::Nil, 0),
                        "◌∷◌" if many == 2 => (Form::Cons(Box::new([*part(), *part()])), 2),
                        "true" => (Form::Bool(true), 0),
                        "false" => (Form::Bool(false), 0),
                        "nan" => (Form::Nan, 0),
                        "inf" if many == 1 => (Form::Inf(part()), 1),
                        "fin" if many == 3 => (Form::Fin(Box::new([*part(), *part(), *part()])), 3),
                        _ => self.fail(token, "a pattern that is not understood"),
                    },
                    _ => self.fail(token, "no constructor"),
                };
                if many != arity {
                    self.fail(
                        token,
                        &format!("a pattern with {many} parts where the constructor has {arity}"),
                    );
                }
                form
            }
        }
    }

    fn entity(&mut self, entity: Option<Entity>, token: &Token) -> Known {
        match entity {
            Some(Entity::Definition(d)) => match self.program.natives.iter().find(|n| n.definition == d) {
                Some(native) => Known::Primitive(native.primitive),
                None => {
                    self.met.push(d);
                    Known::Global(d)
                }
            },
            Some(Entity::Constructor(tag)) => match self.program.texts.constructors[tag as usize].arity {
                0 => Known::Constant(Value::Tag(tag)),
                arity => Known::Constructor(tag, arity),
            },
            Some(Entity::Library(path)) => match library_constant(&path) {
                Some(value) => Known::Constant(value),
                None => match LIBRARY.iter().find(|p| p.0 == path) {
                    Some(primitive) => Known::Primitive(primitive.1),
                    None => self.fail(token, &format!("{path} of the library is not known here")),
                },
            },
            Some(Entity::Type(_)) => self.fail(token, "a type where a value is expected"),
            None => self.fail(token, "no such name"),
        }
    }

    fn term(&mut self, term: &Term) -> Known {
        match term {
            Term::Number(n, _) => Known::Number(*n),
            Term::Name(token) => match self.scope.iter().rev().find(|(name, _)| *name == token.text) {
                Some((_, local)) => Known::Local(*local),
                None => {
                    let entity = self.program.texts.meaning(self.file, &token.text);
                    self.entity(entity, token)
                }
            },
            Term::Qualified(module, token) => {
                let entity = self.program.texts.within(module, &token.text);
                self.entity(entity, token)
            }
            Term::Meant(entity, token) => self.entity(Some(entity.clone()), token),
            Term::Infix(token, left, right) => {
                let entity = self.program.texts.meaning(self.file, &format!("◌{}◌", token.text));
                let op = self.entity(entity, token);
                let arguments = vec![self.term(left), self.term(right)];
                Known::Apply(Box::new(op), arguments)
            }
            Term::Apply(function, arguments) => {
                let function = self.term(function);
                let arguments = arguments.iter().map(|a| self.term(a)).collect();
                Known::Apply(Box::new(function), arguments)
            }
            Term::Lambda(patterns, body) => {
                let depth = self.scope.len();
                // a pattern that is no name is taken apart in the body
                let mut parameters = vec![];
                let mut apart = vec![];
                for pattern in patterns {
                    match pattern {
                        Pattern::Name(token) => parameters.push(self.bind(&token.text)),
                        _ => {
                            let local = self.bind("");
                            parameters.push(local);
                            let form = self.form(pattern);
                            apart.push((local, form));
                        }
                    }
                }
                let mut body = self.term(body);
                for (local, form) in apart.into_iter().rev() {
                    body = Known::Cases(
                        Box::new(Known::Local(local)),
                        vec![(form, body)],
                        "a lambda".to_string(),
                    );
                }
                self.scope.truncate(depth);
                Known::Lambda(parameters, Box::new(body))
            }
            Term::Let(pattern, value, body) => {
                let value = Box::new(self.term(value));
                let depth = self.scope.len();
                let known = match pattern {
                    Pattern::Name(token) => {
                        let local = self.bind(&token.text);
                        Known::Let(local, value, Box::new(self.term(body)))
                    }
                    _ => {
                        let form = self.form(pattern);
                        let body = self.term(body);
                        Known::Cases(value, vec![(form, body)], "a let".to_string())
                    }
                };
                self.scope.truncate(depth);
                known
            }
            Term::Field(inner, name) => {
                let inner = Box::new(self.term(inner));
                Known::Field(inner, self.program.field(&name.text))
            }
            Term::Record(fields) => Known::Record(
                fields
                    .iter()
                    .map(|(name, t)| (self.program.field(name), self.term(t)))
                    .collect(),
            ),
            Term::Cases(on, cases) => {
                let on = Box::new(self.term(on));
                let mut known = vec![];
                for (pattern, body) in cases {
                    let depth = self.scope.len();
                    let form = self.form(pattern);
                    known.push((form, self.term(body)));
                    self.scope.truncate(depth);
                }
                Known::Cases(
                    on,
                    known,
                    self.program.texts.files[self.file].path.display().to_string(),
                )
            }
        }
    }
}

impl Program {
    /// Everything that the roots reach.
    pub fn new(texts: Texts, natives: Vec<Native>, roots: &[usize]) -> Self {
        let mut program = Program {
            texts,
            natives,
            reached: HashMap::new(),
            order: vec![],
            strict: HashMap::new(),
            fields: HashMap::new(),
            shapes: HashMap::new(),
            shape_list: vec![],
        };
        let mut resolved = HashMap::new();
        let mut open: Vec<usize> = roots.to_vec();
        while let Some(d) = open.pop() {
            if program.reached.contains_key(&d) {
                continue;
            }
            let read = clauses(&program.texts, d);
            program.order.push(d);
            let (known, met) = program.resolve(d, &read);
            program.reached.insert(d, read);
            resolved.insert(d, known);
            open.extend(met);
        }
        // which arguments a definition surely reads, from the guess that it reads all
        program.strict = resolved.iter().map(|(d, r)| (*d, vec![true; r.arity])).collect();
        loop {
            let found: Vec<(usize, Vec<bool>)> = resolved.iter().map(|(d, r)| (*d, program.reads(r))).collect();
            let changed = found.iter().any(|(d, reads)| program.strict[d] != *reads);
            program.strict.extend(found);
            if !changed {
                break;
            }
        }
        program
    }

    /// The number of a field's name.
    pub fn field(&mut self, name: &str) -> u32 {
        let next = self.fields.len() as u32;
        *self.fields.entry(name.to_string()).or_insert(next)
    }

    /// The number of a record's shape: its fields, sorted.
    fn shape(&mut self, fields: &[u32]) -> u32 {
        if let Some(shape) = self.shapes.get(fields) {
            return *shape;
        }
        let next = self.shape_list.len() as u32;
        self.shapes.insert(fields.to_vec(), next);
        self.shape_list.push(fields.to_vec());
        next
    }

    /// A record of these fields.
    pub fn record(&mut self, fields: Vec<(&str, Value)>) -> Value {
        let mut named: Vec<(u32, Value)> = fields
            .into_iter()
            .map(|(name, value)| (self.field(name), value))
            .collect();
        named.sort_by_key(|f| f.0);
        let shape = self.shape(&named.iter().map(|f| f.0).collect::<Vec<_>>());
        Value::Record(shape, named.into_iter().map(|f| f.1).collect())
    }

    fn resolve(&mut self, definition: usize, read: &[Clause]) -> (Resolved, Vec<usize>) {
        let file = self.texts.definitions[definition].file;
        let arity = read[0].patterns.len();
        let mut naming = Naming {
            program: self,
            file,
            scope: vec![],
            next: 0,
            met: vec![],
        };
        let mut all = vec![];
        for clause in read {
            if clause.patterns.len() != arity {
                let d = &naming.program.texts.definitions[definition];
                let path = naming.program.texts.files[file].path.display();
                stop(format!("{path}:{}: `{}`: clauses of different lengths", d.line, d.name));
            }
            naming.scope.clear();
            let forms = clause.patterns.iter().map(|p| naming.form(p)).collect();
            let body = naming.term(&clause.body);
            all.push((forms, body));
        }
        let met = naming.met;
        (Resolved { arity, clauses: all }, met)
    }

    /// Which arguments a definition reads, whatever they are.
    fn reads(&self, resolved: &Resolved) -> Vec<bool> {
        let mut reads = vec![true; resolved.arity];
        for (forms, body) in &resolved.clauses {
            let read = self.read_in(body);
            for (reads, form) in reads.iter_mut().zip(forms) {
                *reads &= match form {
                    Form::Any => false,
                    Form::Bind(local) => read.contains(local),
                    _ => true,
                };
            }
        }
        reads
    }

    /// The locals that a term surely reads.
    fn read_in(&self, known: &Known) -> HashSet<u32> {
        let both = |a: HashSet<u32>, b: HashSet<u32>| -> HashSet<u32> { a.intersection(&b).copied().collect() };
        let any = |all: &[Known]| all.iter().flat_map(|k| self.read_in(k)).collect::<HashSet<u32>>();
        match known {
            Known::Local(local) => HashSet::from([*local]),
            Known::Number(_)
            | Known::Constant(_)
            | Known::Global(_)
            | Known::Constructor(..)
            | Known::Primitive(_)
            | Known::Lambda(..) => HashSet::new(),
            Known::Apply(function, arguments) => match &**function {
                Known::Primitive(Primitive::Cond) if arguments.len() >= 3 => {
                    let mut read = self.read_in(&arguments[0]);
                    read.extend(both(self.read_in(&arguments[1]), self.read_in(&arguments[2])));
                    read
                }
                Known::Primitive(Primitive::And | Primitive::Or) if arguments.len() == 2 => self.read_in(&arguments[0]),
                Known::Global(d) => {
                    let strict = &self.strict[d];
                    if arguments.len() < strict.len() {
                        return any(arguments);
                    }
                    let read = arguments
                        .iter()
                        .enumerate()
                        .filter(|(k, _)| strict.get(*k).copied().unwrap_or(true));
                    read.flat_map(|(_, a)| self.read_in(a)).collect()
                }
                function => {
                    let mut read = self.read_in(function);
                    read.extend(any(arguments));
                    read
                }
            },
            Known::Let(local, value, body) => {
                let mut read = self.read_in(body);
                if read.remove(local) {
                    read.extend(self.read_in(value));
                }
                read
            }
            Known::Field(inner, _) => self.read_in(inner),
            Known::Record(fields) => fields.iter().flat_map(|f| self.read_in(&f.1)).collect(),
            Known::Cases(on, cases, _) => {
                let mut read = self.read_in(on);
                let bodies = cases.iter().map(|c| self.read_in(&c.1));
                read.extend(bodies.reduce(both).unwrap_or_default());
                read
            }
        }
    }

    /// The code of a definition, from these clauses; and the definitions that they name.
    pub fn compile(&mut self, definition: usize, read: &[Clause]) -> (&'static Compiled, Vec<usize>) {
        let (resolved, met) = self.resolve(definition, read);
        let name = self.texts.definitions[definition].name.clone();
        let mut lowering = Lowering {
            program: self,
            frames: vec![Frame {
                next: resolved.arity,
                ..Frame::default()
            }],
        };
        let mut clauses = vec![];
        for (forms, body) in &resolved.clauses {
            lowering.frames[0].places.clear();
            let matches = forms
                .iter()
                .enumerate()
                .map(|(k, form)| lowering.top(form, k))
                .collect();
            clauses.push((matches, lowering.node(body)));
        }
        let frame = lowering.frames[0].next;
        let compiled = Compiled {
            name,
            arity: resolved.arity,
            frame,
            clauses,
        };
        (Box::leak(Box::new(compiled)), met)
    }

    /// Takes a definition for one that reads all of its arguments.
    pub fn assume_strict(&mut self, definition: usize, arity: usize) {
        self.strict.insert(definition, vec![true; arity]);
    }

    /// A machine with every definition that is reached.
    pub fn machine(&mut self) -> Machine {
        let mut machine = Machine::new(self.texts.definitions.len(), vec![]);
        for d in self.order.clone() {
            let read = self.reached[&d].clone();
            let (compiled, _) = self.compile(d, &read);
            machine.load(d, compiled);
        }
        machine.set_shapes(self.shape_list.clone());
        machine
    }

    /// How many definitions, types among them, stand in how many files and on how many lines.
    pub fn extent(&self) -> (usize, usize, usize) {
        let mut files = BTreeSet::new();
        let mut lines = BTreeSet::new();
        let mut open: Vec<(usize, Vec<Token>)> = vec![];
        let natives = self.natives.iter().map(|n| n.definition);
        let all: Vec<usize> = self.order.iter().copied().chain(natives).collect();
        for d in &all {
            let d = &self.texts.definitions[*d];
            files.insert(d.file);
            lines.insert((d.file, d.line));
            let tokens = d.signature.iter().chain(d.clauses.iter().flatten());
            lines.extend(tokens.map(|t| (d.file, t.line)));
            open.push((d.file, d.signature.clone()));
            open.extend(d.clauses.iter().map(|c| (d.file, c.clone())));
        }
        // the records and data types that they name, and those that these name
        let mut types = BTreeSet::new();
        while let Some((file, tokens)) = open.pop() {
            for token in &tokens {
                let Some(home) = self.texts.home(file, &token.text) else {
                    continue;
                };
                if types.insert(home.clone()) {
                    let body = &self.texts.files[home.0].types[&home.1];
                    files.insert(home.0);
                    lines.extend(body.iter().map(|t| (home.0, t.line)));
                    open.push((home.0, body.clone()));
                }
            }
        }
        (all.len() + types.len(), files.len(), lines.len())
    }
}

#[derive(Default)]
struct Frame {
    places: HashMap<u32, usize>,
    captures: Vec<(usize, usize)>,
    next: usize,
}

impl Frame {
    fn place(&mut self, local: u32) -> usize {
        self.places.insert(local, self.next);
        self.next += 1;
        self.next - 1
    }
}

struct Lowering<'a> {
    program: &'a mut Program,
    frames: Vec<Frame>,
}

impl Lowering<'_> {
    fn frame(&mut self) -> &mut Frame {
        self.frames.last_mut().expect("a frame")
    }

    /// Where a local stands in a frame; taken from the frame outside where it is not there yet.
    fn place(&mut self, local: u32, level: usize) -> usize {
        if let Some(place) = self.frames[level].places.get(&local) {
            return *place;
        }
        let outside = self.place(local, level - 1);
        let place = self.frames[level].place(local);
        self.frames[level].captures.push((outside, place));
        place
    }

    fn local(&mut self, local: u32) -> usize {
        self.place(local, self.frames.len() - 1)
    }

    /// The form of argument k: a name is the argument's own place.
    fn top(&mut self, form: &Form, k: usize) -> Match {
        match form {
            Form::Bind(local) => {
                self.frame().places.insert(*local, k);
                Match::Bind(k)
            }
            form => self.form(form),
        }
    }

    fn form(&mut self, form: &Form) -> Match {
        match form {
            Form::Any => Match::Any,
            Form::Bind(local) => Match::Bind(self.frame().place(*local)),
            Form::Zero => Match::Zero,
            Form::Suc(inner) => Match::Suc(Box::new(self.form(inner))),
            Form::Number(n) => Match::Number(*n),
            Form::Nil => Match::Nil,
            Form::Cons(inner) => Match::Cons(Box::new([self.form(&inner[0]), self.form(&inner[1])])),
            Form::Bool(b) => Match::Bool(*b),
            Form::Data(tag, inner) => Match::Data(*tag, inner.iter().map(|f| self.form(f)).collect()),
            Form::Nan => Match::Nan,
            Form::Inf(inner) => Match::Inf(Box::new(self.form(inner))),
            Form::Fin(inner) => Match::Fin(Box::new([
                self.form(&inner[0]),
                self.form(&inner[1]),
                self.form(&inner[2]),
            ])),
            Form::Record(fields) => Match::Record(fields.iter().map(|(name, f)| (*name, self.form(f))).collect()),
        }
    }

    fn nodes(&mut self, all: &[Known]) -> Vec<Node> {
        all.iter().map(|k| self.node(k)).collect()
    }

    fn code(&mut self, parameters: &[u32], body: &Known) -> &'static Code {
        self.frames.push(Frame::default());
        for parameter in parameters {
            self.frame().place(*parameter);
        }
        let body = self.node(body);
        let frame = self.frames.pop().expect("the frame that was pushed");
        Box::leak(Box::new(Code {
            parameters: parameters.len(),
            captures: frame.captures,
            frame: frame.next,
            body,
        }))
    }

    /// A term that may not be read: delayed, unless it costs nothing.
    fn delayed(&mut self, known: &Known) -> Node {
        match known {
            Known::Local(local) => Node::Raw(self.local(*local)),
            Known::Number(_)
            | Known::Constant(_)
            | Known::Lambda(..)
            | Known::Constructor(..)
            | Known::Primitive(_) => self.node(known),
            known => Node::Delay(self.code(&[], known)),
        }
    }

    fn over(&mut self, function: Node, rest: &[Known]) -> Node {
        if rest.is_empty() {
            function
        } else {
            Node::Apply(Box::new(function), self.nodes(rest))
        }
    }

    fn apply(&mut self, function: &Known, arguments: &[Known]) -> Node {
        match function {
            Known::Global(d) => {
                let strict = self.program.strict.get(d).cloned();
                let strict = strict.unwrap_or_else(|| stop("a definition that was not reached before".to_string()));
                if arguments.len() < strict.len() {
                    return Node::Partial(*d, self.nodes(arguments));
                }
                let (own, rest) = arguments.split_at(strict.len());
                let nodes = own
                    .iter()
                    .zip(&strict)
                    .map(|(a, s)| if *s { self.node(a) } else { self.delayed(a) })
                    .collect();
                self.over(Node::Call(*d, nodes), rest)
            }
            Known::Constructor(tag, arity) => {
                if arguments.len() < *arity {
                    return Node::PartialData(*tag, *arity, self.nodes(arguments));
                }
                if arguments.len() > *arity {
                    stop(format!(
                        "`{}` has too many arguments",
                        self.program.texts.constructors[*tag as usize].name
                    ));
                }
                Node::Data(*tag, self.nodes(arguments))
            }
            Known::Primitive(primitive) => {
                let arity = crate::run::arity(*primitive);
                if arguments.len() < arity {
                    return Node::PartialPrimitive(*primitive, self.nodes(arguments));
                }
                let (own, rest) = arguments.split_at(arity);
                let mut nodes = self.nodes(own);
                let node = match primitive {
                    Primitive::Cond => {
                        let (c, b) = (nodes.pop(), nodes.pop());
                        match (nodes.pop(), b, c) {
                            (Some(a), Some(b), Some(c)) => Node::If(Box::new([a, b, c])),
                            _ => unreachable!(),
                        }
                    }
                    Primitive::And | Primitive::Or => match (nodes.remove(0), nodes.remove(0)) {
                        (a, b) if *primitive == Primitive::And => Node::And(Box::new([a, b])),
                        (a, b) => Node::Or(Box::new([a, b])),
                    },
                    // a literal is computed once
                    Primitive::OfBits => match (&own[0], &own[1]) {
                        (Known::Constant(Value::Format), Known::Number(n)) if *n <= u128::from(u64::MAX) => {
                            Node::Constant(Value::Float(f64::from_bits(*n as u64)))
                        }
                        _ => Node::Primitive(*primitive, nodes),
                    },
                    _ => Node::Primitive(*primitive, nodes),
                };
                self.over(node, rest)
            }
            function => {
                let function = self.node(function);
                Node::Apply(Box::new(function), self.nodes(arguments))
            }
        }
    }

    fn node(&mut self, known: &Known) -> Node {
        match known {
            Known::Local(local) => Node::Local(self.local(*local)),
            Known::Number(n) => Node::Constant(nat(*n)),
            Known::Constant(value) => Node::Constant(value.clone()),
            Known::Global(_) | Known::Constructor(..) | Known::Primitive(_) => self.apply(known, &[]),
            Known::Apply(function, arguments) => self.apply(function, arguments),
            Known::Lambda(parameters, body) => Node::Lambda(self.code(parameters, body)),
            Known::Let(local, value, body) => {
                let read = self.program.read_in(body).contains(local);
                let value = if read { self.node(value) } else { self.delayed(value) };
                let place = self.frame().place(*local);
                Node::Let(place, Box::new(value), Box::new(self.node(body)))
            }
            Known::Field(inner, name) => Node::Field(Box::new(self.node(inner)), *name, Cell::new((u32::MAX, 0))),
            Known::Record(fields) => {
                let mut named: Vec<(u32, Node)> = fields.iter().map(|(name, k)| (*name, self.node(k))).collect();
                named.sort_by_key(|f| f.0);
                let shape = self.program.shape(&named.iter().map(|f| f.0).collect::<Vec<_>>());
                Node::Record(shape, named.into_iter().map(|f| f.1).collect())
            }
            Known::Cases(on, cases, place) => {
                let on = self.node(on);
                let slot = self.frame().place(u32::MAX);
                let cases = cases
                    .iter()
                    .map(|(form, body)| (self.form(form), self.node(body)))
                    .collect();
                Node::Cases(Box::new(on), slot, cases, place.clone())
            }
        }
    }
}
