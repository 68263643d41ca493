//! Values, and the machine that evaluates.

use crate::text::{stop, NEGSUC, NONE, POS, SOME};
use std::{
    cell::{Cell, RefCell},
    collections::HashMap,
    hash::{BuildHasherDefault, Hasher},
    panic::{catch_unwind, AssertUnwindSafe},
    rc::Rc,
};

#[derive(Clone)]
pub enum Value {
    Unset,
    Bool(bool),
    Nat(u64),
    Large(Rc<u128>),
    Float(f64),
    /// The format binary64.
    Format,
    Tag(u32),
    Data(u32, Rc<[Value]>),
    /// A record: its shape, and its fields in the shape's order.
    Record(u32, Rc<[Value]>),
    /// A list, from a place of the vector on.
    List(Rc<Vec<Value>>, u32),
    Function(Rc<Function>),
    /// What is computed where it is first read.
    Delayed(Rc<Delayed>),
}

pub enum Function {
    /// A lambda, with what it takes from outside and the arguments that it has.
    Lambda(&'static Code, Box<[Value]>, Vec<Value>),
    Definition(usize, Vec<Value>),
    Primitive(Primitive, Vec<Value>),
    Constructor(u32, usize, Vec<Value>),
}

pub struct Delayed {
    code: &'static Code,
    captured: RefCell<Vec<Value>>,
    value: RefCell<Option<Value>>,
}

/// The body of a lambda or of a delayed term: its parameters stand first in its frame, and what it takes from outside at given places.
pub struct Code {
    pub parameters: usize,
    pub captures: Vec<(usize, usize)>,
    pub frame: usize,
    pub body: Node,
}

pub struct Compiled {
    pub name: String,
    pub arity: usize,
    pub frame: usize,
    pub clauses: Vec<(Vec<Match>, Node)>,
}

/// A term, ready to run.
pub enum Node {
    Local(usize),
    /// A local that is handed on as it stands, delayed or not.
    Raw(usize),
    Constant(Value),
    Call(usize, Vec<Node>),
    Partial(usize, Vec<Node>),
    Data(u32, Vec<Node>),
    PartialData(u32, usize, Vec<Node>),
    Primitive(Primitive, Vec<Node>),
    PartialPrimitive(Primitive, Vec<Node>),
    Apply(Box<Node>, Vec<Node>),
    Lambda(&'static Code),
    Delay(&'static Code),
    Let(usize, Box<Node>, Box<Node>),
    Field(Box<Node>, u32, Cell<(u32, u32)>),
    Record(u32, Vec<Node>),
    If(Box<[Node; 3]>),
    And(Box<[Node; 2]>),
    Or(Box<[Node; 2]>),
    Cases(Box<Node>, usize, Vec<(Match, Node)>, String),
}

pub enum Match {
    Any,
    Bind(usize),
    Zero,
    Suc(Box<Match>),
    Number(u128),
    Nil,
    Cons(Box<[Match; 2]>),
    Bool(bool),
    Data(u32, Vec<Match>),
    Nan,
    Inf(Box<Match>),
    Fin(Box<[Match; 3]>),
    Record(Vec<(u32, Match)>),
}

#[derive(Clone, Copy, PartialEq, Debug)]
pub enum Primitive {
    Suc,
    Plus,
    Minus,
    Times,
    Quotient,
    Remainder,
    Power,
    Min,
    Max,
    Eqb,
    Ltb,
    Leb,
    Not,
    Cond,
    Position,
    MapOr,
    And,
    Or,
    Cons,
    Append,
    Map,
    Reverse,
    Length,
    GetD,
    Set,
    Replicate,
    Take,
    Drop,
    Add,
    Sub,
    Mul,
    Div,
    Rem,
    Lt,
    Le,
    Eq,
    Ne,
    Neg,
    OfBits,
    ToBits,
    OfInt,
    ToUnsigned,
    ToSigned,
    Size,
    Difference,
    Opposite,
    Inf,
    Fin,
    /// `tab` of crates/linear_cells/specs/Region.antt.
    Tab,
}

use Primitive as P;

/// How a message begins where a value has another type than its use asks for.
pub const OTHER_TYPE: &str = "type: ";

/// The library's functions.
pub const LIBRARY: [(&str, Primitive, usize); 53] = [
    ("Rattle.std.specs.Prelude.suc", P::Suc, 1),
    ("Rattle.std.specs.Prelude.◌+◌", P::Plus, 2),
    ("Rattle.std.specs.Prelude.◌-◌", P::Minus, 2),
    ("Rattle.std.specs.Prelude.◌*◌", P::Times, 2),
    ("Rattle.std.specs.Prelude.◌/◌", P::Quotient, 2),
    ("Rattle.std.specs.Prelude.◌%◌", P::Remainder, 2),
    ("Rattle.std.specs.Prelude.◌^◌", P::Power, 2),
    ("Rattle.std.specs.Prelude.min", P::Min, 2),
    ("Rattle.std.specs.Prelude.max", P::Max, 2),
    ("Rattle.std.specs.Prelude.eqb", P::Eqb, 2),
    ("Rattle.std.specs.Prelude.ltb", P::Ltb, 2),
    ("Rattle.std.specs.Prelude.leb", P::Leb, 2),
    ("Rattle.std.specs.Prelude.◌==◌", P::Eqb, 2),
    ("Rattle.std.specs.Prelude.nat_lt", P::Ltb, 2),
    ("Rattle.std.specs.Prelude.nat_le", P::Leb, 2),
    ("Rattle.std.specs.Prelude.not", P::Not, 1),
    ("Rattle.std.specs.Prelude.cond", P::Cond, 3),
    ("Rattle.std.specs.Prelude.◌&&◌", P::And, 2),
    ("Rattle.std.specs.Prelude.◌||◌", P::Or, 2),
    ("Rattle.std.specs.Prelude.◌∷◌", P::Cons, 2),
    ("Rattle.std.specs.Prelude.◌++◌", P::Append, 2),
    ("Rattle.std.specs.Prelude.map", P::Map, 2),
    ("Rattle.std.specs.Prelude.position", P::Position, 2),
    ("Rattle.std.specs.Option.option_map_or", P::MapOr, 3),
    ("Rattle.std.specs.Prelude.reverse", P::Reverse, 1),
    ("Rattle.std.specs.Prelude.length", P::Length, 1),
    ("Rattle.std.specs.Prelude.get_or", P::GetD, 3),
    ("Rattle.std.specs.Prelude.set", P::Set, 3),
    ("Rattle.std.specs.Prelude.replicate", P::Replicate, 2),
    ("Rattle.std.specs.Prelude.take", P::Take, 2),
    ("Rattle.std.specs.Prelude.drop", P::Drop, 2),
    ("Rattle.std.specs.Float.Ieee.add", P::Add, 3),
    ("Rattle.std.specs.Float.Ieee.sub", P::Sub, 3),
    ("Rattle.std.specs.Float.Ieee.mul", P::Mul, 3),
    ("Rattle.std.specs.Float.Ieee.div", P::Div, 3),
    ("Rattle.std.specs.Float.Ieee.rem", P::Rem, 3),
    ("Rattle.std.specs.Float.Ieee.lt", P::Lt, 2),
    ("Rattle.std.specs.Float.Ieee.le", P::Le, 2),
    ("Rattle.std.specs.Float.Ieee.eq", P::Eq, 2),
    ("Rattle.std.specs.Float.Ieee.ne", P::Ne, 2),
    ("Rattle.std.specs.Float.Ieee.neg", P::Neg, 1),
    ("Rattle.std.specs.Prelude.from_bits", P::OfBits, 2),
    ("Rattle.std.specs.Prelude.to_bits", P::ToBits, 2),
    ("Rattle.std.specs.Float.Ieee.of_bits", P::OfBits, 2),
    ("Rattle.std.specs.Float.Ieee.to_bits", P::ToBits, 2),
    ("Rattle.std.specs.Float.Ieee.of_int", P::OfInt, 2),
    ("Rattle.std.specs.Float.Ieee.to_unsigned", P::ToUnsigned, 2),
    ("Rattle.std.specs.Float.Ieee.to_signed", P::ToSigned, 2),
    ("Rattle.std.specs.Float.Ieee.size", P::Size, 1),
    ("Rattle.std.specs.Float.Ieee.minus", P::Difference, 2),
    ("Rattle.std.specs.Prelude.neg_ℤ", P::Opposite, 1),
    ("Rattle.std.specs.Float.inf", P::Inf, 1),
    ("Rattle.std.specs.Float.fin", P::Fin, 3),
];

pub fn arity(primitive: Primitive) -> usize {
    if primitive == P::Tab {
        return 2;
    }
    LIBRARY
        .iter()
        .find(|p| p.1 == primitive)
        .expect("a primitive of the table")
        .2
}

/// The library's constants.
pub fn library_constant(path: &str) -> Option<Value> {
    Some(match path {
        "Rattle.std.specs.Prelude.zero" => Value::Nat(0),
        "Rattle.std.specs.Prelude.true" => Value::Bool(true),
        "Rattle.std.specs.Prelude.false" => Value::Bool(false),
        "Rattle.std.specs.Prelude.[]" => list(vec![]),
        "Rattle.std.specs.Float.nan" => Value::Float(f64::NAN),
        "Rattle.std.specs.Float.binary64" => Value::Format,
        _ => return None,
    })
}

pub fn list(items: Vec<Value>) -> Value {
    Value::List(Rc::new(items), 0)
}

pub fn nat(n: u128) -> Value {
    u64::try_from(n).map_or_else(|_| Value::Large(Rc::new(n)), Value::Nat)
}

/// A double's pattern, one for all NaNs.
pub fn bits(x: f64) -> u64 {
    if x.is_nan() {
        0x7ff8_0000_0000_0000
    } else {
        x.to_bits()
    }
}

/// A finite double as `fin s m e`: m * 2 ^ e, m odd or 0.
fn parts(x: f64) -> (bool, u128, i64) {
    let field = (x.to_bits() >> 52) & 0x7ff;
    let digits = x.to_bits() & 0xf_ffff_ffff_ffff;
    let (m, e) = if field == 0 {
        (digits, -1074)
    } else {
        (digits | 1 << 52, field as i64 - 1075)
    };
    let zeros = if m == 0 { 0 } else { m.trailing_zeros() };
    (
        x.is_sign_negative(),
        u128::from(m >> zeros),
        if m == 0 { 0 } else { e + i64::from(zeros) },
    )
}

/// `fin s m e` as a double, for an m of at most 53 digits: exact where the double exists.
fn whole(s: bool, m: u128, e: i64) -> f64 {
    if m >= 1 << 53 {
        stop("a significand of over 53 digits".to_string());
    }
    // two steps, so that no step is inexact where the result is a double
    let half = e / 2;
    let x = m as f64 * 2f64.powi(half as i32) * 2f64.powi((e - half) as i32);
    if s {
        -x
    } else {
        x
    }
}

fn integer(z: i64) -> Value {
    let (tag, n) = if z >= 0 {
        (POS, z as u64)
    } else {
        (NEGSUC, (-1 - z) as u64)
    };
    Value::Data(tag, Rc::new([Value::Nat(n)]))
}

impl Value {
    pub fn float(&self) -> f64 {
        match self {
            Value::Float(x) => *x,
            _ => stop(OTHER_TYPE.to_string() + "a double is expected"),
        }
    }

    pub fn nat(&self) -> u128 {
        match self {
            Value::Nat(n) => u128::from(*n),
            Value::Large(n) => **n,
            _ => stop(OTHER_TYPE.to_string() + "a whole number is expected"),
        }
    }

    pub fn bool(&self) -> bool {
        match self {
            Value::Bool(b) => *b,
            _ => stop(OTHER_TYPE.to_string() + "a truth value is expected"),
        }
    }

    pub fn items(&self) -> &[Value] {
        match self {
            Value::List(items, from) => &items[*from as usize..],
            _ => stop(OTHER_TYPE.to_string() + "a list is expected"),
        }
    }

    /// The length of a list that is made.
    fn short(&self) -> u64 {
        match self.nat() {
            n if n <= u128::from(LONGEST) => n as u64,
            _ => stop(format!("a list of over {LONGEST}")),
        }
    }

    fn index(&self) -> usize {
        usize::try_from(self.nat()).unwrap_or(usize::MAX)
    }

    /// The whole number behind `pos` and `negsuc`.
    fn integer(&self) -> i128 {
        match self {
            Value::Data(POS, n) => n[0].nat() as i128,
            Value::Data(NEGSUC, n) => -1 - n[0].nat() as i128,
            _ => stop(OTHER_TYPE.to_string() + "an integer is expected"),
        }
    }

    fn is_scalar(&self) -> bool {
        matches!(
            self,
            Value::Bool(_) | Value::Nat(_) | Value::Float(_) | Value::Format | Value::Tag(_)
        )
    }
}

/// Whether two values are the same. Two functions are where they are one; else it is not known.
fn same(a: &Value, b: &Value) -> Apart {
    let equal = |equal: bool| if equal { Apart::Same } else { Apart::Other };
    let all = |a: &[Value], b: &[Value]| {
        let parts: Vec<Apart> = a.iter().zip(b).map(|(a, b)| same(a, b)).collect();
        if a.len() != b.len() || parts.contains(&Apart::Other) {
            Apart::Other
        } else if parts.contains(&Apart::Unsettled) {
            Apart::Unsettled
        } else {
            Apart::Same
        }
    };
    match (a, b) {
        (Value::Bool(a), Value::Bool(b)) => equal(a == b),
        (Value::Nat(a), Value::Nat(b)) => equal(a == b),
        (Value::Large(a), Value::Large(b)) => equal(a == b),
        (Value::Float(a), Value::Float(b)) => equal(bits(*a) == bits(*b)),
        (Value::Format, Value::Format) => Apart::Same,
        (Value::Tag(a), Value::Tag(b)) => equal(a == b),
        (Value::Data(s, a), Value::Data(t, b)) | (Value::Record(s, a), Value::Record(t, b)) if s == t => all(a, b),
        (Value::List(..), Value::List(..)) => all(a.items(), b.items()),
        (Value::Function(a), Value::Function(b)) if Rc::ptr_eq(a, b) => Apart::Same,
        (Value::Function(_), Value::Function(_)) => Apart::Unsettled,
        _ => Apart::Other,
    }
}

#[derive(Default)]
pub struct Quick(u64);

impl Hasher for Quick {
    fn finish(&self) -> u64 {
        self.0 ^ (self.0 >> 29)
    }
    fn write(&mut self, bytes: &[u8]) {
        for chunk in bytes.chunks(8) {
            let mut word = [0; 8];
            word[..chunk.len()].copy_from_slice(chunk);
            self.write_u64(u64::from_le_bytes(word));
        }
    }
    fn write_u64(&mut self, word: u64) {
        self.0 = (self.0.rotate_left(5) ^ word).wrapping_mul(0x9e37_79b9_7f4a_7c15);
    }
    fn write_usize(&mut self, word: usize) {
        self.write_u64(word as u64);
    }
}

type Table = HashMap<Box<[u64]>, (Vec<Value>, Value), BuildHasherDefault<Quick>>;

/// A definition as it runs: its code, its value where it takes no argument, and what is kept of its calls.
struct Slot {
    code: Cell<&'static Compiled>,
    constant: RefCell<Option<Value>>,
    kept: Cell<Kept>,
    asked: Cell<u32>,
    found: Cell<u32>,
    table: RefCell<Table>,
}

/// Whether results of a definition are kept: not known yet, kept, or never.
#[derive(Clone, Copy, PartialEq)]
enum Kept {
    Watched,
    Yes,
    Never,
}

/// What is known of other code for a definition on a row.
#[derive(Clone, Copy, Default, PartialEq)]
pub enum Apart {
    /// The same values at all calls that were compared.
    #[default]
    Same,
    /// Another value at a call.
    Other,
    /// A call was not compared to its end.
    Unsettled,
}

/// No list is longer: a changed definition may ask for one of any length.
const LONGEST: u64 = 1_000_000;

/// Other code for a definition may make this many calls in all while it is compared on one row.
const BESIDE: u64 = 100_000;

/// Other code for a definition is compared with it at no more calls of a row than this.
const COMPARED: u32 = 3000;

/// No more definitions may be entered and not left: the stack has room for them.
const DEEPEST: usize = 200_000;

/// A call that makes more calls than this is worth keeping.
const DEAR: u64 = 24;

pub struct Machine {
    slots: Vec<Option<Slot>>,
    shapes: Vec<Vec<u32>>,
    stack: Vec<Value>,
    pub calls: u64,
    /// No row may make more calls than this.
    pub most: u64,
    /// Other code for definitions, each with its number: at each call its value is compared with the definition's own.
    pub others: Vec<Vec<(usize, &'static Compiled)>>,
    /// Which of them gave another value, or may have: a value that has functions in it cannot be compared, and one that did not end within
    /// `BESIDE` calls was not. At how many calls each was compared, and the calls that it made there.
    pub told_apart: Vec<Apart>,
    pub compared: Vec<(u32, u64)>,
    /// Whether no other code is tried now.
    quiet: bool,
    /// How many definitions are entered and not left.
    depth: usize,
    filled: Vec<usize>,
    words: Vec<u64>,
}

impl Machine {
    pub fn new(definitions: usize, shapes: Vec<Vec<u32>>) -> Self {
        let slots = (0..definitions).map(|_| None).collect();
        Self {
            slots,
            shapes,
            stack: Vec::with_capacity(1 << 16),
            calls: 0,
            most: u64::MAX,
            others: vec![vec![]; definitions],
            told_apart: vec![],
            compared: vec![],
            quiet: false,
            depth: 0,
            filled: vec![],
            words: vec![],
        }
    }

    pub fn load(&mut self, definition: usize, code: &'static Compiled) {
        self.slots[definition] = Some(Slot {
            code: Cell::new(code),
            constant: RefCell::new(None),
            kept: Cell::new(Kept::Watched),
            asked: Cell::new(0),
            found: Cell::new(0),
            table: RefCell::default(),
        });
    }

    /// The code of a definition, another in its place; constants are computed anew.
    pub fn replace(&mut self, definition: usize, code: &'static Compiled) -> &'static Compiled {
        for slot in self.slots.iter().flatten() {
            slot.constant.replace(None);
        }
        self.forget();
        self.slot(definition).code.replace(code)
    }

    pub fn set_shapes(&mut self, shapes: Vec<Vec<u32>>) {
        self.shapes = shapes;
    }

    fn slot(&self, definition: usize) -> &Slot {
        self.slots[definition].as_ref().expect("a definition that is reached")
    }

    /// Drops what was kept of calls. What a call gives is a matter of its arguments alone, so this changes no value.
    pub fn forget(&mut self) {
        for definition in std::mem::take(&mut self.filled) {
            self.slot(definition).table.borrow_mut().clear();
        }
        self.stack.clear();
        self.calls = 0;
        self.depth = 0;
        self.quiet = false;
    }

    /// A definition applied to arguments.
    pub fn run(&mut self, definition: usize, arguments: Vec<Value>) -> Value {
        let function = Value::Function(Rc::new(Function::Definition(definition, vec![])));
        self.apply(function, arguments)
    }

    pub fn field(&self, value: &Value, name: u32) -> Value {
        match value {
            Value::Record(shape, fields) => match self.shapes[*shape as usize].iter().position(|&f| f == name) {
                Some(at) => fields[at].clone(),
                None => stop(OTHER_TYPE.to_string() + "a record without such a field"),
            },
            _ => stop(OTHER_TYPE.to_string() + "a record is expected"),
        }
    }

    /// The words by which a value is told from others: what it holds where it is small, or its place in memory. False where it is too long.
    fn key(&self, value: &Value, depth: usize, words: &mut Vec<u64>) -> bool {
        match value {
            Value::Unset => words.push(0),
            Value::Bool(b) => words.push(2 + u64::from(*b)),
            Value::Nat(n) => words.extend([4, *n]),
            Value::Large(n) => words.extend([5, **n as u64, (**n >> 64) as u64]),
            Value::Float(x) => words.extend([6, x.to_bits()]),
            Value::Format => words.push(7),
            Value::Tag(tag) => words.extend([8, u64::from(*tag)]),
            Value::Data(tag, fields) | Value::Record(tag, fields) => {
                let kind = if matches!(value, Value::Data(..)) { 9 } else { 10 };
                if fields.len() <= 8 && fields.iter().all(Value::is_scalar) {
                    words.extend([kind, u64::from(*tag)]);
                    for field in fields.iter() {
                        self.key(field, depth, words);
                    }
                } else {
                    words.extend([kind + 2, fields.as_ptr() as u64]);
                }
            }
            Value::List(items, from) => {
                if items.len() == *from as usize {
                    words.push(13);
                } else {
                    words.extend([14, Rc::as_ptr(items) as u64, u64::from(*from)]);
                }
            }
            Value::Function(function) => {
                let held: (u64, u64, &[Value]) = match &**function {
                    Function::Lambda(code, captured, held) => {
                        for value in held {
                            self.key(value, depth.saturating_sub(1), words);
                        }
                        (15, *code as *const Code as u64, captured)
                    }
                    Function::Definition(d, held) => (16, *d as u64, held),
                    Function::Primitive(p, held) => (17, *p as u64, held),
                    Function::Constructor(tag, _, held) => (18, u64::from(*tag), held),
                };
                if depth == 0 {
                    words.extend([19, Rc::as_ptr(function) as *const u8 as u64]);
                } else {
                    words.extend([held.0, held.1]);
                    for value in held.2 {
                        self.key(value, depth - 1, words);
                    }
                }
            }
            Value::Delayed(delayed) => match &*delayed.value.borrow() {
                Some(value) => {
                    self.key(value, depth, words);
                }
                None => words.extend([20, Rc::as_ptr(delayed) as u64]),
            },
        }
        words.len() <= 64
    }

    fn count(&mut self) {
        self.calls += 1;
        if self.calls > self.most {
            stop(format!("over {} calls", self.most));
        }
    }

    /// Calls a definition whose arguments stand on the stack from `base` on.
    fn call(&mut self, definition: usize, base: usize) -> Value {
        self.count();
        let code = self.slot(definition).code.get();
        if code.arity == 0 {
            for (number, _) in &self.others[definition] {
                self.told_apart[*number] = Apart::Other;
            }
            if let Some(value) = &*self.slot(definition).constant.borrow() {
                return value.clone();
            }
            let value = self.enter(code, base);
            self.slot(definition).constant.replace(Some(value.clone()));
            return value;
        }
        match self.slot(definition).kept.get() {
            Kept::Never => self.enter_beside(definition, code, base),
            Kept::Watched => {
                let before = self.calls;
                let value = self.enter_beside(definition, code, base);
                if self.calls - before > DEAR {
                    self.slot(definition).kept.set(Kept::Yes);
                }
                value
            }
            Kept::Yes => {
                let mut words = std::mem::take(&mut self.words);
                words.clear();
                let short = self.stack[base..base + code.arity]
                    .iter()
                    .all(|v| self.key(v, 3, &mut words));
                let slot = self.slot(definition);
                slot.asked.set(slot.asked.get() + 1);
                if slot.asked.get() == 4096 {
                    if slot.found.get() < 256 {
                        slot.kept.set(Kept::Never);
                    }
                    slot.asked.set(0);
                    slot.found.set(0);
                }
                if !short {
                    self.words = words;
                    return self.enter_beside(definition, code, base);
                }
                let known = slot.table.borrow().get(&words[..]).map(|(_, value)| value.clone());
                if let Some(value) = known {
                    slot.found.set(slot.found.get() + 1);
                    self.words = words;
                    self.stack.truncate(base);
                    return value;
                }
                let arguments = self.stack[base..base + code.arity].to_vec();
                let key = Box::from(&words[..]);
                self.words = words;
                let before = self.calls;
                let value = self.enter_beside(definition, code, base);
                if self.calls - before > DEAR {
                    if self.slot(definition).table.borrow().is_empty() {
                        self.filled.push(definition);
                    }
                    let mut table = self.slot(definition).table.borrow_mut();
                    table.insert(key, (arguments, value.clone()));
                }
                value
            }
        }
    }

    /// A definition's value; and whether other code for it gives the same here.
    fn enter_beside(&mut self, definition: usize, code: &'static Compiled, base: usize) -> Value {
        if self.quiet || self.others[definition].is_empty() {
            return self.enter(code, base);
        }
        let arguments = self.stack[base..base + code.arity].to_vec();
        let value = self.enter(code, base);
        let (calls, depth, most) = (self.calls, self.depth, self.most);
        self.quiet = true;
        for k in 0..self.others[definition].len() {
            let (number, other) = self.others[definition][k];
            let (compared, spent) = self.compared[number];
            if self.told_apart[number] != Apart::Same || compared >= COMPARED {
                continue;
            }
            self.stack.truncate(base);
            self.depth = depth;
            self.most = self.calls.saturating_add(BESIDE - spent);
            let before = self.calls;
            self.stack.extend(arguments.iter().cloned());
            let given = catch_unwind(AssertUnwindSafe(|| self.enter(other, base)));
            self.told_apart[number] = match given {
                Ok(given) => same(&given, &value),
                Err(_) => Apart::Unsettled,
            };
            self.compared[number] = (compared + 1, BESIDE.min(spent + self.calls - before));
        }
        self.stack.truncate(base);
        self.quiet = false;
        self.calls = calls;
        self.depth = depth;
        self.most = most;
        value
    }

    fn enter(&mut self, code: &'static Compiled, base: usize) -> Value {
        self.depth += 1;
        if self.depth > DEEPEST {
            stop(format!("`{}`: over {DEEPEST} calls inside of each other", code.name));
        }
        self.stack.resize(base + code.frame, Value::Unset);
        for (matches, body) in &code.clauses {
            if matches
                .iter()
                .enumerate()
                .all(|(k, m)| self.matches_at(m, base + k, base))
            {
                let value = self.eval(body, base);
                self.stack.truncate(base);
                self.depth -= 1;
                return value;
            }
        }
        stop(format!("`{}`: no clause takes these arguments", code.name))
    }

    /// Whether the value at a place of the stack has the form; binds what is named.
    fn matches_at(&mut self, form: &Match, place: usize, base: usize) -> bool {
        match form {
            Match::Any => true,
            Match::Bind(slot) if base + slot == place => true,
            Match::Bind(slot) => {
                self.stack[base + slot] = self.stack[place].clone();
                true
            }
            _ => {
                if let Value::Delayed(delayed) = &self.stack[place] {
                    let delayed = delayed.clone();
                    self.stack[place] = self.force(&delayed);
                }
                let value = self.stack[place].clone();
                self.matches(form, value, base)
            }
        }
    }

    fn matches(&mut self, form: &Match, value: Value, base: usize) -> bool {
        match (form, &value) {
            (Match::Any, _) => true,
            (Match::Bind(slot), _) => {
                self.stack[base + slot] = value;
                true
            }
            (Match::Zero, Value::Nat(n)) => *n == 0,
            (Match::Zero, Value::Large(_)) => false,
            (Match::Suc(inner), Value::Nat(n)) => *n > 0 && self.matches(inner, Value::Nat(n - 1), base),
            (Match::Suc(inner), Value::Large(n)) => self.matches(inner, nat(**n - 1), base),
            (Match::Number(m), Value::Nat(_) | Value::Large(_)) => *m == value.nat(),
            (Match::Nil, Value::List(items, from)) => items.len() == *from as usize,
            (Match::Cons(inner), Value::List(items, from)) => match items.get(*from as usize) {
                Some(first) => {
                    self.matches(&inner[0], first.clone(), base)
                        && self.matches(&inner[1], Value::List(items.clone(), from + 1), base)
                }
                None => false,
            },
            (Match::Bool(b), Value::Bool(c)) => b == c,
            (Match::Data(tag, inner), Value::Tag(other)) => tag == other && inner.is_empty(),
            (Match::Data(tag, inner), Value::Data(other, fields)) => {
                tag == other
                    && inner
                        .iter()
                        .zip(fields.iter())
                        .all(|(m, v)| self.matches(m, v.clone(), base))
            }
            (Match::Nan, Value::Float(x)) => x.is_nan(),
            (Match::Inf(inner), Value::Float(x)) => {
                x.is_infinite() && self.matches(inner, Value::Bool(x.is_sign_negative()), base)
            }
            (Match::Fin(inner), Value::Float(x)) => {
                if !x.is_finite() {
                    return false;
                }
                let (s, m, e) = parts(*x);
                self.matches(&inner[0], Value::Bool(s), base)
                    && self.matches(&inner[1], nat(m), base)
                    && (matches!(inner[2], Match::Any) || self.matches(&inner[2], integer(e), base))
            }
            (Match::Record(inner), Value::Record(..)) => inner.iter().all(|(name, m)| {
                let part = self.field(&value, *name);
                self.matches(m, part, base)
            }),
            _ => stop(OTHER_TYPE.to_string() + "a value of another type than its pattern"),
        }
    }

    fn force(&mut self, delayed: &Rc<Delayed>) -> Value {
        if let Some(value) = &*delayed.value.borrow() {
            return value.clone();
        }
        let base = self.stack.len();
        let code = delayed.code;
        self.stack.resize(base + code.frame, Value::Unset);
        for ((_, place), value) in code.captures.iter().zip(delayed.captured.take()) {
            self.stack[base + place] = value;
        }
        let value = self.eval(&code.body, base);
        self.stack.truncate(base);
        delayed.value.replace(Some(value.clone()));
        value
    }

    fn local(&mut self, place: usize) -> Value {
        if let Value::Delayed(delayed) = &self.stack[place] {
            let delayed = delayed.clone();
            let value = self.force(&delayed);
            self.stack[place] = value.clone();
            return value;
        }
        self.stack[place].clone()
    }

    fn all(&mut self, nodes: &'static [Node], base: usize) -> Vec<Value> {
        nodes.iter().map(|node| self.eval(node, base)).collect()
    }

    /// The same in one piece of memory, for short ones.
    fn parts(&mut self, nodes: &'static [Node], base: usize) -> Rc<[Value]> {
        match nodes {
            [a] => Rc::new([self.eval(a, base)]),
            [a, b] => Rc::new([self.eval(a, base), self.eval(b, base)]),
            [a, b, c] => Rc::new([self.eval(a, base), self.eval(b, base), self.eval(c, base)]),
            _ => self.all(nodes, base).into(),
        }
    }

    /// What a lambda or a delayed term takes along.
    fn captured(&self, code: &Code, base: usize) -> Vec<Value> {
        code.captures
            .iter()
            .map(|(from, _)| self.stack[base + from].clone())
            .collect()
    }

    fn eval(&mut self, node: &'static Node, base: usize) -> Value {
        match node {
            Node::Local(slot) => self.local(base + slot),
            Node::Raw(slot) => self.stack[base + slot].clone(),
            Node::Constant(value) => value.clone(),
            Node::Call(definition, arguments) => {
                let top = self.stack.len();
                for argument in arguments {
                    let value = self.eval(argument, base);
                    self.stack.push(value);
                }
                self.call(*definition, top)
            }
            Node::Primitive(primitive, arguments) => match &arguments[..] {
                [a] => {
                    let a = self.eval(a, base);
                    self.one(*primitive, a)
                }
                [a, b] => {
                    let a = self.eval(a, base);
                    let b = self.eval(b, base);
                    self.two(*primitive, a, b)
                }
                [a, b, c] => {
                    let a = self.eval(a, base);
                    let b = self.eval(b, base);
                    let c = self.eval(c, base);
                    self.three(*primitive, a, b, c)
                }
                _ => stop("a primitive of another arity".to_string()),
            },
            Node::If(parts) => {
                let test = self.eval(&parts[0], base).bool();
                self.eval(&parts[if test { 1 } else { 2 }], base)
            }
            Node::And(parts) => Value::Bool(self.eval(&parts[0], base).bool() && self.eval(&parts[1], base).bool()),
            Node::Or(parts) => Value::Bool(self.eval(&parts[0], base).bool() || self.eval(&parts[1], base).bool()),
            Node::Field(inner, name, last) => {
                let value = self.eval(inner, base);
                if let Value::Record(shape, fields) = &value {
                    if last.get().0 == *shape {
                        return fields[last.get().1 as usize].clone();
                    }
                    if let Some(at) = self.shapes[*shape as usize].iter().position(|f| f == name) {
                        last.set((*shape, at as u32));
                    }
                }
                self.field(&value, *name)
            }
            Node::Record(shape, fields) => Value::Record(*shape, self.parts(fields, base)),
            Node::Data(tag, fields) => Value::Data(*tag, self.parts(fields, base)),
            Node::Let(slot, value, body) => {
                let value = self.eval(value, base);
                self.stack[base + slot] = value;
                self.eval(body, base)
            }
            Node::Apply(function, arguments) => {
                let function = self.eval(function, base);
                let arguments = self.all(arguments, base);
                self.apply(function, arguments)
            }
            Node::Partial(definition, arguments) => {
                let held = self.all(arguments, base);
                Value::Function(Rc::new(Function::Definition(*definition, held)))
            }
            Node::PartialPrimitive(primitive, arguments) => {
                let held = self.all(arguments, base);
                Value::Function(Rc::new(Function::Primitive(*primitive, held)))
            }
            Node::PartialData(tag, arity, arguments) => {
                let held = self.all(arguments, base);
                Value::Function(Rc::new(Function::Constructor(*tag, *arity, held)))
            }
            Node::Lambda(code) => Value::Function(Rc::new(Function::Lambda(
                code,
                self.captured(code, base).into(),
                vec![],
            ))),
            Node::Delay(code) => Value::Delayed(Rc::new(Delayed {
                code,
                captured: RefCell::new(self.captured(code, base)),
                value: RefCell::new(None),
            })),
            Node::Cases(on, slot, cases, place) => {
                let value = self.eval(on, base);
                self.stack[base + slot] = value;
                for (form, body) in cases {
                    if self.matches_at(form, base + slot, base) {
                        return self.eval(body, base);
                    }
                }
                stop(format!("{place}: no case takes this value"))
            }
        }
    }

    pub fn apply(&mut self, function: Value, mut arguments: Vec<Value>) -> Value {
        let mut function = function;
        loop {
            if let Value::Delayed(delayed) = &function {
                let delayed = delayed.clone();
                function = self.force(&delayed);
            }
            let Value::Function(held) = &function else {
                stop(OTHER_TYPE.to_string() + "a function is expected")
            };
            let held = held.clone();
            let (has, takes) = match &*held {
                Function::Lambda(code, _, held) => (held.len(), code.parameters),
                Function::Definition(d, held) => (held.len(), self.slot(*d).code.get().arity),
                Function::Primitive(p, held) => (held.len(), arity(*p)),
                Function::Constructor(_, arity, held) => (held.len(), *arity),
            };
            if has + arguments.len() < takes {
                let more = |held: &[Value]| [held, &arguments].concat();
                return Value::Function(Rc::new(match &*held {
                    Function::Lambda(code, captured, held) => Function::Lambda(code, captured.clone(), more(held)),
                    Function::Definition(d, held) => Function::Definition(*d, more(held)),
                    Function::Primitive(p, held) => Function::Primitive(*p, more(held)),
                    Function::Constructor(tag, n, held) => Function::Constructor(*tag, *n, more(held)),
                }));
            }
            let rest = arguments.split_off(takes - has);
            let value = match &*held {
                Function::Lambda(code, captured, held) => {
                    self.count();
                    let base = self.stack.len();
                    self.stack.extend(held.iter().cloned());
                    self.stack.extend(arguments);
                    self.stack.resize(base + code.frame, Value::Unset);
                    for ((_, place), value) in code.captures.iter().zip(captured.iter()) {
                        self.stack[base + place] = value.clone();
                    }
                    let value = self.eval(&code.body, base);
                    self.stack.truncate(base);
                    value
                }
                Function::Definition(d, held) => {
                    let base = self.stack.len();
                    self.stack.extend(held.iter().cloned());
                    self.stack.extend(arguments);
                    self.call(*d, base)
                }
                Function::Primitive(p, held) => {
                    let all = [&held[..], &arguments].concat();
                    self.primitive(*p, all)
                }
                Function::Constructor(tag, _, held) => Value::Data(*tag, [&held[..], &arguments].concat().into()),
            };
            if rest.is_empty() {
                return value;
            }
            function = value;
            arguments = rest;
        }
    }

    fn primitive(&mut self, primitive: Primitive, arguments: Vec<Value>) -> Value {
        let mut arguments = arguments.into_iter().map(|value| match value {
            Value::Delayed(delayed) => self.force(&delayed),
            value => value,
        });
        let all: Vec<Value> = arguments.by_ref().collect();
        drop(arguments);
        match <[Value; 1]>::try_from(all) {
            Ok([a]) => self.one(primitive, a),
            Err(all) => match <[Value; 2]>::try_from(all) {
                Ok([a, b]) => self.two(primitive, a, b),
                Err(all) => match <[Value; 3]>::try_from(all) {
                    Ok([a, b, c]) => self.three(primitive, a, b, c),
                    Err(_) => stop("a primitive of another arity".to_string()),
                },
            },
        }
    }

    fn one(&mut self, primitive: Primitive, a: Value) -> Value {
        match primitive {
            P::Suc => nat(a.nat() + 1),
            P::Not => Value::Bool(!a.bool()),
            P::Length => Value::Nat(a.items().len() as u64),
            P::Reverse => list(a.items().iter().rev().cloned().collect()),
            P::Neg => Value::Float(-a.float()),
            P::Size => Value::Nat(u64::from(128 - a.nat().leading_zeros())),
            P::Opposite => match a.integer() {
                0 => a,
                z => integer(i64::try_from(-z).unwrap_or_else(|_| stop("an integer over 63 bits".to_string()))),
            },
            P::Inf => Value::Float(if a.bool() { f64::NEG_INFINITY } else { f64::INFINITY }),
            _ => stop(format!("{primitive:?}: no primitive of one argument")),
        }
    }

    fn two(&mut self, primitive: Primitive, a: Value, b: Value) -> Value {
        let over = || -> ! { stop("a whole number over 128 bits".to_string()) };
        match primitive {
            P::Plus => nat(a.nat().checked_add(b.nat()).unwrap_or_else(|| over())),
            P::Minus => nat(a.nat().saturating_sub(b.nat())),
            P::Times => nat(a.nat().checked_mul(b.nat()).unwrap_or_else(|| over())),
            P::Quotient => nat(a.nat().checked_div(b.nat()).unwrap_or(0)),
            P::Remainder => nat(a.nat().checked_rem(b.nat()).unwrap_or(a.nat())),
            P::Power => {
                let exponent = u32::try_from(b.nat()).unwrap_or_else(|_| over());
                nat(a.nat().checked_pow(exponent).unwrap_or_else(|| over()))
            }
            P::Min => nat(a.nat().min(b.nat())),
            P::Max => nat(a.nat().max(b.nat())),
            P::Eqb => Value::Bool(a.nat() == b.nat()),
            P::Ltb => Value::Bool(a.nat() < b.nat()),
            P::Leb => Value::Bool(a.nat() <= b.nat()),
            P::And => Value::Bool(a.bool() && b.bool()),
            P::Or => Value::Bool(a.bool() || b.bool()),
            P::Cons => {
                let mut items = Vec::with_capacity(b.items().len() + 1);
                items.push(a);
                items.extend_from_slice(b.items());
                list(items)
            }
            P::Append => {
                if let Value::List(items, 0) = a {
                    let mut items = Rc::try_unwrap(items).unwrap_or_else(|items| (*items).clone());
                    items.extend_from_slice(b.items());
                    return list(items);
                }
                list([a.items(), b.items()].concat())
            }
            P::Map => {
                let items = b
                    .items()
                    .iter()
                    .map(|item| self.apply(a.clone(), vec![item.clone()]))
                    .collect();
                list(items)
            }
            P::Position => {
                let found = b
                    .items()
                    .iter()
                    .position(|item| self.apply(a.clone(), vec![item.clone()]).bool());
                found.map_or(Value::Tag(NONE), |i| {
                    Value::Data(SOME, Rc::new([Value::Nat(i as u64)]))
                })
            }
            P::Replicate => list(vec![b; a.short() as usize]),
            P::Take => list(b.items()[..a.index().min(b.items().len())].to_vec()),
            P::Drop => list(b.items()[a.index().min(b.items().len())..].to_vec()),
            P::Lt => Value::Bool(a.float() < b.float()),
            P::Le => Value::Bool(a.float() <= b.float()),
            P::Eq => Value::Bool(a.float() == b.float()),
            P::Ne => Value::Bool(a.float() != b.float()),
            P::OfBits => Value::Float(f64::from_bits(u64::try_from(b.nat()).unwrap_or_else(|_| over()))),
            P::ToBits => Value::Nat(bits(b.float())),
            P::OfInt => Value::Float(b.integer() as f64),
            P::ToUnsigned => {
                let top = 1u128
                    .checked_shl(u32::try_from(a.nat()).unwrap_or_else(|_| over()))
                    .unwrap_or_else(|| over());
                // `as` goes toward zero, to the nearest end of the range, and to 0 for NaN
                nat((b.float() as u128).min(top - 1))
            }
            P::ToSigned => {
                let top = 1i128
                    .checked_shl(u32::try_from(a.nat()).unwrap_or_else(|_| over()))
                    .unwrap_or_else(|| over());
                let within = (b.float() as i128).clamp(-top, top - 1);
                integer(i64::try_from(within).unwrap_or_else(|_| over()))
            }
            P::Difference => integer(
                i64::try_from(a.nat() as i128 - b.nat() as i128)
                    .unwrap_or_else(|_| stop("an integer over 63 bits".to_string())),
            ),
            P::Tab => {
                let n = b.short();
                let items = (0..n).map(|i| self.apply(a.clone(), vec![Value::Nat(i)])).collect();
                list(items)
            }
            _ => stop(format!("{primitive:?}: no primitive of two arguments")),
        }
    }

    fn three(&mut self, primitive: Primitive, a: Value, b: Value, c: Value) -> Value {
        match primitive {
            P::Cond => {
                if a.bool() {
                    b
                } else {
                    c
                }
            }
            P::MapOr => match b {
                Value::Data(SOME, parts) => self.apply(a, vec![parts[0].clone()]),
                Value::Tag(NONE) => c,
                _ => stop(OTHER_TYPE.to_string() + "an option is expected"),
            },
            P::GetD => a.items().get(b.index()).cloned().unwrap_or(c),
            P::Set => {
                if b.index() >= a.items().len() {
                    return a;
                }
                let Value::List(items, from) = a else {
                    stop(OTHER_TYPE.to_string() + "a list is expected")
                };
                let mut items = Rc::try_unwrap(items).unwrap_or_else(|items| (*items).clone());
                items[from as usize + b.index()] = c;
                Value::List(Rc::new(items), from)
            }
            P::Add => Value::Float(b.float() + c.float()),
            P::Sub => Value::Float(b.float() - c.float()),
            P::Mul => Value::Float(b.float() * c.float()),
            P::Div => Value::Float(b.float() / c.float()),
            P::Rem => Value::Float(b.float() % c.float()),
            P::Fin => Value::Float(whole(a.bool(), b.nat(), c.integer() as i64)),
            _ => stop(format!("{primitive:?}: no primitive of three arguments")),
        }
    }
}
