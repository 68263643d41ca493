//! Recorded answers, and the definitions beside them.

use crate::{
    program::{Native, Program},
    run::{bits, list, Machine, Primitive, Value},
    text::{stop, Entity, Stop, Texts, ERR, OK},
};
use std::{
    collections::BTreeMap,
    fs,
    panic::{catch_unwind, AssertUnwindSafe},
    path::Path,
    rc::Rc,
};

/// The words of a recorded list.
fn words(path: &Path) -> Vec<u64> {
    let text = fs::read_to_string(path).unwrap_or_else(|e| stop(format!("{}: {e}", path.display())));
    let word =
        |w: &str| u64::from_str_radix(w, 16).unwrap_or_else(|_| stop(format!("{}: `{w}` is no word", path.display())));
    text.split_ascii_whitespace().map(word).collect()
}

/// Rows of one length.
fn fixed(path: &Path, width: usize) -> Vec<Vec<u64>> {
    words(path).chunks_exact(width).map(<[u64]>::to_vec).collect()
}

/// Rows that say in their first word how long they are; words 0 between them are passed over.
fn parted(path: &Path) -> Vec<Vec<u64>> {
    let all = words(path);
    let mut rows = vec![];
    let mut at = 0;
    while at < all.len() {
        let many = (all[at] as usize).max(1);
        if all[at] > 0 {
            rows.push(all[at..(at + many).min(all.len())].to_vec());
        }
        at += many;
    }
    rows
}

fn four(word: u64) -> [usize; 4] {
    [48, 32, 16, 0].map(|shift| (word >> shift) as usize & 0xffff)
}

fn floats(words: &[u64]) -> Value {
    list(words.iter().map(|w| Value::Float(f64::from_bits(*w))).collect())
}

fn numbers(words: &[u64]) -> Value {
    list(words.iter().map(|w| Value::Nat(*w)).collect())
}

fn data(tag: u32, parts: Vec<Value>) -> Value {
    if parts.is_empty() {
        Value::Tag(tag)
    } else {
        Value::Data(tag, parts.into())
    }
}

/// The bits of a list of doubles.
fn patterns(value: &Value) -> Vec<u64> {
    value.items().iter().map(|x| bits(x.float())).collect()
}

/// What a lent slice holds before a call.
const MARK: f64 = -7.5;
const MARK_NUMBER: u64 = 0xdead_beef;

/// The definitions of a whole solve, over the machine, and how calls and answers are made of records and constructors.
pub struct Solver {
    pub program: Program,
    pub machine: Machine,
    solve: usize,
    pass: usize,
    guided: u32,
    unguided: u32,
    boundary: [u32; 3],
    leaves: BTreeMap<&'static str, usize>,
}

/// A recorded row, with the name of its kind.
pub struct Row {
    pub name: &'static str,
    /// Whether it is among the first of its list, or one of every so many.
    pub early: bool,
    words: Vec<u64>,
}

/// So many rows at the front of a list, among them those whose outcome is known, and every so many of the others are early ones.
const FIRST: usize = 120;
const SELDOM: usize = 40;

/// The kinds of leaves and scalars, with the list of each and how many words a row has.
const KINDS: [(&str, &str, usize); 16] = [
    ("sin", "sincos", 3),
    ("cos", "sincos", 3),
    ("atan2", "atan2", 3),
    ("sqrt", "sqrt", 2),
    ("mass", "mass", 3),
    ("dirichlet", "dirichlet", 6),
    ("diagonal", "diagonal", 10),
    ("cross", "cross", 3),
    ("weight", "weight", 2),
    ("geometry", "geometry", 15),
    ("transport", "transport", 15),
    ("wrap", "wrap", 2),
    ("guidance", "guidance", 3),
    ("probe", "probe", 64),
    ("singular", "singular", 32),
    ("refinements", "refinements", 256),
];

impl Row {
    /// The rows of the lists in these folders: the early ones, and every so many of the others; none of these where that is 0.
    pub fn all(folders: &[&Path], every: usize) -> Vec<Row> {
        let mut rows = vec![];
        let mut put = |name: &'static str, all: Vec<Vec<u64>>| {
            for (k, words) in all.into_iter().enumerate() {
                let early = k < FIRST || k % SELDOM == 0;
                if early || (every > 0 && k % every == 0) {
                    rows.push(Row { name, early, words });
                }
            }
        };
        for (name, file, width) in KINDS {
            for path in folders.iter().map(|f| f.join(file)).filter(|p| p.exists()) {
                put(name, fixed(&path, width));
            }
        }
        for name in ["passes", "solves"] {
            for path in folders.iter().map(|f| f.join(name)).filter(|p| p.exists()) {
                put(name, parted(&path));
            }
        }
        rows
    }
}

/// The definitions that the other recorded answers are compared with: a name for each here, its crate, its file, its name.
const LEAVES: [(&str, &str, &str, &str); 28] = [
    ("sin", "sine", "Sine", "sin_of"),
    ("cos", "sine", "Sine", "cos_of"),
    ("atan2", "arctangent", "Arc", "atan2_of"),
    ("sqrt", "root", "Root", "root_of"),
    ("mass", "integrals", "Integrals", "mass_integral"),
    ("dirichlet", "integrals", "Integrals", "dirichlet_integral"),
    ("diagonal", "integrals", "Integrals", "diagonal_at"),
    ("cross", "complex", "Angle", "cross_angle"),
    ("weight", "geometry", "Edge", "alignment_weight"),
    ("geometry", "geometry", "Triangle", "geometry"),
    ("gradient", "geometry", "Triangle", "gradient"),
    ("transport", "geometry", "Edge", "transport_of"),
    ("wrap", "complex", "Angle", "wrap_to_pi"),
    ("guidance", "complex", "Guidance", "mid_angle"),
    ("probe", "probe", "Probe", "probe_of"),
    ("probe's number", "probe", "Probe", "number"),
    ("probe's angle", "probe", "Probe", "angle_or"),
    ("singular", "singularities", "Count", "singularities"),
    ("singular's number", "singularities", "Count", "number"),
    ("singular's threes", "singularities", "Count", "threes"),
    ("singular's fives", "singularities", "Count", "fives"),
    ("check", "refine_call", "Call", "check_call"),
    ("answer", "refine_call", "Call", "answer_of"),
    ("left", "refine_call", "Call", "left"),
    ("refined", "refinement", "Floor", "refinement_of"),
    ("triangles", "refinement", "Floor", "tris_of"),
    ("corners", "refinement", "Floor", "corners_of"),
    ("ends", "refinement", "Floor", "ends_of"),
];

/// A record's fields must be these, so that a call is made whole.
fn same_fields(what: &str, found: Option<&Vec<(String, String)>>, wanted: &[&str]) {
    let found = found.unwrap_or_else(|| stop(format!("{what} is not there")));
    let mut found: Vec<String> = found.iter().map(|f| f.0.clone()).collect();
    let mut wanted: Vec<String> = wanted.iter().map(|w| w.to_string()).collect();
    found.sort();
    wanted.sort();
    if found != wanted {
        stop(format!(
            "{what} has the fields {found:?}, and calls are made with {wanted:?}"
        ));
    }
}

impl Solver {
    /// Reads the definitions; `leaves` says whether those of leaves and scalars too, where a solve does not reach them.
    pub fn new(root: &Path, leaves: bool) -> Self {
        let texts = Texts::read(root);
        let calls = texts.file("calls", "Solve");
        let solve = texts.definition(calls, "solve_of");
        let pass = texts.definition(texts.file("pass", "Pass"), "pass_of");
        let record = |name: &str| {
            let home = texts.home(calls, name);
            home.and_then(|(file, name)| texts.files[file].records.get(&name))
        };
        same_fields(
            "the record Call",
            record("Call"),
            &["points", "corners", "sizes", "options", "guidance", "iterations"],
        );
        same_fields("the record Lent", record("Lent"), &["coarse", "fine", "work", "words"]);
        same_fields(
            "the struct Options",
            texts.structs.get(&("pass_options".to_string(), "Options".to_string())),
            &[
                "accurate",
                "holomorphic",
                "anisotropy",
                "anisotropy_angle",
                "boundary",
                "adaptive",
            ],
        );
        let [guided, unguided] = ["guided", "unguided"].map(|name| texts.constructor(calls, name));
        let boundary = ["None", "Tangent", "Weak"].map(|v| texts.variant("pass_options", "BoundaryMode", v));
        let mut roots = vec![solve, pass];
        let mut named = BTreeMap::new();
        if leaves {
            for (key, c, file, name) in LEAVES {
                let d = texts.definition(texts.file(c, file), name);
                named.insert(key, d);
                roots.push(d);
            }
        }
        let natives = natives(&texts);
        let mut program = Program::new(texts, natives, &roots);
        let machine = program.machine();
        let mut solver = Solver {
            program,
            machine,
            solve,
            pass,
            guided,
            unguided,
            boundary,
            leaves: named,
        };
        solver.natives_hold();
        solver
    }

    /// Each native function beside its definition's own text, on small arguments.
    fn natives_hold(&mut self) {
        for native in std::mem::take(&mut self.program.natives) {
            let d = native.definition;
            let read = crate::parse::clauses(&self.program.texts, d);
            self.program.assume_strict(d, read[0].patterns.len());
            let (compiled, _) = self.program.compile(d, &read);
            self.machine.load(d, compiled);
            self.machine.set_shapes(self.program.shape_list.clone());
            let suc = || Value::Function(Rc::new(crate::run::Function::Primitive(Primitive::Suc, vec![])));
            for n in 0..40 {
                let by_text = self.machine.run(d, vec![suc(), Value::Nat(n)]);
                let by_native = self.machine.apply(
                    Value::Function(Rc::new(crate::run::Function::Primitive(native.primitive, vec![]))),
                    vec![suc(), Value::Nat(n)],
                );
                let numbers = |v: &Value| v.items().iter().map(Value::nat).collect::<Vec<_>>();
                if numbers(&by_text) != numbers(&by_native) {
                    stop(format!(
                        "`{}` is not what the native function computes",
                        self.program.texts.definitions[d].name
                    ));
                }
            }
            self.program.natives.push(native);
        }
        self.machine.forget();
    }

    /// One recorded call: empty where the definitions give the recorded outcome and slices, or in what they differ.
    pub fn compare(&mut self, row: &[u64]) -> String {
        let [points, corners, sizes, angles] = four(row[1]);
        let lent = four(row[2]);
        let [guided, accurate, mode, coarse] = four(row[3]);
        let [number, reason, pass, fine] = four(row[11]);
        let [place, other, flagged, cut] = four(row[12]);
        let double = |k: usize| Value::Float(f64::from_bits(row[k]));
        let mut at = 13;
        let mut take = |many: usize| {
            at += many;
            &row[at - many..at]
        };
        let point_list = floats(take(points));
        let size_list = floats(take(sizes));
        let angle_list = floats(take(angles));
        let corner_list = numbers(take(corners));
        let (coarse, fine) = (take(coarse), take(fine));
        let boundary = data(self.boundary[mode], if mode == 2 { vec![double(8)] } else { vec![] });
        let guidance = match guided {
            0 => data(self.unguided, vec![]),
            _ => data(self.guided, vec![double(4), angle_list]),
        };
        let options = self.program.record(vec![
            ("accurate", Value::Bool(accurate != 0)),
            ("holomorphic", double(5)),
            ("anisotropy", double(6)),
            ("anisotropy_angle", double(7)),
            ("boundary", boundary),
            ("adaptive", double(9)),
        ]);
        let call = self.program.record(vec![
            ("points", point_list),
            ("corners", corner_list),
            ("sizes", size_list),
            ("options", options),
            ("guidance", guidance),
            ("iterations", Value::Nat(row[10])),
        ]);
        let marks = |many: usize| list(vec![Value::Float(MARK); many]);
        let slices = self.program.record(vec![
            ("coarse", marks(lent[0])),
            ("fine", marks(lent[1])),
            ("work", marks(lent[2])),
            ("words", numbers(&vec![MARK_NUMBER; lent[3]])),
        ]);
        let names = [
            "outcome", "lent", "coarse", "fine", "work", "words", "flagged", "cut", "number", "reason", "pass",
            "place", "other",
        ]
        .map(|name| self.program.field(name));
        let [outcome_of, lent_of, coarse_of, fine_of, work_of, numbers_of, flagged_of, cut_of, number_of, reason_of, pass_of, place_of, other_of] =
            names;
        if self.program.shape_list.len() > 0 {
            self.machine.set_shapes(self.program.shape_list.clone());
        }
        self.machine.forget();
        let (solve, passes) = (
            self.solve,
            Value::Function(Rc::new(crate::run::Function::Definition(self.pass, vec![]))),
        );
        let machine = &mut self.machine;
        let ended = machine.run(solve, vec![passes, call, slices]);
        let mut differs = vec![];
        let outcome = machine.field(&ended, outcome_of);
        let Value::Data(tag, parts) = &outcome else {
            stop("an outcome with no part".to_string())
        };
        let part = |name: u32| machine.field(&parts[0], name).nat() as usize;
        let told = if *tag == OK {
            [0, 0, 0, 0, 0, part(flagged_of), part(cut_of)]
        } else {
            [
                part(number_of),
                part(reason_of),
                part(pass_of),
                part(place_of),
                part(other_of),
                0,
                0,
            ]
        };
        let wanted = [number, reason, pass, place, other, flagged, cut];
        if told != wanted {
            differs.push(format!("outcome {told:?}, recorded {wanted:?}"));
        }
        let left = machine.field(&ended, lent_of);
        for (name, field, recorded, many) in [("coarse", coarse_of, coarse, lent[0]), ("fine", fine_of, fine, lent[1])]
        {
            let got = patterns(&machine.field(&left, field));
            let mut want = recorded.to_vec();
            want.resize(many.max(want.len()), MARK.to_bits());
            if got != want {
                differs.push(format!("the {name} slice"));
            }
        }
        let early = (1..=18).contains(&number);
        let work = patterns(&machine.field(&left, work_of));
        if work != vec![if early { MARK.to_bits() } else { 0 }; lent[2]] {
            differs.push("the work slice".to_string());
        }
        let numbers: Vec<u128> = machine
            .field(&left, numbers_of)
            .items()
            .iter()
            .map(Value::nat)
            .collect();
        if numbers != vec![u128::from(if early { MARK_NUMBER } else { 0 }); lent[3]] {
            differs.push("the slice of numbers".to_string());
        }
        differs.join(", ")
    }

    /// A recorded row: empty where the definitions give what is recorded, or in what they differ, also where they stop.
    pub fn try_row(&mut self, row: &Row) -> String {
        let run = || match row.name {
            "passes" | "solves" => self.compare(&row.words),
            name => {
                self.machine.forget();
                let same = self.leaf(name, &row.words);
                if same {
                    String::new()
                } else {
                    format!("{:016x?}", row.words)
                }
            }
        };
        match catch_unwind(AssertUnwindSafe(run)) {
            Ok(differs) => differs,
            Err(cause) => match cause.downcast::<Stop>() {
                Ok(stop) => format!("stopped: {}", stop.0),
                Err(cause) => std::panic::resume_unwind(cause),
            },
        }
    }

    /// One recorded answer of a leaf or a scalar: whether the definition gives it.
    fn leaf(&mut self, name: &str, r: &[u64]) -> bool {
        match name {
            "sin" => self.doubles(name, &r[..1]) == r[1..2],
            "cos" => self.doubles(name, &r[..1]) == r[2..3],
            "atan2" => self.doubles(name, &r[..2]) == r[2..3],
            "sqrt" | "weight" | "wrap" => self.doubles(name, &r[..1]) == r[1..2],
            "guidance" => self.doubles(name, &r[..2]) == r[2..3],
            "mass" => self.doubles(name, &r[..1]) == r[1..3],
            "dirichlet" => self.doubles(name, &r[..4]) == r[4..6],
            "diagonal" => {
                let corners = [2, 4, 6].map(|k| self.pair(&r[k..k + 2]));
                let arguments = [vec![double(r[0]), double(r[1])], corners.to_vec()].concat();
                bits(self.machine.run(self.leaves[name], arguments).float()) == r[8]
            }
            "cross" => {
                let z = self.program.record(vec![("re", double(r[0])), ("im", double(r[1]))]);
                self.shaped();
                bits(self.machine.run(self.leaves[name], vec![z]).float()) == r[2]
            }
            "geometry" => self.geometry(r),
            "transport" => self.transport(r),
            "probe" => self.probe(r),
            "singular" => self.singular(r),
            "refinements" => self.refinement(r),
            _ => unreachable!(),
        }
    }

    fn geometry(&mut self, r: &[u64]) -> bool {
        let corners = [0, 2, 4].map(|k| self.pair(&r[k..k + 2]));
        let numbers = [0, 1, 2].map(Value::Nat);
        let arguments = [numbers.to_vec(), corners.to_vec(), vec![Value::Nat(7)]].concat();
        let Value::Data(tag, parts) = self.machine.run(self.leaves["geometry"], arguments) else {
            return false;
        };
        if tag == ERR {
            return r[9] == 19 && self.part(&parts[0], "triangle").nat() == 7;
        }
        let [p, q, third, area, second] = ["p", "q", "r", "area", "j"].map(|name| {
            let name = self.program.field(name);
            self.machine.field(&parts[0], name)
        });
        let sizes = [6, 7, 8].map(|k| double(r[k]));
        let arguments = [vec![p, q, third], sizes.to_vec(), vec![area.clone()]].concat();
        let gradient = self.machine.run(self.leaves["gradient"], arguments);
        let gradient = self.plain(&gradient, &["x", "y"]);
        r[9] == 0 && second.nat() == u128::from(r[10]) && bits(area.float()) == r[11] && gradient == r[12..14]
    }

    fn transport(&mut self, r: &[u64]) -> bool {
        let ends = [(3, 0, 4, 6), (5, 2, 5, 8)].map(|(vertex, at, size, gradient)| {
            let (position, gradient) = (self.pair(&r[at..at + 2]), self.pair(&r[gradient..gradient + 2]));
            let fields = [
                ("vertex", Value::Nat(vertex)),
                ("position", position),
                ("size", double(r[size])),
                ("gradient", gradient),
            ];
            self.program.record(fields.to_vec())
        });
        self.shaped();
        let Value::Data(tag, parts) = self.machine.run(self.leaves["transport"], ends.to_vec()) else {
            return false;
        };
        if tag == ERR {
            return r[10] == 22;
        }
        r[10] == 0 && self.plain(&parts[0], &["re", "im"]) == r[11..13]
    }

    /// The row of a probe: number 4 stands for an angle, which the definition numbers 0.
    fn probe(&mut self, r: &[u64]) -> bool {
        let [angles, points, corners] =
            [(7, r[0]), (15, r[1]), (39, r[2])].map(|(at, many)| &r[at..at + many as usize]);
        let at = self.pair(&r[3..5]);
        let found = self.machine.run(
            self.leaves["probe"],
            vec![floats(angles), floats(points), numbers(corners), at],
        );
        let number = self
            .machine
            .run(self.leaves["probe's number"], vec![found.clone()])
            .nat();
        let angle = self
            .machine
            .run(self.leaves["probe's angle"], vec![found, Value::Float(MARK)]);
        let (told, held) = if r[5] == 4 { (0, r[6]) } else { (r[5], MARK.to_bits()) };
        number == u128::from(told) && bits(angle.float()) == held
    }

    fn singular(&mut self, r: &[u64]) -> bool {
        let [angles, corners] = [(5, r[0]), (13, r[1])].map(|(at, many)| &r[at..at + many as usize]);
        let counted = self
            .machine
            .run(self.leaves["singular"], vec![floats(angles), numbers(corners)]);
        let number = self
            .machine
            .run(self.leaves["singular's number"], vec![counted.clone()])
            .nat();
        let mut count = |name: &str| {
            let held = Value::Nat(MARK_NUMBER);
            self.machine.run(self.leaves[name], vec![counted.clone(), held]).nat()
        };
        let counts = [count("singular's threes"), count("singular's fives")];
        let held = if r[2] == 0 { [r[3], r[4]] } else { [MARK_NUMBER; 2] };
        number == u128::from(r[2]) && counts == held.map(u128::from)
    }

    /// A call of refinement on marked slices: its answer, and what they hold afterwards.
    fn refinement(&mut self, r: &[u64]) -> bool {
        let many = |k: usize| r[k] as usize;
        let points = floats(&r[15..15 + many(0)]);
        let corners = numbers(&r[55..55 + many(1)]);
        let sizes = floats(&r[39..39 + many(2)]);
        let angles = floats(&r[47..47 + many(3)]);
        let lengths = [3, 5, 6, 7, 8].map(|k| Value::Nat(r[k]));
        let [angle_count, lengths @ ..] = lengths;
        let mut arguments = vec![
            points.clone(),
            corners.clone(),
            sizes.clone(),
            angle_count,
            double(r[4]),
        ];
        arguments.extend(lengths);
        let check = self.machine.run(self.leaves["check"], arguments);
        let triangles = self.machine.run(self.leaves["triangles"], vec![corners]);
        let refined = self.machine.run(
            self.leaves["refined"],
            vec![double(r[4]), angles, points, sizes, triangles],
        );
        let answer = self
            .machine
            .run(self.leaves["answer"], vec![check.clone(), refined.clone()]);
        let Value::Data(tag, parts) = answer else { return false };
        let told: Vec<u128> = if tag == OK {
            let counts = ["points", "triangles", "flagged", "cut"].map(|name| self.part(&parts[0], name).nat());
            [vec![0, 0], counts.to_vec()].concat()
        } else {
            let told = ["number", "place"].map(|name| self.part(&parts[0], name).nat());
            [told.to_vec(), vec![0; 4]].concat()
        };
        if told != r[9..15].iter().map(|w| u128::from(*w)).collect::<Vec<_>>() {
            return false;
        }
        let [points, sizes, triangles, cut] =
            ["points", "sizes", "triangles", "cut"].map(|name| self.part(&refined, name));
        let corners = self.machine.run(self.leaves["corners"], vec![triangles]);
        let ends = self.machine.run(self.leaves["ends"], vec![cut]);
        let made = if tag == OK {
            [3 * r[11], r[11], 3 * r[12], 2 * r[14]]
        } else {
            [0; 4]
        };
        let reals = [(points, 70, r[5], made[0]), (sizes, 139, r[6], made[1])];
        let words = [(corners, 162, r[7], made[2]), (ends, 222, r[8], made[3])];
        let as_recorded = |at: usize, lent: u64, made: u64, mark: u64| {
            let mut slice = r[at..at + made as usize].to_vec();
            slice.resize(lent.max(made) as usize, mark);
            slice
        };
        reals.into_iter().all(|(new, at, lent, made)| {
            let old = floats(&vec![MARK.to_bits(); lent as usize]);
            let left = self.machine.run(self.leaves["left"], vec![check.clone(), new, old]);
            patterns(&left) == as_recorded(at, lent, made, MARK.to_bits())
        }) && words.into_iter().all(|(new, at, lent, made)| {
            let old = numbers(&vec![MARK_NUMBER; lent as usize]);
            let left = self.machine.run(self.leaves["left"], vec![check.clone(), new, old]);
            let left: Vec<u128> = left.items().iter().map(Value::nat).collect();
            left == as_recorded(at, lent, made, MARK_NUMBER)
                .into_iter()
                .map(u128::from)
                .collect::<Vec<_>>()
        })
    }

    /// A record's field.
    fn part(&mut self, record: &Value, name: &str) -> Value {
        let name = self.program.field(name);
        self.machine.field(record, name)
    }

    fn shaped(&mut self) {
        self.machine.set_shapes(self.program.shape_list.clone());
    }

    fn pair(&mut self, words: &[u64]) -> Value {
        let pair = self
            .program
            .record(vec![("x", double(words[0])), ("y", double(words[1]))]);
        self.shaped();
        pair
    }

    /// The bits of a record's fields.
    fn plain(&mut self, value: &Value, names: &[&str]) -> Vec<u64> {
        let fields = names.iter().map(|name| self.program.field(name)).collect::<Vec<_>>();
        fields
            .iter()
            .map(|name| bits(self.machine.field(value, *name).float()))
            .collect()
    }

    /// A definition of doubles, whose answer is a double or a complex number.
    fn doubles(&mut self, name: &str, arguments: &[u64]) -> Vec<u64> {
        let got = self
            .machine
            .run(self.leaves[name], arguments.iter().map(|w| double(*w)).collect());
        match got {
            Value::Float(x) => vec![bits(x)],
            got => self.plain(&got, &["re", "im"]),
        }
    }
}

fn double(word: u64) -> Value {
    Value::Float(f64::from_bits(word))
}

/// The definitions that a function of this program stands in for, where they are there.
fn natives(texts: &Texts) -> Vec<Native> {
    match texts.meaning(texts.file("linear_cells", "Region"), "tab") {
        Some(Entity::Definition(definition)) => vec![Native {
            definition,
            primitive: Primitive::Tab,
        }],
        _ => vec![],
    }
}
