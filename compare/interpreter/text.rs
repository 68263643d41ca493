//! The definitions as text: files of crates/*/specs, their tokens, what each declares, and what a name means in a file.

use std::{collections::HashMap, fs, path::Path, path::PathBuf};

/// Ends the program, or the change that is tried, by a message.
pub struct Stop(pub String);

pub fn stop(message: String) -> ! {
    std::panic::panic_any(Stop(message))
}

#[derive(Clone, Debug)]
pub struct Token {
    pub text: String,
    pub line: usize,
    pub column: usize,
    /// Whether a blank, or a line's beginning, stands before it.
    pub spaced: bool,
    /// Whether it is written «so», and is a name whatever it spells.
    pub escaped: bool,
}

impl Token {
    pub fn is(&self, text: &str) -> bool {
        !self.escaped && self.text == text
    }
}

struct Line {
    indent: usize,
    tokens: Vec<Token>,
}

const SINGLE: &str = "(){}.;,@";

/// The lines that have tokens; comments are left out.
fn lines(path: &Path, text: &str) -> Vec<Line> {
    let mut all = vec![];
    let mut comment = false;
    for (number, source) in text.lines().enumerate() {
        let chars: Vec<char> = source.chars().collect();
        let mut tokens: Vec<Token> = vec![];
        let mut i = 0;
        let mut spaced = true;
        while i < chars.len() {
            let rest = |s: &str| s.chars().enumerate().all(|(k, c)| chars.get(i + k) == Some(&c));
            if comment {
                comment = !rest("-}");
                i += if comment { 1 } else { 2 };
                continue;
            }
            if chars[i].is_whitespace() {
                spaced = true;
                i += 1;
                continue;
            }
            if rest("--") {
                break;
            }
            if rest("{-") {
                comment = true;
                i += 2;
                continue;
            }
            let from = i;
            let mut escaped = false;
            let word: String = if chars[i] == '«' {
                escaped = true;
                while i < chars.len() && chars[i] != '»' {
                    i += 1;
                }
                i += 1;
                chars[from + 1..(i - 1).min(chars.len())].iter().collect()
            } else if SINGLE.contains(chars[i]) {
                i += 1;
                chars[from].to_string()
            } else if chars[i] == '"' {
                // a text is one token, which no recorded row needs the value of
                i += 1;
                while i < chars.len() && chars[i] != '"' {
                    i += if chars[i] == '\\' { 2 } else { 1 };
                }
                i = (i + 1).min(chars.len());
                chars[from..i].iter().collect()
            } else if chars[i] == '»' {
                stop(format!(
                    "{}:{}: `{}` is not understood",
                    path.display(),
                    number + 1,
                    chars[i]
                ))
            } else {
                while i < chars.len()
                    && !chars[i].is_whitespace()
                    && !SINGLE.contains(chars[i])
                    && !"\"«»".contains(chars[i])
                {
                    i += 1;
                }
                chars[from..i].iter().collect()
            };
            tokens.push(Token {
                text: word,
                line: number + 1,
                column: from + 1,
                spaced,
                escaped,
            });
            spaced = false;
        }
        if let Some(first) = tokens.first() {
            all.push(Line {
                indent: first.column - 1,
                tokens,
            });
        }
    }
    all
}

/// A module that a `use` names.
#[derive(Clone, Debug, PartialEq)]
pub enum Module {
    /// crates/C/specs/F.antt, as C and F.
    Specs(String, String),
    /// A type that is generated from crates/C/src, as C and its path; or its constructors.
    Declared(String, String),
    Variants(String, String),
    Library(String),
}

/// A path such as Rattle.mesh.specs.Mesh: a crate's, or the library's own, std.
fn module(words: &[String]) -> Module {
    let (name, path) = match words {
        [top, name, specs, path @ ..] if top == "Rattle" && name != "std" && specs == "specs" => (name.clone(), path),
        _ => return Module::Library(words.join(".")),
    };
    match path {
        [declared, path @ .., last] if declared == "declared" && last == "TheVariants" => {
            Module::Variants(name, path.join("."))
        }
        [declared, path @ ..] if declared == "declared" => Module::Declared(name, path.join(".")),
        path => Module::Specs(name, path.join(".")),
    }
}

/// What a name means.
#[derive(Clone, Debug, PartialEq)]
pub enum Entity {
    Definition(usize),
    Constructor(u32),
    /// A record, a data type or a generated type.
    Type(String),
    Library(String),
}

/// A constructor of a data type or of a generated enum.
pub struct Constructor {
    pub name: String,
    pub arity: usize,
    /// The types of its arguments, as they are written.
    pub types: Vec<String>,
}

/// A definition: its signature, and its clauses as tokens.
pub struct Definition {
    pub name: String,
    pub file: usize,
    pub line: usize,
    pub signature: Vec<Token>,
    pub clauses: Vec<Vec<Token>>,
    /// Why it cannot be read, if so.
    pub fault: Option<String>,
}

#[derive(Default)]
pub struct File {
    pub path: PathBuf,
    names: HashMap<String, Entity>,
    uses: HashMap<String, (Module, String)>,
    passed_on: Vec<String>,
    aliases: HashMap<String, Module>,
    fixities: HashMap<String, Fixity>,
    /// The fields of its records, with their types.
    pub records: HashMap<String, Vec<(String, String)>>,
    /// The tokens of its records and data types, with the types of their fields.
    pub types: HashMap<String, Vec<Token>>,
}

#[derive(Clone, Copy, PartialEq)]
pub enum Side {
    Left,
    Right,
    None,
}

pub type Fixity = (usize, Side);

/// The library's operators.
const LIBRARY_FIXITIES: [(&str, usize, Side); 14] = [
    ("◌||◌", 30, Side::Left),
    ("◌&&◌", 35, Side::Left),
    ("◌==◌", 40, Side::None),
    ("◌≡◌", 4, Side::None),
    ("◌≤◌", 50, Side::None),
    ("◌<◌", 50, Side::None),
    ("◌+◌", 65, Side::Left),
    ("◌-◌", 65, Side::Left),
    ("◌++◌", 65, Side::Left),
    ("◌∷◌", 67, Side::Right),
    ("◌*◌", 70, Side::Left),
    ("◌/◌", 70, Side::Left),
    ("◌%◌", 70, Side::Left),
    ("◌^◌", 75, Side::Right),
];

/// The library's constructors that are ordinary data here: `none` and `some`, then these, and `tt`, which no `use` brings in.
pub const POS: u32 = 2;
pub const NEGSUC: u32 = 3;
pub const NONE: u32 = 4;
pub const SOME: u32 = 5;
pub const OK: u32 = 6;
pub const ERR: u32 = 7;
const UNIT: u32 = 8;
const LIBRARY_CONSTRUCTORS: [(&str, &str, usize); 9] = [
    ("Rattle.std.proofs.Math.Option.none", "none", 0),
    ("Rattle.std.proofs.Math.Option.some", "some", 1),
    ("Rattle.std.specs.Prelude.pos", "pos", 1),
    ("Rattle.std.specs.Prelude.negsuc", "negsuc", 1),
    ("Rattle.std.specs.Prelude.None", "None", 0),
    ("Rattle.std.specs.Prelude.Some", "Some", 1),
    ("Rattle.std.specs.Prelude.Ok", "Ok", 1),
    ("Rattle.std.specs.Prelude.Err", "Err", 1),
    ("tt", "tt", 0),
];

/// All definitions.
#[derive(Default)]
pub struct Texts {
    pub files: Vec<File>,
    by_module: HashMap<(String, String), usize>,
    pub definitions: Vec<Definition>,
    pub constructors: Vec<Constructor>,
    /// Generated enums: the constructors of each by name; and generated structs: the fields of each.
    enums: HashMap<(String, String), HashMap<String, u32>>,
    pub structs: HashMap<(String, String), Vec<(String, String)>>,
}

/// Where the item that begins at a line ends: lines of a larger indent go on, and any line while a bracket is open.
fn item_end(all: &[Line], from: usize, indent: usize) -> usize {
    let depth = |line: &Line| -> i32 {
        let open = |t: &Token| i32::from(t.is("(") || t.is("{")) - i32::from(t.is(")") || t.is("}"));
        line.tokens.iter().map(open).sum()
    };
    let mut end = from + 1;
    let mut open = depth(&all[from]);
    while end < all.len() && (all[end].indent > indent || open > 0) {
        open += depth(&all[end]);
        end += 1;
    }
    end
}

/// The tokens that stand outside of brackets.
fn outermost(tokens: &[Token]) -> impl Iterator<Item = (usize, &Token)> {
    let mut depth = 0;
    tokens.iter().enumerate().filter(move |(_, t)| {
        if t.is("(") || t.is("{") {
            depth += 1;
        } else if t.is(")") || t.is("}") {
            depth -= 1;
            return false;
        }
        depth == 0
    })
}

/// The first of these tokens outside of brackets.
pub fn first_of(tokens: &[Token], words: &[&str]) -> Option<usize> {
    outermost(tokens)
        .find(|(_, t)| words.iter().any(|w| t.is(w)))
        .map(|(i, _)| i)
}

/// Tokens, one blank between two.
fn spelled_out(tokens: &[Token]) -> String {
    tokens.iter().map(|t| t.text.as_str()).collect::<Vec<_>>().join(" ")
}

/// The types of the explicit arguments that a type takes.
pub fn types(signature: &[Token]) -> Vec<String> {
    let mut rest = signature;
    let mut all = vec![];
    while let Some(arrow) = first_of(rest, &["→"]) {
        let part = &rest[..arrow];
        let mut i = 0;
        // `(x y : A) {z : B}`, or a type
        let mut named = vec![];
        let mut binders = true;
        while i < part.len() {
            let close = |open: usize| {
                let mut depth = 0;
                let closes = |k: &usize| {
                    depth += i32::from(part[*k].is("(") || part[*k].is("{"))
                        - i32::from(part[*k].is(")") || part[*k].is("}"));
                    depth == 0
                };
                (open..part.len()).find(closes).unwrap_or(part.len() - 1)
            };
            if part[i].is("{") {
                i = close(i) + 1;
            } else if part[i].is("(") {
                let end = close(i);
                match first_of(&part[i + 1..end], &[":"]) {
                    Some(colon) => named.extend(vec![spelled_out(&part[i + 2 + colon..end]); colon]),
                    None => binders = false,
                }
                i = end + 1;
            } else {
                binders = false;
                i += 1;
            }
        }
        if binders {
            all.extend(named);
        } else {
            all.push(spelled_out(part));
        }
        rest = &rest[arrow + 1..];
    }
    all
}

/// What a type comes to after its arguments.
pub fn result(signature: &[Token]) -> String {
    let mut rest = signature;
    while let Some(arrow) = first_of(rest, &["→"]) {
        rest = &rest[arrow + 1..];
    }
    spelled_out(rest)
}

fn sorted(folder: &Path, extension: &str) -> Vec<PathBuf> {
    let mut found = vec![];
    for entry in fs::read_dir(folder).into_iter().flatten().flatten() {
        let path = entry.path();
        if path.is_dir() {
            found.extend(sorted(&path, extension));
        } else if path.extension().is_some_and(|e| e == extension) {
            found.push(path);
        }
    }
    found.sort();
    found
}

impl Texts {
    /// Reads crates/*/specs and the types of crates/*/src.
    pub fn read(root: &Path) -> Self {
        let mut texts = Texts::default();
        for (_, name, arity) in LIBRARY_CONSTRUCTORS {
            texts.constructors.push(Constructor {
                name: name.to_string(),
                arity,
                types: vec![],
            });
        }
        let mut crates: Vec<PathBuf> = fs::read_dir(root.join("crates"))
            .unwrap_or_else(|e| stop(format!("{}: {e}", root.join("crates").display())))
            .flatten()
            .map(|entry| entry.path())
            .collect();
        crates.sort();
        for folder in crates {
            let name = folder.file_name().unwrap_or_default().to_string_lossy().to_string();
            for path in sorted(&folder.join("src"), "rt") {
                texts.generated(&name, &folder.join("src"), &path);
            }
            for path in sorted(&folder.join("specs"), "antt") {
                let inner = path
                    .strip_prefix(folder.join("specs"))
                    .expect("a path below")
                    .with_extension("");
                let key = inner.to_string_lossy().replace('/', ".");
                let text = fs::read_to_string(&path).unwrap_or_else(|e| stop(format!("{}: {e}", path.display())));
                let shown = path.strip_prefix(root).unwrap_or(&path).to_path_buf();
                let number = texts.files.len();
                texts.by_module.insert((name.clone(), key), number);
                texts.files.push(File {
                    path: shown.clone(),
                    ..File::default()
                });
                texts.declare(number, &lines(&shown, &text), false);
            }
        }
        texts
    }

    /// The structs and enums of a source file, whose types antt sees as generated ones.
    fn generated(&mut self, name: &str, folder: &Path, path: &Path) {
        let text = fs::read_to_string(path).unwrap_or_else(|e| stop(format!("{}: {e}", path.display())));
        let inner = path.strip_prefix(folder).expect("a path below").with_extension("");
        let mut prefix: Vec<String> = inner.iter().map(|part| part.to_string_lossy().to_string()).collect();
        if prefix
            .last()
            .is_some_and(|last| last == "lib" || last == "main" || last == "mod")
        {
            prefix.pop();
        }
        let clean: String = text
            .lines()
            .map(|l| l.split("//").next().unwrap_or("").to_string() + " ")
            .collect();
        let mut rest = clean.as_str();
        loop {
            let next = ["struct ", "enum "]
                .iter()
                .filter_map(|word| rest.find(word).map(|at| (at, *word)))
                .min_by_key(|found| found.0);
            let Some((at, word)) = next else { break };
            let bounded = rest[..at].chars().next_back().is_none_or(char::is_whitespace);
            rest = &rest[at + word.len()..];
            let Some(end) = rest.find(['{', '(', ';', '\'']) else {
                break;
            };
            let item = rest[..end].trim().to_string();
            if !bounded || item.is_empty() || item.contains(' ') || !rest[end..].starts_with('{') {
                continue;
            }
            let mut open = 0;
            let close = rest[end..].find(|c| {
                open += i32::from(c == '{') - i32::from(c == '}');
                open == 0
            });
            let Some(close) = close else { break };
            let body = &rest[end + 1..end + close];
            let key = (name.to_string(), [prefix.clone(), vec![item]].concat().join("."));
            let mut depth = 0;
            let parts = body.split(|c| {
                depth += i32::from("([<{".contains(c)) - i32::from(")]>}".contains(c));
                c == ',' && depth == 0
            });
            let parts: Vec<&str> = parts.map(str::trim).filter(|part| !part.is_empty()).collect();
            if word == "struct " {
                let field = |part: &&str| {
                    let (name, of) = part.split_once(':').unwrap_or((part, ""));
                    (name.replace("pub ", "").trim().to_string(), of.trim().to_string())
                };
                self.structs.insert(key, parts.iter().map(field).collect());
            } else {
                let mut variants = HashMap::new();
                for part in parts {
                    let (variant, fields) = part.split_once(['(', '{']).unwrap_or((part, ""));
                    let fields = fields.trim_end().trim_end_matches([')', '}']);
                    let mut depth = 0;
                    let commas = |c| {
                        depth += i32::from("([<".contains(c)) - i32::from(")]>".contains(c));
                        c == ',' && depth == 0
                    };
                    let types: Vec<String> = fields
                        .split(commas)
                        .map(|f| f.split_once(':').map_or(f, |(_, of)| of).trim().to_string())
                        .filter(|f| !f.is_empty())
                        .collect();
                    variants.insert(variant.trim().to_string(), self.constructors.len() as u32);
                    self.constructors.push(Constructor {
                        name: variant.trim().to_string(),
                        arity: types.len(),
                        types,
                    });
                }
                self.enums.insert(key, variants);
            }
        }
    }

    /// What the lines declare, one item for each line of the least indent and those below it.
    fn declare(&mut self, file: usize, all: &[Line], faulty: bool) {
        let Some(indent) = all.iter().map(|l| l.indent).min() else {
            return;
        };
        let mut i = 0;
        let mut current: Option<usize> = None;
        while i < all.len() {
            let end = item_end(all, i, indent);
            let item = &all[i..end];
            let head = &item[0].tokens;
            let tokens: Vec<Token> = item.iter().flat_map(|l| l.tokens.iter().cloned()).collect();
            let marks = head
                .iter()
                .take_while(|t| ["pub", "abbrev", "unfoldable", "axiom"].iter().any(|m| t.is(m)))
                .count();
            let public = head[..marks].iter().any(|t| t.is("pub"));
            let word = head
                .get(marks)
                .map_or("", |t| if t.escaped { "" } else { t.text.as_str() });
            match word {
                "use" => self.uses(file, &tokens[marks + 1..], public),
                "mod" | "unfolding" | "open" | "ruleset" => {}
                "infix" | "infixl" | "infixr" => {
                    let side = [("infix", Side::None), ("infixl", Side::Left), ("infixr", Side::Right)];
                    let side = side.iter().find(|s| s.0 == word).expect("one of three").1;
                    let level = tokens[marks + 1].text.parse().unwrap_or(0);
                    for op in &tokens[marks + 2..] {
                        self.files[file].fixities.insert(op.text.clone(), (level, side));
                    }
                }
                "module" | "mutual" => {
                    let until = head.iter().position(|t| t.is("where")).unwrap_or(head.len());
                    let explicit = head[..until].iter().any(|t| t.is("("));
                    self.declare(file, &item[1..], faulty || explicit);
                }
                "record" | "data" => {
                    let name = tokens[marks + 1].text.clone();
                    let spelled = format!("{}:{}", self.files[file].path.display(), name);
                    self.files[file].names.insert(name.clone(), Entity::Type(spelled));
                    if word == "data" {
                        self.constructors_of(file, &item[1..]);
                    } else {
                        let field = |l: &Line| {
                            let colon = first_of(&l.tokens, &[":"])?;
                            Some((l.tokens[colon - 1].text.clone(), spelled_out(&l.tokens[colon + 1..])))
                        };
                        let least = item[1..].iter().map(|l| l.indent).min();
                        let fields = item[1..]
                            .iter()
                            .filter(|l| Some(l.indent) == least)
                            .filter_map(field)
                            .collect();
                        self.files[file].records.insert(name.clone(), fields);
                    }
                    self.files[file].types.insert(name, tokens);
                    current = None;
                }
                _ => match first_of(&tokens[marks..], &[":", "="]).map(|at| at + marks) {
                    Some(at) if tokens[at].is(":") => {
                        let name = tokens[marks].text.clone();
                        let fault = faulty.then(|| "a definition of a module with explicit parameters".to_string());
                        current = Some(self.definitions.len());
                        self.files[file]
                            .names
                            .insert(name.clone(), Entity::Definition(self.definitions.len()));
                        let (line, signature) = (tokens[0].line, tokens[at + 1..].to_vec());
                        self.definitions.push(Definition {
                            name,
                            file,
                            line,
                            signature,
                            clauses: vec![],
                            fault,
                        });
                    }
                    _ => match current {
                        Some(definition) => self.definitions[definition].clauses.push(tokens),
                        None => stop(self.at(file, &tokens[0], "no signature stands before it")),
                    },
                },
            }
            i = end;
        }
    }

    fn constructors_of(&mut self, file: usize, body: &[Line]) {
        let Some(indent) = body.iter().map(|l| l.indent).min() else {
            return;
        };
        let mut i = 0;
        while i < body.len() {
            let end = item_end(body, i, indent);
            let tokens: Vec<Token> = body[i..end].iter().flat_map(|l| l.tokens.iter().cloned()).collect();
            let Some(colon) = first_of(&tokens, &[":"]) else {
                stop(self.at(file, &tokens[0], "a constructor has no type"))
            };
            for name in tokens[..colon].iter().filter(|t| !t.is("pub")) {
                let tag = self.constructors.len() as u32;
                let types = types(&tokens[colon + 1..]);
                self.constructors.push(Constructor {
                    name: name.text.clone(),
                    arity: types.len(),
                    types,
                });
                self.files[file]
                    .names
                    .insert(name.text.clone(), Entity::Constructor(tag));
            }
            i = end;
        }
    }

    fn uses(&mut self, file: usize, tokens: &[Token], public: bool) {
        let mut path = vec![];
        let mut i = 0;
        while i < tokens.len() && !tokens[i].is("{") && !tokens[i].is("as") {
            if !tokens[i].is(".") {
                path.push(tokens[i].text.clone());
            }
            i += 1;
        }
        let module = module(&path);
        let known = &mut self.files[file];
        match tokens.get(i) {
            Some(t) if t.is("{") => {
                for part in tokens[i + 1..].split(|t| t.is(",") || t.is("}")) {
                    let (Some(name), Some(here)) = (part.first(), part.last()) else {
                        continue;
                    };
                    known
                        .uses
                        .insert(here.text.clone(), (module.clone(), name.text.clone()));
                    if public {
                        known.passed_on.push(here.text.clone());
                    }
                }
            }
            Some(_) => {
                known.aliases.insert(tokens[i + 1].text.clone(), module);
            }
            None => {
                known.aliases.insert(path.last().cloned().unwrap_or_default(), module);
            }
        }
    }

    /// A message about a token of a file.
    pub fn at(&self, file: usize, token: &Token, what: &str) -> String {
        format!(
            "{}:{}: `{}`: {what}",
            self.files[file].path.display(),
            token.line,
            token.text
        )
    }

    pub fn file(&self, name: &str, path: &str) -> usize {
        let key = (name.to_string(), path.to_string());
        *self
            .by_module
            .get(&key)
            .unwrap_or_else(|| stop(format!("crates/{name}/specs/{path}.antt is not there")))
    }

    /// What a name means among those that a module gives to others.
    pub fn within(&self, module: &Module, name: &str) -> Option<Entity> {
        match module {
            Module::Specs(c, path) => {
                let file = *self.by_module.get(&(c.clone(), path.clone()))?;
                let known = &self.files[file];
                known.names.get(name).cloned().or_else(|| {
                    let on = known.passed_on.iter().any(|n| n == name);
                    on.then(|| self.meaning(file, name)).flatten()
                })
            }
            Module::Variants(c, path) => {
                let variants = self.enums.get(&(c.clone(), path.clone()))?;
                variants.get(name).map(|&tag| Entity::Constructor(tag))
            }
            Module::Declared(c, path) => Some(Entity::Type(format!("{c}.{path}"))),
            Module::Library(path) => {
                let whole = format!("{path}.{name}");
                let tag = LIBRARY_CONSTRUCTORS.iter().position(|c| c.0 == whole);
                Some(tag.map_or(Entity::Library(whole), |tag| Entity::Constructor(tag as u32)))
            }
        }
    }

    /// What a name means in a file.
    pub fn meaning(&self, file: usize, name: &str) -> Option<Entity> {
        let known = &self.files[file];
        if let Some(entity) = known.names.get(name) {
            return Some(entity.clone());
        }
        match known.uses.get(name) {
            Some((module, original)) => self.within(module, original),
            None => (name == "tt").then_some(Entity::Constructor(UNIT)),
        }
    }

    pub fn alias(&self, file: usize, name: &str) -> Option<&Module> {
        self.files[file].aliases.get(name)
    }

    /// How an infix name binds, where it is one in this file.
    pub fn fixity(&self, file: usize, name: &str) -> Option<Fixity> {
        let whole = format!("◌{name}◌");
        match self.meaning(file, &whole)? {
            Entity::Definition(d) => self.files[self.definitions[d].file]
                .fixities
                .get(&self.definitions[d].name)
                .copied(),
            Entity::Library(path) => {
                let name = path.rsplit('.').next().unwrap_or("");
                LIBRARY_FIXITIES.iter().find(|f| f.0 == name).map(|f| (f.1, f.2))
            }
            _ => None,
        }
    }

    /// A definition by its file and name.
    pub fn definition(&self, file: usize, name: &str) -> usize {
        match self.meaning(file, name) {
            Some(Entity::Definition(d)) => d,
            _ => stop(format!("{}: no definition `{name}`", self.files[file].path.display())),
        }
    }

    pub fn constructor(&self, file: usize, name: &str) -> u32 {
        match self.meaning(file, name) {
            Some(Entity::Constructor(tag)) => tag,
            _ => stop(format!("{}: no constructor `{name}`", self.files[file].path.display())),
        }
    }

    /// A constructor of a generated enum.
    pub fn variant(&self, name: &str, of: &str, variant: &str) -> u32 {
        match self.within(&Module::Variants(name.to_string(), of.to_string()), variant) {
            Some(Entity::Constructor(tag)) => tag,
            _ => stop(format!("crates/{name}/src: no enum {of} with the variant {variant}")),
        }
    }

    /// The file and the name of a record or data type of specs/ that a name means in a file.
    pub fn home(&self, file: usize, name: &str) -> Option<(usize, String)> {
        let known = &self.files[file];
        if known.types.contains_key(name) {
            return Some((file, name.to_string()));
        }
        match known.uses.get(name)? {
            (Module::Specs(c, path), original) => {
                let other = *self.by_module.get(&(c.clone(), path.clone()))?;
                self.files[other]
                    .types
                    .contains_key(original)
                    .then(|| (other, original.clone()))
            }
            _ => None,
        }
    }
}
