//! Terms and patterns from tokens, as antt reads them: application, operators by their fixities, `λ`, `let`, `record`, tuples, fields, `elim`.

use crate::text::{first_of, stop, Entity, Module, Side, Texts, Token};

/// A term. The token says where it stands.
#[derive(Clone, Debug)]
pub enum Term {
    Name(Token),
    /// A name of a module that has an alias here.
    Qualified(Module, Token),
    /// What is meant, whatever names are in scope.
    Meant(Entity, Token),
    Number(u128, Token),
    Apply(Box<Term>, Vec<Term>),
    Lambda(Vec<Pattern>, Box<Term>),
    Let(Pattern, Box<Term>, Box<Term>),
    Field(Box<Term>, Token),
    Record(Vec<(String, Term)>),
    Infix(Token, Box<Term>, Box<Term>),
    Cases(Box<Term>, Vec<(Pattern, Term)>),
}

#[derive(Clone, Debug)]
pub enum Pattern {
    Any,
    Name(Token),
    Number(u128),
    Constructor(Entity, Token, Vec<Pattern>),
    Record(Vec<(String, Pattern)>),
}

#[derive(Clone, Debug)]
pub struct Clause {
    pub patterns: Vec<Pattern>,
    pub body: Term,
}

/// A numeral, in decimal, hexadecimal, octal or binary.
fn number(text: &str) -> Option<u128> {
    let digits = text.replace('_', "");
    let radix = [("0x", 16), ("0o", 8), ("0b", 2)];
    match radix.iter().find(|r| digits.starts_with(r.0)) {
        Some((prefix, radix)) => u128::from_str_radix(&digits[prefix.len()..], *radix).ok(),
        None => digits.parse().ok(),
    }
}

fn is_number(token: &Token) -> bool {
    !token.escaped && token.text.starts_with(|c: char| c.is_ascii_digit())
}

const ENDS: [&str; 14] = [
    ")", "}", "]", ";", ",", "=", "in", ".", ":", "|", "↦", "where", "→", "as",
];

pub struct Parser<'a> {
    texts: &'a Texts,
    file: usize,
    tokens: &'a [Token],
    at: usize,
    /// What is bound here, so that it is no constructor and no operator.
    bound: Vec<String>,
}

impl<'a> Parser<'a> {
    fn new(texts: &'a Texts, file: usize, tokens: &'a [Token]) -> Self {
        Self {
            texts,
            file,
            tokens,
            at: 0,
            bound: vec![],
        }
    }

    fn peek(&self) -> Option<&'a Token> {
        self.tokens.get(self.at)
    }

    fn sees(&self, text: &str) -> bool {
        self.peek().is_some_and(|t| t.is(text))
    }

    fn next(&mut self) -> &'a Token {
        let token = self.peek().unwrap_or_else(|| self.fail("a term ends too early"));
        self.at += 1;
        token
    }

    fn fail(&self, what: &str) -> ! {
        match self.tokens.get(self.at.min(self.tokens.len().saturating_sub(1))) {
            Some(token) => stop(self.texts.at(self.file, token, what)),
            None => stop(format!("{}: {what}", self.texts.files[self.file].path.display())),
        }
    }

    fn expect(&mut self, text: &str) {
        if !self.sees(text) {
            self.fail(&format!("`{text}` is expected here"));
        }
        self.at += 1;
    }

    /// Passes over brackets and what is in them.
    fn skip(&mut self) {
        let mut depth = 0;
        loop {
            let token = self.next();
            depth += i32::from(token.is("(") || token.is("{")) - i32::from(token.is(")") || token.is("}"));
            if depth == 0 {
                return;
            }
        }
    }

    /// Passes over a type, up to this token outside of brackets.
    fn skip_type(&mut self, end: &str) {
        while !self.sees(end) {
            if self.sees("(") || self.sees("{") {
                self.skip();
            } else {
                self.next();
            }
        }
    }

    fn dotted(&self) -> bool {
        // `r.f` or `alias.name`, tight on both sides
        self.sees(".") && !self.tokens[self.at].spaced && self.tokens.get(self.at + 1).is_some_and(|t| !t.spaced)
    }

    /// A name, with the alias before it if there is one.
    fn named(&mut self) -> Result<Token, (Module, Token)> {
        let first = self.next().clone();
        if self.dotted() && !self.bound.contains(&first.text) && self.texts.meaning(self.file, &first.text).is_none() {
            if let Some(module) = self.texts.alias(self.file, &first.text) {
                self.at += 1;
                return Err((module.clone(), self.next().clone()));
            }
        }
        Ok(first)
    }

    fn term(&mut self, least: usize) -> Term {
        if let Some(token) = self.peek() {
            if token.is("let") {
                return self.binding();
            }
            if token.is("λ") {
                return self.lambda();
            }
        }
        let mut left = self.application();
        while let Some(op) = self.peek() {
            if op.escaped || self.bound.contains(&format!("◌{}◌", op.text)) {
                break;
            }
            let Some((level, side)) = self.texts.fixity(self.file, &op.text) else {
                break;
            };
            if level < least {
                break;
            }
            self.at += 1;
            let right = self.term(if side == Side::Right { level } else { level + 1 });
            left = Term::Infix(op.clone(), Box::new(left), Box::new(right));
        }
        left
    }

    fn binding(&mut self) -> Term {
        self.expect("let");
        let depth = self.bound.len();
        let pattern = self.binder();
        // what is bound is not in scope in its own value
        let names = self.bound.split_off(depth);
        if self.sees(":") {
            self.skip_type("=");
        }
        self.expect("=");
        let value = self.term(0);
        self.expect("in");
        self.bound.extend(names);
        let body = self.term(0);
        self.bound.truncate(depth);
        Term::Let(pattern, Box::new(value), Box::new(body))
    }

    fn lambda(&mut self) -> Term {
        self.expect("λ");
        let depth = self.bound.len();
        let mut patterns = vec![];
        while !self.sees(".") {
            let many = if self.sees("(") {
                first_of(&self.tokens[self.at + 1..], &[":"]).unwrap_or(0)
            } else {
                0
            };
            if self.sees("{") {
                self.skip();
            } else if many > 1 {
                // `(x y : A)`
                self.at += 1;
                patterns.extend((0..many).map(|_| self.binder()));
                self.skip_type(")");
                self.expect(")");
            } else {
                patterns.push(self.binder());
            }
        }
        self.expect(".");
        let body = self.term(0);
        self.bound.truncate(depth);
        Term::Lambda(patterns, Box::new(body))
    }

    /// What `λ` or `let` binds: a name, a name with its type, a tuple or a record.
    fn binder(&mut self) -> Pattern {
        if self.sees("(") {
            self.at += 1;
            let mut parts = vec![self.binder()];
            if self.sees(":") {
                self.skip_type(")");
            }
            while self.sees(",") {
                self.at += 1;
                parts.push(self.binder());
            }
            self.expect(")");
            if parts.len() == 1 {
                return parts.pop().expect("one part");
            }
            let labelled = parts.into_iter().enumerate().map(|(k, p)| (k.to_string(), p));
            return Pattern::Record(labelled.collect());
        }
        if self.sees("record") {
            return self.record_pattern(&mut |parser| parser.binder());
        }
        let token = self.next();
        if token.is("_") {
            return Pattern::Any;
        }
        self.bound.push(token.text.clone());
        Pattern::Name(token.clone())
    }

    fn record_pattern(&mut self, part: &mut dyn FnMut(&mut Self) -> Pattern) -> Pattern {
        self.expect("record");
        self.expect("{");
        let mut fields = vec![];
        while !self.sees("}") {
            let name = self.next().text.clone();
            self.expect("=");
            fields.push((name, part(self)));
            if self.sees(";") {
                self.at += 1;
            }
        }
        self.expect("}");
        Pattern::Record(fields)
    }

    fn application(&mut self) -> Term {
        let head = self.atom();
        let mut arguments: Vec<Term> = vec![];
        let apply = |head: Term, arguments: Vec<Term>| {
            if arguments.is_empty() {
                head
            } else {
                Term::Apply(Box::new(head), arguments)
            }
        };
        while let Some(token) = self.peek() {
            if token.is("{") {
                // an implicit argument
                self.skip();
            } else if token.is("let") || token.is("λ") {
                arguments.push(self.term(0));
                break;
            } else if !token.escaped && (ENDS.contains(&token.text.as_str()) || self.operator(token)) {
                break;
            } else {
                arguments.push(self.atom());
            }
        }
        apply(head, arguments)
    }

    fn operator(&self, token: &Token) -> bool {
        !self.bound.contains(&token.text) && self.texts.fixity(self.file, &token.text).is_some()
    }

    fn atom(&mut self) -> Term {
        let token = self.peek().unwrap_or_else(|| self.fail("a term ends too early"));
        let mut term = if token.is("(") {
            self.at += 1;
            let mut parts = vec![self.term(0)];
            while self.sees(",") {
                self.at += 1;
                parts.push(self.term(0));
            }
            self.expect(")");
            if parts.len() == 1 {
                parts.pop().expect("one part")
            } else {
                let labelled = parts.into_iter().enumerate().map(|(k, t)| (k.to_string(), t));
                Term::Record(labelled.collect())
            }
        } else if token.is("record") {
            self.at += 1;
            self.expect("{");
            let mut fields = vec![];
            while !self.sees("}") {
                let name = self.next().text.clone();
                self.expect("=");
                fields.push((name, self.term(0)));
                if self.sees(";") {
                    self.at += 1;
                }
            }
            self.expect("}");
            Term::Record(fields)
        } else if token.is("elim") {
            return self.cases();
        } else if is_number(token) {
            self.at += 1;
            match number(&token.text) {
                Some(value) => return Term::Number(value, token.clone()),
                None => {
                    self.at -= 1;
                    self.fail("a number that is not understood, or over 128 bits")
                }
            }
        } else if !token.escaped
            && (ENDS.contains(&token.text.as_str())
                || ["{", "do", "Type", "∀", "_", "["].contains(&token.text.as_str()))
        {
            self.fail("a term is expected here")
        } else {
            match self.named() {
                Ok(name) => Term::Name(name),
                Err((module, name)) => Term::Qualified(module, name),
            }
        };
        while self.dotted() {
            self.at += 1;
            term = Term::Field(Box::new(term), self.next().clone());
        }
        term
    }

    /// `elim t [ pattern ↦ term | .. ]`, with no hypothesis.
    fn cases(&mut self) -> Term {
        self.expect("elim");
        let on = self.atom();
        self.expect("[");
        let mut cases = vec![];
        while !self.sees("]") {
            let depth = self.bound.len();
            let pattern = self.pattern();
            self.expect("↦");
            cases.push((pattern, self.term(0)));
            self.bound.truncate(depth);
            if self.sees("|") {
                self.at += 1;
            }
        }
        self.expect("]");
        Term::Cases(Box::new(on), cases)
    }

    fn pattern_atom(&mut self) -> Pattern {
        let Some(token) = self.peek() else {
            self.fail("a pattern ends too early")
        };
        if token.is("(") {
            self.at += 1;
            let mut parts = vec![self.pattern()];
            while self.sees(",") {
                self.at += 1;
                parts.push(self.pattern());
            }
            self.expect(")");
            if parts.len() == 1 {
                return parts.pop().expect("one part");
            }
            let labelled = parts.into_iter().enumerate().map(|(k, p)| (k.to_string(), p));
            return Pattern::Record(labelled.collect());
        }
        if token.is("record") {
            return self.record_pattern(&mut |parser| parser.pattern());
        }
        if is_number(token) {
            self.at += 1;
            return Pattern::Number(number(&token.text).unwrap_or_else(|| self.fail("a number over 128 bits")));
        }
        if token.is("_") {
            self.at += 1;
            return Pattern::Any;
        }
        self.name_pattern(false)
    }

    /// A constructor, with its arguments where they may follow, or a name that is bound.
    fn name_pattern(&mut self, arguments: bool) -> Pattern {
        let (entity, token) = match self.named() {
            Ok(token) => (self.texts.meaning(self.file, &token.text), token),
            Err((module, token)) => match self.texts.within(&module, &token.text) {
                Some(entity) => (Some(entity), token),
                None => stop(self.texts.at(self.file, &token, "no such constructor")),
            },
        };
        let library = |path: &str| LIBRARY_PATTERNS.contains(&path);
        match entity {
            Some(Entity::Library(path)) if library(&path) => {
                self.constructor_pattern(Entity::Library(path), token, arguments)
            }
            Some(Entity::Constructor(tag)) => self.constructor_pattern(Entity::Constructor(tag), token, arguments),
            _ => {
                self.bound.push(token.text.clone());
                Pattern::Name(token)
            }
        }
    }

    fn constructor_pattern(&mut self, entity: Entity, token: Token, arguments: bool) -> Pattern {
        let mut parts = vec![];
        while arguments
            && self
                .peek()
                .is_some_and(|t| !ENDS.contains(&t.text.as_str()) && !t.is("∷"))
        {
            if self.sees("{") {
                self.skip();
            } else {
                parts.push(self.pattern_atom());
            }
        }
        Pattern::Constructor(entity, token, parts)
    }

    fn pattern(&mut self) -> Pattern {
        let plain = self
            .peek()
            .is_some_and(|t| t.is("(") || t.is("record") || t.is("_") || is_number(t));
        let first = if plain {
            self.pattern_atom()
        } else {
            self.name_pattern(true)
        };
        if self.sees("∷") {
            let token = self.next().clone();
            let rest = self.pattern();
            return Pattern::Constructor(Entity::Library(CONS.to_string()), token, vec![first, rest]);
        }
        first
    }
}

pub const CONS: &str = "Rattle.std.specs.Prelude.◌∷◌";

/// The library's constructors that are no ordinary data here.
pub const LIBRARY_PATTERNS: [&str; 9] = [
    "Rattle.std.specs.Prelude.zero",
    "Rattle.std.specs.Prelude.suc",
    "Rattle.std.specs.Prelude.[]",
    CONS,
    "Rattle.std.specs.Prelude.true",
    "Rattle.std.specs.Prelude.false",
    "Rattle.std.specs.Float.nan",
    "Rattle.std.specs.Float.inf",
    "Rattle.std.specs.Float.fin",
];

/// The clauses of a definition.
pub fn clauses(texts: &Texts, definition: usize) -> Vec<Clause> {
    let d = &texts.definitions[definition];
    if let Some(fault) = &d.fault {
        stop(format!(
            "{}:{}: `{}`: {fault} is not understood",
            texts.files[d.file].path.display(),
            d.line,
            d.name
        ));
    }
    if d.clauses.is_empty() {
        stop(format!(
            "{}:{}: `{}` has no clause",
            texts.files[d.file].path.display(),
            d.line,
            d.name
        ));
    }
    let read = |tokens: &Vec<Token>| {
        let Some(equals) = first_of(tokens, &["="]) else {
            stop(texts.at(d.file, &tokens[0], "a clause without `=`"))
        };
        if let Some(at) = first_of(tokens, &["where"]) {
            stop(texts.at(d.file, &tokens[at], "definitions inside of a clause are not understood"));
        }
        let (left, right) = (&tokens[..equals], &tokens[equals + 1..]);
        let infix = |t: &Token| format!("◌{}◌", t.text) == d.name;
        let mut parser = Parser::new(texts, d.file, left);
        let mut patterns = vec![];
        if left[0].text == d.name {
            parser.at = 1;
            while parser.at < left.len() {
                if parser.sees("{") {
                    parser.skip();
                } else {
                    patterns.push(parser.pattern_atom());
                }
            }
        } else if left.iter().any(infix) {
            patterns.push(parser.pattern_atom());
            if !parser.peek().is_some_and(infix) {
                parser.fail("the operator that is defined is expected here");
            }
            parser.at += 1;
            patterns.push(parser.pattern_atom());
            if parser.at < left.len() {
                parser.fail("not understood");
            }
        } else {
            stop(texts.at(d.file, &left[0], &format!("a clause of `{}` is expected here", d.name)));
        }
        let bound = parser.bound;
        let mut parser = Parser::new(texts, d.file, right);
        parser.bound = bound;
        let body = parser.term(0);
        if parser.at < right.len() {
            parser.fail("not understood");
        }
        Clause { patterns, body }
    };
    d.clauses.iter().map(read).collect()
}
