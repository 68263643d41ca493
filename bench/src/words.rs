//! The words of a command: [ROUNDS [LAYER.. KIND.. SIDE..]].

use crate::floors::{case, turning, Kind, MODES, SIDES, SIZES};
use oracle::case::Case;

fn stop(message: String) -> ! {
    eprintln!("bench: {message}");
    std::process::exit(1)
}

/// What is asked for: all layers, kinds and sides where none is named.
pub struct Asked {
    pub rounds: usize,
    pub kinds: Vec<Kind>,
    sides: Vec<usize>,
    layers: Vec<String>,
}

impl Asked {
    /// Reads the program's own words. Stops at a word that is none of them.
    pub fn read(rounds: usize, layers: &[&str]) -> Self {
        let mut words = std::env::args().skip(1);
        let count = |word: String| {
            word.parse()
                .unwrap_or_else(|_| stop(format!("not a count of rounds: {word}")))
        };
        let mut asked = Self {
            rounds: words.next().map_or(rounds, count).max(1),
            kinds: vec![],
            sides: vec![],
            layers: vec![],
        };
        for word in words {
            if let Ok(side) = word.parse() {
                asked.sides.push(side);
            } else if let Some(kind) = Kind::ALL.into_iter().find(|kind| kind.name() == word) {
                asked.kinds.push(kind);
            } else if layers.contains(&word.as_str()) {
                asked.layers.push(word);
            } else {
                stop(format!("no layer, kind or side: {word}"));
            }
        }
        if asked.kinds.is_empty() {
            asked.kinds.extend(Kind::ALL);
        }
        asked
    }

    pub fn wants(&self, layer: &str) -> bool {
        self.layers.is_empty() || self.layers.iter().any(|name| name == layer)
    }

    /// Every kind and side, kind by kind.
    pub fn floors(&self) -> impl Iterator<Item = (Kind, usize)> + '_ {
        self.floors_or(&SIDES)
    }

    /// Every kind and side, with these sides where none is named.
    pub fn floors_or<'a>(&'a self, sides: &'a [usize]) -> impl Iterator<Item = (Kind, usize)> + 'a {
        let sides = if self.sides.is_empty() { sides } else { &self.sides };
        let floors = move |&kind: &Kind| sides.iter().map(move |&side| (kind, side));
        self.kinds.iter().flat_map(floors)
    }

    /// Every call on these floors, with its kind and the rest of its name. Refined calls have a threshold that flags some triangles, the
    /// others have threshold 0.
    pub fn calls(&self, refined: bool, mut run: impl FnMut(&str, &str, Case)) {
        for (kind, side) in self.floors() {
            let threshold = if refined { turning(side) } else { 0.0 };
            let at = if refined {
                format!(", threshold {threshold:.4}")
            } else {
                String::new()
            };
            for sizes in SIZES {
                for (mode, boundary) in MODES {
                    let name = format!("{side} by {side}, {sizes}, {mode}{at}");
                    run(kind.name(), &name, case(kind, side, sizes, boundary, threshold));
                }
            }
        }
    }
}
