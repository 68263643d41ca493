//! Recorded lists: words of 16 hex digits, a blank or a line feed after each, rows of a fixed number of words.

use std::{fs::File, io::BufWriter, io::Write, path::Path};

pub struct List {
    file: BufWriter<File>,
    width: usize,
    pub rows: usize,
}

impl List {
    pub fn new(folder: &Path, name: &str, width: usize) -> Self {
        let path = folder.join(name);
        let file = File::create(&path).unwrap_or_else(|e| panic!("{}: {e}", path.display()));
        Self {
            file: BufWriter::new(file),
            width,
            rows: 0,
        }
    }

    /// One row; what it lacks of the list's width is filled by zeros. Any NaN is recorded by one pattern.
    pub fn row(&mut self, words: &[u64]) {
        assert!(
            words.len() <= self.width,
            "a row of {} words, over {}",
            words.len(),
            self.width
        );
        let mut line = String::with_capacity(17 * self.width);
        for k in 0..self.width {
            line.push_str(&format!("{:016x}", words.get(k).copied().unwrap_or(0)));
            line.push(if k + 1 < self.width { ' ' } else { '\n' });
        }
        self.file.write_all(line.as_bytes()).expect("a recorded row");
        self.rows += 1;
    }
}

/// A double's pattern, one for all NaNs.
pub fn word(x: f64) -> u64 {
    if x.is_nan() {
        0x7ff8_0000_0000_0000
    } else {
        x.to_bits()
    }
}

pub fn words(xs: &[f64]) -> Vec<u64> {
    xs.iter().map(|&x| word(x)).collect()
}

/// The words that a program reads at a time (crates/replay).
const CHUNK: usize = 3840;

/// A list of rows that say in their first word how long they are. No row straddles two chunks: a word 0 says that none is left in one.
pub struct Parted {
    file: BufWriter<File>,
    used: usize,
}

impl Parted {
    pub fn new(folder: &Path, name: &str) -> Self {
        let path = folder.join(name);
        let file = File::create(&path).unwrap_or_else(|e| panic!("{}: {e}", path.display()));
        Self {
            file: BufWriter::new(file),
            used: 0,
        }
    }

    fn put(&mut self, words: &[u64]) {
        let text: Vec<String> = words.iter().map(|w| format!("{w:016x}")).collect();
        self.file
            .write_all((text.join(" ") + "\n").as_bytes())
            .expect("recorded words");
        self.used = (self.used + words.len()) % CHUNK;
    }

    pub fn row(&mut self, words: &[u64]) {
        assert!(words[0] == words.len() as u64 && words.len() <= CHUNK, "a row's length");
        if self.used + words.len() > CHUNK {
            self.put(&vec![0; CHUNK - self.used]);
        }
        self.put(words);
    }
}
