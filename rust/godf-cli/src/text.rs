//! Floors as plain text: a line `POINTS TRIANGLES`; a line `x y z size`, or `x y z size angle`, for each point; a line of three corner
//! numbers, counted from 0, for each triangle. Blank lines are skipped, and so is what follows a #.

use godf::{Floor, MOST_POINTS, MOST_TRIANGLES};
use std::{fmt::Write, str::FromStr};

/// The most points and triangles that a refined floor can have, which is the most that is read.
const MOST_READ: (usize, usize) = (MOST_POINTS + 3 * MOST_TRIANGLES, 4 * MOST_TRIANGLES);

/// A floor that owns its arrays, with the angle at each point if it has angles.
#[derive(Clone, Debug, Default, PartialEq)]
pub struct OwnedFloor {
    /// What messages call it.
    pub name: String,
    pub points: Vec<[f64; 3]>,
    pub triangles: Vec<[u32; 3]>,
    pub sizes: Vec<f64>,
    pub angles: Option<Vec<f64>>,
    /// The line of each point and of each triangle, counted from 1; none where the floor was not read.
    pub point_lines: Vec<usize>,
    pub triangle_lines: Vec<usize>,
}

impl OwnedFloor {
    pub fn floor(&self) -> Floor<'_> {
        Floor {
            points: &self.points,
            triangles: &self.triangles,
            sizes: &self.sizes,
        }
    }
}

fn number<T: FromStr>(word: &str, what: &str) -> Result<T, String> {
    word.parse().map_err(|_| format!("`{}` is not {what}", shortened(word)))
}

/// A word as it is shown in a message.
fn shortened(word: &str) -> String {
    let shown: String = word.chars().take(24).flat_map(char::escape_debug).collect();
    if word.chars().nth(24).is_some() {
        shown + ".."
    } else {
        shown
    }
}

fn counts(words: &[&str]) -> Result<(usize, usize), String> {
    let [points, triangles] = words else {
        return Err(format!(
            "expected two numbers, the counts of points and triangles, and found {}",
            counted(words.len(), "word")
        ));
    };
    let points: u64 = number(points, "a count of points")?;
    let triangles: u64 = number(triangles, "a count of triangles")?;
    if points > MOST_READ.0 as u64 || triangles > MOST_READ.1 as u64 {
        let (p, t) = (grouped(MOST_READ.0), grouped(MOST_READ.1));
        return Err(format!("a floor has at most {p} points and {t} triangles"));
    }
    Ok((points as usize, triangles as usize))
}

/// A number with commas between its thousands.
pub fn grouped(n: usize) -> String {
    let digits = n.to_string();
    let mut text = String::new();
    for (i, digit) in digits.chars().enumerate() {
        if i > 0 && (digits.len() - i) % 3 == 0 {
            text.push(',');
        }
        text.push(digit);
    }
    text
}

/// A count and what is counted.
pub fn counted(n: usize, thing: &str) -> String {
    format!("{} {thing}{}", grouped(n), if n == 1 { "" } else { "s" })
}

impl OwnedFloor {
    fn read_point(&mut self, words: &[&str]) -> Result<(), String> {
        if words.len() != 4 && words.len() != 5 {
            return Err(format!(
                "expected a point, `x y z size` or `x y z size angle`, and found {}",
                counted(words.len(), "word")
            ));
        }
        let numbers: Vec<f64> = words.iter().map(|w| number(w, "a number")).collect::<Result<_, _>>()?;
        if self.points.is_empty() && numbers.len() == 5 {
            self.angles = Some(vec![]);
        }
        match (&mut self.angles, numbers.get(4)) {
            (Some(angles), Some(&angle)) => angles.push(angle),
            (None, None) => {}
            _ => return Err("some points have an angle and some do not".to_string()),
        }
        self.points.push([numbers[0], numbers[1], numbers[2]]);
        self.sizes.push(numbers[3]);
        Ok(())
    }

    fn read_triangle(&mut self, words: &[&str]) -> Result<(), String> {
        let [a, b, c] = words else {
            return Err(format!(
                "expected a triangle, three corner numbers, and found {}",
                counted(words.len(), "word")
            ));
        };
        let corner = |word| number(word, "a corner number, a whole number from 0");
        self.triangles.push([corner(a)?, corner(b)?, corner(c)?]);
        Ok(())
    }
}

/// The floor of a text, or what is wrong with it: `my.txt, line 3: ..`.
pub fn read(name: &str, text: &str) -> Result<OwnedFloor, String> {
    let mut floor = OwnedFloor {
        name: name.to_string(),
        ..OwnedFloor::default()
    };
    let mut wanted = None;
    // some editors start a text with a byte order mark
    let text = text.strip_prefix('\u{feff}').unwrap_or(text);
    for (i, line) in text.lines().enumerate() {
        let line = line.split('#').next().unwrap_or("");
        let words: Vec<&str> = line.split_whitespace().collect();
        if words.is_empty() {
            continue;
        }
        let read = match wanted {
            None => counts(&words).map(|counts| wanted = Some(counts)),
            Some((points, _)) if floor.points.len() < points => {
                floor.point_lines.push(i + 1);
                floor.read_point(&words)
            }
            Some((_, triangles)) if floor.triangles.len() < triangles => {
                floor.triangle_lines.push(i + 1);
                floor.read_triangle(&words)
            }
            Some(_) => Err("unexpected text after the last triangle".to_string()),
        };
        read.map_err(|what| format!("{name}, line {}: {what}", i + 1))?;
    }
    let Some((points, triangles)) = wanted else {
        return Err(format!(
            "{name}: no floor: its first line has the counts of points and triangles"
        ));
    };
    if floor.points.len() < points || floor.triangles.len() < triangles {
        let (p, t) = (grouped(floor.points.len()), grouped(floor.triangles.len()));
        let (points, triangles) = (grouped(points), grouped(triangles));
        return Err(format!(
            "{name}: the text ends after {p} of {points} points and {t} of {triangles} triangles"
        ));
    }
    Ok(floor)
}

/// The shortest digits that are read as the same number.
fn digits(x: f64) -> String {
    let text = format!("{x:?}");
    text.strip_suffix(".0").map_or(text.clone(), str::to_string)
}

/// The text of a floor, with angles where they are given.
pub fn write(floor: Floor, angles: Option<&[f64]>) -> String {
    let mut text = format!("{} {}\n", floor.points.len(), floor.triangles.len());
    for (i, (p, &size)) in floor.points.iter().zip(floor.sizes).enumerate() {
        let angle = angles.map_or(String::new(), |a| format!(" {}", digits(a[i])));
        let [x, y, z, size] = [p[0], p[1], p[2], size].map(digits);
        let _ = writeln!(text, "{x} {y} {z} {size}{angle}");
    }
    for [a, b, c] in floor.triangles {
        let _ = writeln!(text, "{a} {b} {c}");
    }
    text
}

/// Angles, one a line.
pub fn write_angles(angles: &[f64]) -> String {
    angles.iter().map(|&angle| digits(angle) + "\n").collect()
}

#[cfg(test)]
mod tests {
    use super::*;

    const SQUARE: &str =
        "# a square\n4 2\n0 0 0 1\n\n1 0 -2.5e-7 2\n1 1 0 1 # the far corner\n0 1 0 5e-324\n0 1 2\n0 2 3\n";

    /// The arrays, and not the lines that they came from.
    fn same(a: &OwnedFloor, b: &OwnedFloor) -> bool {
        a.floor() == b.floor() && a.angles == b.angles
    }

    #[test]
    fn what_is_written_reads_back() {
        let read = |text: &str| read("my.txt", text);
        let floor = read(SQUARE).unwrap();
        assert_eq!(floor.point_lines, [3, 5, 6, 7]);
        assert_eq!(floor.triangle_lines, [8, 9]);
        assert_eq!(floor.triangles, [[0, 1, 2], [0, 2, 3]]);
        assert_eq!(
            (floor.points[1][2], floor.sizes[3], &floor.angles),
            (-2.5e-7, 5e-324, &None)
        );
        assert!(same(&read(&write(floor.floor(), None)).unwrap(), &floor));
        let marked = format!("\u{feff}{}", SQUARE.replace('\n', "\r\n"));
        assert!(same(&read(&marked).unwrap(), &floor));
        let angles = vec![0.1 + 0.2, -0.0, f64::MAX, 1e22];
        let with = OwnedFloor {
            angles: Some(angles.clone()),
            ..floor
        };
        let back = read(&write(with.floor(), Some(&angles))).unwrap();
        assert!(same(&back, &with));
        assert!(back.angles.unwrap()[1].is_sign_negative());
    }

    #[test]
    fn faults_have_their_line() {
        let fault = |text: &str| read("my.txt", text).unwrap_err();
        assert_eq!(
            fault("4\n"),
            "my.txt, line 1: expected two numbers, the counts of points and triangles, and found 1 word"
        );
        assert_eq!(fault("3 x\n"), "my.txt, line 1: `x` is not a count of triangles");
        assert_eq!(fault("-3 1\n"), "my.txt, line 1: `-3` is not a count of points");
        assert_eq!(
            fault("99999999 1\n"),
            "my.txt, line 1: a floor has at most 114,688 points and 131,072 triangles"
        );
        assert_eq!(
            fault("1 0\n\n0 0 0\n"),
            "my.txt, line 3: expected a point, `x y z size` or `x y z size angle`, and found 3 words"
        );
        assert_eq!(fault("1 0\n0 0 zero 1\n"), "my.txt, line 2: `zero` is not a number");
        assert_eq!(
            fault("2 0\n0 0 0 1\n0 0 0 1 0.5\n"),
            "my.txt, line 3: some points have an angle and some do not"
        );
        assert_eq!(
            fault("1 1\n0 0 0 1\n0 0 -1\n"),
            "my.txt, line 3: `-1` is not a corner number, a whole number from 0"
        );
        assert_eq!(
            fault("1 1\n0 0 0 1\n0 0\n"),
            "my.txt, line 3: expected a triangle, three corner numbers, and found 2 words"
        );
        assert_eq!(
            fault("0 0\n7\n"),
            "my.txt, line 2: unexpected text after the last triangle"
        );
        assert_eq!(
            fault("2 1\n0 0 0 1\n"),
            "my.txt: the text ends after 1 of 2 points and 0 of 1 triangles"
        );
        assert_eq!(
            fault(&format!("1 0\n{} 0 0 0\n", "9x".repeat(40))),
            format!("my.txt, line 2: `{}..` is not a number", "9x".repeat(12))
        );
        assert!(fault("").contains("no floor") && fault("# nothing\n").contains("no floor"));
    }

    #[test]
    fn thousands() {
        assert_eq!([1, 2000].map(|n| counted(n, "side")), ["1 side", "2,000 sides"]);
        assert_eq!(
            [0, 999, 1000, 16384, 1234567].map(grouped),
            ["0", "999", "1,000", "16,384", "1,234,567"]
        );
    }
}
