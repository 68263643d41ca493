//! Records texts of refine.in, good and damaged, with what they must print: a strict reader and a writer of their own over the
//! reference's refine_once. crates/replay_texts replays the list; data/README.md there says what an entry holds.

mod damage;

use crate::{random::Random, reference::Reference};
use damage::damage;
use std::{collections::BTreeMap, fs::File, io::BufWriter, io::Write, path::Path};

const MOST: i64 = 256;
const REFUSED: &[u8] = b"refused\n";

// ---- reader and writer

/// The number of a column: six bytes that are that number's own, right-justified.
fn column(field: &[u8]) -> Option<i64> {
    let text = std::str::from_utf8(field).ok()?;
    let number: i64 = text.trim_start_matches(' ').parse().ok()?;
    (format!("{number:6}") == text).then_some(number)
}

/// The three numbers of each line, if every line is right.
fn lines(text: &[u8]) -> Option<Vec<[i64; 3]>> {
    if text.len() % 19 != 0 {
        return None;
    }
    text.chunks(19)
        .map(|line| {
            if line[18] != b'\n' {
                return None;
            }
            Some([column(&line[..6])?, column(&line[6..12])?, column(&line[12..18])?])
        })
        .collect()
}

fn row(out: &mut Vec<u8>, numbers: &[usize]) {
    for n in numbers {
        out.extend(format!("{n:6}").bytes());
    }
    out.push(b'\n');
}

/// How often each kind of thing was met: among texts taken, and among those refused.
type Met = BTreeMap<String, [usize; 2]>;

/// What a text prints, by refine_once; none where it is refused.
fn answer(of: &Reference, text: &[u8], met: &mut Met) -> Option<Vec<u8>> {
    let lines = lines(text)?;
    let [n, t, threshold] = *lines.first()?;
    if !(1..=MOST).contains(&n) || !(1..=MOST).contains(&t) || threshold < 0 || lines.len() as i64 != 1 + n + t {
        return None;
    }
    let (points, tris) = lines[1..].split_at(n as usize);
    if tris.iter().flatten().any(|&v| v < 0 || v >= n) {
        return None;
    }
    let at: Vec<[f64; 3]> = points.iter().map(|p| [p[0] as f64, p[1] as f64, 0.0]).collect();
    let angles: Vec<f64> = points.iter().map(|p| p[2] as f64 / 1024.0).collect();
    let tris: Vec<[usize; 3]> = tris.iter().map(|t| t.map(|v| v as usize)).collect();
    let sizes = vec![1.0; at.len()];
    let old = tris.clone();
    let (at, tris, _, flagged, cut) = (of.refine_once)(&at, &tris, &sizes, &angles, threshold as f64 / 1024.0);
    for [a, b, c] in old {
        let is_cut = |u: usize, v: usize| cut.contains(&(u.min(v), u.max(v)));
        let marks: Vec<&str> = [("p", a, b), ("q", b, c), ("r", c, a)]
            .iter()
            .filter(|&&(_, u, v)| is_cut(u, v))
            .map(|&(mark, ..)| mark)
            .collect();
        met.entry(format!("triangles cut on [{}]", marks.concat())).or_default()[0] += 1;
    }
    let mut out = Vec::new();
    row(&mut out, &[at.len(), tris.len(), flagged, cut.len()]);
    tris.iter().for_each(|t| row(&mut out, t));
    cut.iter().for_each(|&(a, b)| row(&mut out, &[a, b]));
    Some(out)
}

// ---- good texts

struct Floor {
    threshold: i64,
    points: Vec<[i64; 3]>,
    tris: Vec<[i64; 3]>,
}

fn text(f: &Floor) -> Vec<u8> {
    let head = [f.points.len() as i64, f.tris.len() as i64, f.threshold];
    let mut out = String::new();
    for line in [head].iter().chain(&f.points).chain(&f.tris) {
        out.push_str(&format!("{:6}{:6}{:6}\n", line[0], line[1], line[2]));
    }
    out.into_bytes()
}

/// A middle triangle with neighbours, a fan, round one side, a strip, or any corners at all; some again, some with a corner twice.
fn triangles(r: &mut Random, n: usize, t: usize) -> Vec<[i64; 3]> {
    let kind = r.below(6);
    let mut tris: Vec<[usize; 3]> = (0..t)
        .map(|i| match kind {
            0 | 1 if n >= 6 => {
                let k = 6 * r.below(n / 6);
                [
                    [k, k + 1, k + 2],
                    [k, k + 1, k + 3],
                    [k + 1, k + 2, k + 4],
                    [k + 2, k, k + 5],
                ][i % 4]
            }
            2 if n >= 3 => [0, 1 + i % (n - 2), 2 + i % (n - 2)],
            3 if n >= 3 => [0, 1, 2 + i % (n - 2)],
            4 if n >= 3 => [i % (n - 2), i % (n - 2) + 1, i % (n - 2) + 2],
            _ => [r.below(n), r.below(n), r.below(n)],
        })
        .collect();
    for i in 0..t {
        match r.below(12) {
            0 => tris[i] = tris[r.below(t)],
            1 => tris[i][2] = tris[i][r.below(2)],
            2 => tris[i].swap(1, 2),
            3 => tris[i].rotate_left(1),
            _ => {}
        }
    }
    tris.iter().map(|t| t.map(|v| v as i64)).collect()
}

/// A number of at most six columns: of one place or all, at the ends of the range or near 0.
fn number(r: &mut Random, kind: usize) -> i64 {
    match kind {
        0 => r.below(10) as i64,
        1 => r.pick(&[-99_999, 999_999, 99_999, 100_000, -10_000, -9_999, 0, -1, 1, 10, 9]),
        2 => r.below(1_099_999) as i64 - 99_999,
        _ => r.below(2_000) as i64 - 1_000,
    }
}

fn floor(r: &mut Random, n: usize, t: usize) -> Floor {
    let (place, turn) = (r.below(4), r.below(6));
    let base = r.pick(&[0, 512, -300, 1608]);
    let points: Vec<[i64; 3]> = (0..n)
        .map(|_| {
            let angle = match turn {
                0 => number(r, 1),
                1 => r.below(3_300) as i64 - 1_650,
                2 => number(r, 2),
                _ if r.one_in(3) => base + r.pick(&[384, 512, -384, 804, 805, -256]),
                _ => base,
            };
            [number(r, place), number(r, place), angle]
        })
        .collect();
    let tris = triangles(r, n, t);
    let side = tris[r.below(t)];
    let met = (points[side[0] as usize][2] - points[side[1] as usize][2]).abs();
    let threshold = match r.below(8) {
        0 => 0,
        1 | 2 if met <= 999_999 => met,
        3 if met > 0 && met <= 999_999 => met - 1,
        4 => r.pick(&[804, 805, 803, 1, 999_999]),
        _ => r.below(500) as i64,
    };
    Floor {
        threshold,
        points,
        tris,
    }
}

/// The counts of points and triangles: small, and now and then as many as there can be.
fn counts(r: &mut Random) -> (usize, usize) {
    match r.below(40) {
        0 => (1, 1 + r.below(4)),
        1 => (1 + r.below(3), 1 + r.below(20)),
        2 => (1 + r.below(60), 1 + r.below(60)),
        3 if r.one_in(8) => (256, 256),
        3 if r.one_in(4) => (1 + r.below(256), 1 + r.below(256)),
        _ => (3 + r.below(10), 1 + r.below(8)),
    }
}

fn good(r: &mut Random) -> Vec<u8> {
    let (n, t) = counts(r);
    text(&floor(r, n, t))
}

// ---- the list

/// Damages of single bytes and columns, and those of lines and counts.
const FINE: [usize; 10] = [0, 1, 2, 3, 4, 0, 1, 11, 21, 23];
const COARSE: [usize; 14] = [5, 6, 7, 8, 9, 10, 12, 13, 14, 15, 16, 17, 18, 22];
const LARGE: [usize; 2] = [19, 20];

/// A list of `count` texts: three in four damaged, of single bytes as often as not, each damage in turn; the others good.
pub fn record(of: &Reference, seed: u64, count: usize, folder: &Path) {
    let path = folder.join("texts");
    let file = File::create(&path).unwrap_or_else(|e| panic!("{}: {e}", path.display()));
    let mut file = BufWriter::new(file);
    let mut met = Met::new();
    let mut r = Random::new(seed);
    for i in 0..count {
        let (name, s) = match i {
            0 => ("good", text(&floor(&mut r, 256, 256))),
            1 => ("good", text(&floor(&mut r, 256, 1))),
            2 => ("good", text(&floor(&mut r, 1, 256))),
            _ if i % 4 == 3 => ("good", good(&mut r)),
            _ if i % 100 == 50 => damage(&mut r, LARGE[i / 100 % LARGE.len()]),
            _ if i % 4 == 0 => damage(&mut r, COARSE[i / 4 % COARSE.len()]),
            _ => damage(&mut r, FINE[i / 2 % FINE.len()]),
        };
        let printed = answer(of, &s, &mut met);
        met.entry(name.to_string()).or_default()[usize::from(printed.is_none())] += 1;
        let printed = printed.unwrap_or(REFUSED.to_vec());
        writeln!(file, "{:6}{:6}", s.len(), printed.len()).expect("a recorded text");
        file.write_all(&s).expect("a recorded text");
        file.write_all(&printed).expect("a recorded text");
    }
    for (name, [taken, refused]) in met {
        eprintln!("{name}: {taken} taken, {refused} refused");
    }
}
