//! Damaged texts: a good one with a byte, a column, a line or a count made wrong.

use super::{counts, floor, text};
use crate::random::Random;

/// Columns of another form; two of them are the ends of the range.
#[rustfmt::skip]
const FIELDS: [&[u8; 6]; 34] = [
    b"    +5", b"    05", b"    -0", b"    00", b"   - 5", b"     -", b"      ", b"    5 ", b"5     ", b"   5.0",
    b"   1e2", b"0x0005", b"\t    5", b"    \t5", b"    5\t", b"    5\r", b"    5\0", b"\0    5", b"     a", b"  5  5",
    b"   --5", b"  -005", b"   -05", b"000005", b"-00005", b"   5-5", b"  5,00", b"    5-", b"   +-5", b"-99999",
    b"999999", b"     \n", b"\xc2\xa0   5", b"    \xff5",
];
const BYTES: &[u8] = b"\0\t\n\r +-.,/0123456789:;aeEx\x7f\x80\xff";

/// One damage, by its number; the name says which.
pub fn damage(r: &mut Random, kind: usize) -> (&'static str, Vec<u8>) {
    let (n, t) = counts(r);
    let mut f = floor(r, n, t);
    let (n, t) = (n as i64, t as i64);
    let whole = text(&f);
    let mut s = whole.clone();
    let lines = whole.len() / 19;
    let (line, col) = (r.below(lines), r.below(3));
    let (at, any) = (19 * line + 6 * col, r.below(whole.len()));
    let name = match kind {
        0 => {
            s[at..at + 6].copy_from_slice(FIELDS[r.below(FIELDS.len())]);
            "a column of another form"
        }
        1 => {
            s[any] = BYTES[r.below(BYTES.len())];
            "one byte changed"
        }
        2 => {
            s[any] = r.below(256) as u8;
            "one byte changed to any"
        }
        3 => {
            s.remove(any);
            "one byte missing"
        }
        4 => {
            s.insert(any, BYTES[r.below(BYTES.len())]);
            "one byte more"
        }
        5 => {
            s.truncate(any);
            "cut short"
        }
        6 => {
            s.pop();
            "no last line feed"
        }
        7 => {
            for _ in 0..1 + r.below(40) {
                s.push(r.pick(&[b'\n', b' ', b'0', 0]));
            }
            "bytes after the last"
        }
        8 => {
            s.truncate(19);
            "line 1 alone"
        }
        9 => {
            s.clear();
            "empty"
        }
        10 => {
            s = whole
                .iter()
                .flat_map(|&b| if b == b'\n' { vec![b'\r', b'\n'] } else { vec![b] })
                .collect();
            "carriage returns"
        }
        11 => {
            s.splice(
                at..at + 6,
                r.pick(&[1_234_567, 10_000_000, -1_234_567]).to_string().bytes(),
            );
            "seven digits or more"
        }
        12 => {
            s.drain(19 * line..19 * line + 19);
            "a line missing"
        }
        13 => {
            let again = s[19 * line..19 * line + 19].to_vec();
            s.extend(again);
            "a line more"
        }
        14 => {
            s[6 * col..6 * col + 6]
                .copy_from_slice(r.pick(&[b"   257", b"999999", b"    -1", b"-99999", b"   256", b"   512"]));
            "another count"
        }
        15 => {
            f.threshold = r.pick(&[-1, -99_999, -256]);
            s = text(&f);
            "threshold below 0"
        }
        16 => {
            let k = r.below(t as usize);
            f.tris[k][col] = r.pick(&[n, n, n + 1, -1, -99_999, 999_999, 256]);
            s = text(&f);
            "a corner out of range"
        }
        17 => {
            f.points.clear();
            s = text(&f);
            "no points"
        }
        18 => {
            f.tris.clear();
            s = text(&f);
            "no triangles"
        }
        19 => {
            let few = 1 + r.below(3);
            f = floor(r, 257, few);
            s = text(&f);
            "257 points"
        }
        20 => {
            let few = 3 + r.below(3);
            f = floor(r, few, 257);
            s = text(&f);
            "257 triangles"
        }
        21 => {
            s[at..at + 6].rotate_left(1 + r.below(5));
            "a column turned round"
        }
        22 => {
            s[19 * line + 18] = r.pick(b"\r\0 \x0b\x0c\x85");
            "another line end"
        }
        _ => {
            s.swap(any, (any + 1) % whole.len());
            "two bytes swapped"
        }
    };
    (name, s)
}
