//! A field as a picture: triangles tinted by the field's angle, a cross at each point, singular triangles by shape and colour, flagged
//! triangles hatched, cut sides marked, and a legend.

use crate::text::grouped;
use godf::{Floor, Singularity, Valence};
use std::{
    collections::HashMap,
    f64::consts::{FRAC_PI_2, TAU},
    fmt::Write,
};

/// What is drawn.
pub struct Picture<'a> {
    pub title: &'a str,
    /// How it was solved.
    pub subtitle: &'a str,
    /// The floor whose field is drawn, and its angles.
    pub floor: Floor<'a>,
    pub angles: &'a [f64],
    pub singularities: &'a [Singularity],
    /// The floor as given, with its flagged triangles and cut sides.
    pub given: Floor<'a>,
    pub flagged: &'a [usize],
    pub cut: &'a [[u32; 2]],
}

/// Above this number of points, crosses are thinned to about this number.
const MOST_CROSSES: usize = 1000;
/// How many tints there are between an angle of 0 and of a quarter turn.
const TINTS: usize = 36;

// units of the drawing are tenths of a pixel, so that all numbers in it are whole
const WIDTH: f64 = 9600.0;
const MARGIN: f64 = 300.0;
const TOP: f64 = 960.0;
const MOST_HEIGHT: f64 = 8000.0;
const LEAST_HEIGHT: f64 = 1200.0;
const LEGEND_ROW: f64 = 330.0;
/// So that a cross on the rim stays within the margin.
const LONGEST_ARM: f64 = 240.0;

const INK: &str = "#1b2330";
const SOFT: &str = "#5b6675";
const MESH: &str = "#b3bcc8";
const AMBER: &str = "#c26a00";
const RED: &str = "#c81e3a";
const BLUE: &str = "#1257c4";

/// From a floor's places to the drawing's.
struct Frame {
    low: [f64; 2],
    /// The half of a floor's length that is as long as one unit.
    unit: f64,
    shift: [f64; 2],
    height: f64,
}

impl Frame {
    fn of(floor: Floor) -> Self {
        // halves, so that the widest floors do not overflow
        let half = |p: &[f64; 3], i: usize| 0.5 * p[i];
        let least = |i| floor.points.iter().fold(f64::INFINITY, |x, p| half(p, i).min(x));
        let most = |i| floor.points.iter().fold(f64::NEG_INFINITY, |x, p| half(p, i).max(x));
        let low = [least(0), least(1)];
        let (w, h) = (most(0) - low[0], most(1) - low[1]);
        let room = WIDTH - 2.0 * MARGIN;
        let unit = (w / room).max(h / MOST_HEIGHT);
        let height = (h / unit).max(LEAST_HEIGHT);
        Self {
            low,
            unit,
            shift: [0.5 * (WIDTH - w / unit), TOP + 0.5 * (height + h / unit)],
            height,
        }
    }

    fn place(&self, p: [f64; 3]) -> [f64; 2] {
        [
            self.shift[0] + (0.5 * p[0] - self.low[0]) / self.unit,
            self.shift[1] - (0.5 * p[1] - self.low[1]) / self.unit,
        ]
    }
}

fn whole(x: f64) -> i64 {
    x.round() as i64
}

/// Numbers in a path, with no more blanks than it needs.
fn push(path: &mut String, letter: char, numbers: &[i64]) {
    path.push(letter);
    for (i, x) in numbers.iter().enumerate() {
        if i > 0 && *x >= 0 {
            path.push(' ');
        }
        let _ = write!(path, "{x}");
    }
}

/// A line through places, the first as it is and the others from the one before.
fn line(path: &mut String, places: &[[f64; 2]]) {
    let at = places.iter().map(|p| p.map(whole)).collect::<Vec<_>>();
    push(path, 'M', &at[0]);
    for pair in at.windows(2) {
        push(path, 'l', &[pair[1][0] - pair[0][0], pair[1][1] - pair[0][1]]);
    }
}

/// The tint of an angle: pale, and the same after a quarter turn.
fn tint(angle: f64) -> String {
    // an angle of 0 is a pale blue
    let part = |k: f64| whole(233.0 + 20.0 * (4.0 * angle + (2.0 - k) * TAU / 3.0 - 0.5).cos());
    format!("#{:02x}{:02x}{:02x}", part(0.0), part(1.0), part(2.0))
}

/// The angle of a triangle's middle, as one of the tints.
fn tint_of(angles: &[f64], triangle: [u32; 3]) -> usize {
    let four = triangle.map(|v| 4.0 * angles[v as usize]);
    let sum = |f: fn(f64) -> f64| four.iter().map(|&x| f(x)).sum::<f64>();
    let turn = sum(f64::sin).atan2(sum(f64::cos)) / TAU;
    (turn.rem_euclid(1.0) * TINTS as f64).round() as usize % TINTS
}

fn triangles(picture: &Picture, at: &[[f64; 2]]) -> String {
    let mut paths = vec![String::new(); TINTS];
    for t in picture.floor.triangles {
        let path = &mut paths[tint_of(picture.angles, *t)];
        line(path, &t.map(|v| at[v as usize]));
        path.push('z');
    }
    let mut svg = String::new();
    for (k, path) in paths.iter().enumerate().filter(|(_, path)| !path.is_empty()) {
        let colour = tint(k as f64 / TINTS as f64 * FRAC_PI_2);
        let _ = writeln!(
            svg,
            "<path fill=\"{colour}\" stroke=\"{colour}\" stroke-width=\"6\" d=\"{path}\"/>"
        );
    }
    svg
}

/// The sides of a floor, each once, and those of the boundary.
struct Sides {
    all: Vec<[u32; 2]>,
    rim: Vec<[u32; 2]>,
}

impl Sides {
    fn of(floor: Floor) -> Self {
        let mut times: HashMap<[u32; 2], u32> = HashMap::new();
        let mut all = vec![];
        for t in floor.triangles {
            for k in 0..3 {
                let (a, b) = (t[k], t[(k + 1) % 3]);
                let side = [a.min(b), a.max(b)];
                let times = times.entry(side).or_insert(0);
                if *times == 0 {
                    all.push(side);
                }
                *times += 1;
            }
        }
        let rim = all.iter().filter(|side| times[*side] == 1).copied().collect();
        Self { all, rim }
    }
}

fn mesh(sides: &[[u32; 2]], at: &[[f64; 2]], colour: &str, width: f64) -> String {
    let mut path = String::new();
    for side in sides {
        line(&mut path, &side.map(|v| at[v as usize]));
    }
    let width = whole(width);
    format!("<path stroke=\"{colour}\" stroke-width=\"{width}\" stroke-linecap=\"round\" d=\"{path}\"/>\n")
}

/// The points that get a cross, each with the room around it: all of them, or some so far apart that there are about as many as fit.
fn crosses(picture: &Picture, at: &[[f64; 2]], sides: &[[u32; 2]]) -> Vec<(usize, f64)> {
    if at.len() <= MOST_CROSSES {
        let mut room = vec![(0.0, 0.0); at.len()];
        for &[a, b] in sides {
            let far = (at[a as usize][0] - at[b as usize][0]).hypot(at[a as usize][1] - at[b as usize][1]);
            for v in [a, b] {
                room[v as usize] = (room[v as usize].0 + far, room[v as usize].1 + 1.0);
            }
        }
        return room
            .iter()
            .map(|(sum, count)| sum / f64::max(*count, 1.0))
            .enumerate()
            .collect();
    }
    let area = |t: &[u32; 3]| {
        let [a, b, c] = t.map(|v| at[v as usize]);
        0.5 * ((b[0] - a[0]) * (c[1] - a[1]) - (b[1] - a[1]) * (c[0] - a[0])).abs()
    };
    let whole: f64 = picture.floor.triangles.iter().map(area).sum();
    // kept points lie a little denser than one in a square of their distance
    let apart = (0.85 * whole / MOST_CROSSES as f64).sqrt().max(1.0);
    let cell = |p: [f64; 2]| p.map(|x| (x / apart) as i64);
    let mut kept: HashMap<[i64; 2], Vec<usize>> = HashMap::new();
    let mut all = vec![];
    for (v, &p) in at.iter().enumerate() {
        let [x, y] = cell(p);
        let near = (x - 1..=x + 1).flat_map(|x| (y - 1..=y + 1).map(move |y| [x, y]));
        let mut near = near.filter_map(|c| kept.get(&c)).flatten();
        if !near.any(|&o| (at[o][0] - p[0]).hypot(at[o][1] - p[1]) < apart) {
            kept.entry([x, y]).or_default().push(v);
            all.push((v, apart));
        }
    }
    all
}

/// Two arms, of such a length from the middle.
fn cross(path: &mut String, [x, y]: [f64; 2], angle: f64, arm: f64) {
    let (u, v) = (arm * angle.cos(), -arm * angle.sin());
    line(path, &[[x - u, y - v], [x + u, y + v]]);
    line(path, &[[x + v, y - u], [x - v, y + u]]);
}

/// A regular shape round a place.
fn regular(corners: usize, [x, y]: [f64; 2], radius: f64) -> String {
    let mut path = String::new();
    let corner = |k: usize| {
        let turn = TAU * k as f64 / corners as f64;
        [x + radius * turn.sin(), y - radius * turn.cos()]
    };
    line(&mut path, &(0..corners).map(corner).collect::<Vec<_>>());
    path + "z"
}

/// A red triangle where three quads meet, a blue pentagon where five do: outlines, so that the crosses inside stay visible.
fn marker(valence: Valence, at: [f64; 2], radius: f64) -> String {
    let (shape, colour) = match valence {
        Valence::Three => (regular(3, at, 1.25 * radius), RED),
        Valence::Five => (regular(5, at, 1.1 * radius), BLUE),
    };
    let width = whole(0.22 * radius).max(1);
    let casing = 2 * width;
    format!(
        "<path stroke=\"#fff\" stroke-width=\"{casing}\" stroke-linejoin=\"round\" d=\"{shape}\"/>\
         <path stroke=\"{colour}\" stroke-width=\"{width}\" stroke-linejoin=\"round\" d=\"{shape}\"/>\n"
    )
}

fn marks(picture: &Picture, at: &[[f64; 2]]) -> String {
    let mut svg = String::new();
    let radius = if picture.singularities.len() > 100 { 70.0 } else { 140.0 };
    for s in picture.singularities {
        let corners = picture.floor.triangles[s.triangle].map(|v| at[v as usize]);
        let middle = [0, 1].map(|i| corners.iter().map(|p| p[i]).sum::<f64>() / 3.0);
        let colour = if s.valence == Valence::Three { RED } else { BLUE };
        let mut path = String::new();
        line(&mut path, &corners);
        let _ = writeln!(svg, "<path fill=\"{colour}\" fill-opacity=\".45\" d=\"{path}z\"/>");
        svg += &marker(s.valence, middle, radius);
    }
    svg
}

/// Flagged triangles hatched, and the sides that were cut for them with their middles.
fn refinement(picture: &Picture, frame: &Frame, room: f64) -> (String, String) {
    let at = |v: u32| frame.place(picture.given.points[v as usize]);
    let mut hatch = String::new();
    for &k in picture.flagged {
        line(&mut hatch, &picture.given.triangles[k].map(at));
        hatch.push('z');
    }
    let (mut cut, mut middles) = (String::new(), String::new());
    for &[a, b] in picture.cut {
        let (a, b) = (at(a), at(b));
        line(&mut cut, &[a, b]);
        push(
            &mut middles,
            'M',
            &[whole(0.5 * (a[0] + b[0])), whole(0.5 * (a[1] + b[1]))],
        );
        middles += "h0";
    }
    let hatched = format!("<path fill=\"url(#flagged)\" d=\"{hatch}\"/>\n");
    let (thin, dot) = (
        whole((0.03 * room).clamp(4.0, 9.0)),
        whole((0.11 * room).clamp(14.0, 34.0)),
    );
    let lines = format!(
        "<path stroke=\"{AMBER}\" stroke-width=\"{thin}\" d=\"{cut}\"/>\n\
         <path stroke=\"{AMBER}\" stroke-width=\"{dot}\" stroke-linecap=\"round\" d=\"{middles}\"/>\n"
    );
    (hatched, lines)
}

/// All tints from 0 to 90 degrees, with a tick and its number every 45.
fn tint_strip() -> String {
    const WIDTH: i64 = 520;
    const STEPS: i64 = 26;
    let mut strip = String::new();
    for k in 0..STEPS {
        let colour = tint((k as f64 + 0.5) / STEPS as f64 * FRAC_PI_2);
        let step = WIDTH / STEPS;
        let _ = write!(
            strip,
            "<path fill=\"{colour}\" d=\"M{} 0h{}v90h-{}z\"/>",
            step * k,
            step + 1,
            step + 1
        );
    }
    let (mut ticks, mut numbers) = (format!("M0 0h{WIDTH}v90h-{WIDTH}z"), String::new());
    for degrees in [0, 45, 90] {
        let x = WIDTH * degrees / 90;
        let _ = write!(ticks, "M{x} 90v30");
        let _ = write!(numbers, "<text x=\"{x}\" y=\"222\">{degrees}\u{b0}</text>");
    }
    strip
        + &format!(
            "<path stroke=\"{SOFT}\" stroke-width=\"6\" d=\"{ticks}\"/>\
         <g font-size=\"105\" text-anchor=\"middle\" fill=\"{SOFT}\">{numbers}</g>"
        )
}

/// One entry of the legend: a drawing in a box of 520 by 200 units, and words.
struct Entry {
    icon: String,
    words: String,
}

fn entries(picture: &Picture, drawn: usize) -> Vec<Entry> {
    let entry = |icon: String, words: String| Entry { icon, words };
    let mut arms = String::new();
    cross(&mut arms, [260.0, 100.0], 0.35, 95.0);
    let all = picture.floor.points.len();
    let words = if drawn == all {
        "the field's cross at each point".to_string()
    } else {
        format!("the field's cross at {} of {} points", grouped(drawn), grouped(all))
    };
    let mut entries = vec![entry(
        format!("<path stroke=\"{INK}\" stroke-width=\"14\" stroke-linecap=\"round\" d=\"{arms}\"/>"),
        words,
    )];
    entries.push(entry(tint_strip(), "tint: its angle".to_string()));
    let of = |valence| picture.singularities.iter().filter(|s| s.valence == valence).count();
    for (valence, meet) in [(Valence::Three, "three"), (Valence::Five, "five")] {
        let words = format!("singularities where {meet} quads meet: {}", grouped(of(valence)));
        entries.push(entry(marker(valence, [260.0, 105.0], 95.0), words));
    }
    if !picture.flagged.is_empty() {
        let icon = format!(
            "<path fill=\"url(#flagged)\" stroke=\"{AMBER}\" stroke-width=\"11\" d=\"M140 185L260 10 380 185z\"/>"
        );
        let words = format!(
            "flagged triangles, where it turned too far: {}",
            grouped(picture.flagged.len())
        );
        entries.push(entry(icon, words));
        let icon = format!(
            "<path stroke=\"{AMBER}\" stroke-width=\"11\" d=\"M60 100h400\"/>\
             <path stroke=\"{AMBER}\" stroke-width=\"34\" stroke-linecap=\"round\" d=\"M260 100h0\"/>"
        );
        entries.push(entry(
            icon,
            format!("cut sides, with their new points: {}", grouped(picture.cut.len())),
        ));
    }
    entries
}

/// A text as XML may hold it.
fn escaped(text: &str) -> String {
    let text: String = text.chars().filter(|c| !c.is_control()).collect();
    text.replace('&', "&amp;").replace('<', "&lt;").replace('>', "&gt;")
}

/// The picture as an SVG.
pub fn draw(picture: &Picture) -> String {
    let frame = Frame::of(picture.floor);
    let at: Vec<[f64; 2]> = picture.floor.points.iter().map(|&p| frame.place(p)).collect();
    let sides = Sides::of(picture.floor);
    let crossed = crosses(picture, &at, &sides.all);
    let mut arms = String::new();
    for &(v, room) in crossed.iter().filter(|(v, _)| picture.angles[*v].is_finite()) {
        cross(&mut arms, at[v], picture.angles[v], (0.36 * room).min(LONGEST_ARM));
    }
    let room = crossed.iter().map(|c| c.1).sum::<f64>() / crossed.len().max(1) as f64;
    let (hatched, cut) = refinement(picture, &frame, room);
    let entries = entries(picture, crossed.len());
    let foot = TOP + frame.height + 330.0;
    let height = foot + LEGEND_ROW * entries.len().div_ceil(2) as f64 + 130.0;
    let (title, subtitle) = (escaped(picture.title), escaped(picture.subtitle));
    let mut svg = format!(
        "<svg xmlns=\"http://www.w3.org/2000/svg\" viewBox=\"0 0 {WIDTH} {0}\" width=\"{1}\" height=\"{2}\" role=\"img\" fill=\"none\" \
         font-family=\"Inter, 'Segoe UI', Roboto, 'DejaVu Sans', sans-serif\">\n<title>{title}</title>\n<desc>A cross field: {subtitle}</desc>\n\
         <defs><pattern id=\"flagged\" width=\"56\" height=\"56\" patternUnits=\"userSpaceOnUse\" patternTransform=\"rotate(45)\">\
         <path stroke=\"{AMBER}\" stroke-width=\"12\" stroke-opacity=\".6\" d=\"M28 0v56\"/></pattern></defs>\n\
         <path fill=\"#fff\" d=\"M0 0h{WIDTH}v{0}h-{WIDTH}z\"/>\n\
         <text x=\"{MARGIN}\" y=\"400\" font-size=\"250\" font-weight=\"600\" fill=\"{INK}\">{title}</text>\n\
         <text x=\"{MARGIN}\" y=\"640\" font-size=\"150\" fill=\"{SOFT}\">{subtitle}</text>\n",
        whole(height),
        whole(WIDTH / 10.0),
        whole(height / 10.0),
    );
    svg += &triangles(picture, &at);
    svg += &mesh(&sides.all, &at, MESH, (0.02 * room).clamp(2.0, 6.0));
    svg += &hatched;
    svg += &cut;
    svg += &mesh(&sides.rim, &at, INK, 14.0);
    svg += &marks(picture, &at);
    // above everything else, so that nothing hides a cross
    let width = whole((0.075 * room).clamp(6.0, 14.0));
    let _ = writeln!(
        svg,
        "<path stroke=\"{INK}\" stroke-width=\"{width}\" stroke-linecap=\"round\" d=\"{arms}\"/>"
    );
    for (k, Entry { icon, words }) in entries.iter().enumerate() {
        let (x, y) = (MARGIN + (k % 2) as f64 * 4600.0, foot + LEGEND_ROW * (k / 2) as f64);
        let _ = writeln!(
            svg,
            "<g transform=\"translate({x} {y})\">{icon}<text x=\"680\" y=\"155\" font-size=\"155\" fill=\"{INK}\">{}</text></g>",
            escaped(words)
        );
    }
    svg + "</svg>\n"
}

#[cfg(test)]
mod tests {
    use super::*;
    use crate::arguments::Demo;

    /// That tags close in order and numbers in paths are whole and within the drawing, a little more allowed for crosses.
    fn check(svg: &str) {
        let mut open = vec![];
        for tag in svg.split('<').skip(1) {
            let (tag, _) = tag.split_once('>').expect("a tag that ends");
            let name = tag.split([' ', '/']).find(|word| !word.is_empty()).expect("a name");
            if tag.starts_with('/') {
                assert_eq!(open.pop(), Some(name));
            } else if !tag.ends_with('/') {
                open.push(name);
            }
            if let Some((_, path)) = tag.split_once(" d=\"") {
                let path = path.split('"').next().unwrap();
                let words = path.replace('-', " -").replace(|c: char| c.is_ascii_alphabetic(), " ");
                for word in words.split_whitespace() {
                    let number: i64 = word.parse().expect("a whole number");
                    assert!(number.abs() < 20_000, "{number}");
                }
            }
        }
        assert_eq!(open, [""; 0]);
    }

    fn drawn(points: &[[f64; 3]], triangles: &[[u32; 3]], angles: &[f64]) -> String {
        let sizes = vec![1.0; points.len()];
        let floor = Floor {
            points,
            triangles,
            sizes: &sizes,
        };
        let singularities: Vec<Singularity> = godf::singularities(angles, triangles).collect();
        draw(&Picture {
            title: "a <b> & c\u{1}",
            subtitle: "",
            floor,
            angles,
            singularities: &singularities,
            given: floor,
            flagged: &[0],
            cut: &[[0, 1]],
        })
    }

    #[test]
    fn floors_of_any_extent() {
        for scale in [1e-310, 1e-300, 1e-3, 1.0, 1e9, 1e300, f64::MAX] {
            for tall in [1e-9, 1.0, 1e9] {
                let points = [
                    [-scale, -scale / tall, 0.0],
                    [scale, 0.0, 0.0],
                    [0.0, scale / tall, 0.0],
                ];
                check(&drawn(&points, &[[0, 1, 2]], &[0.0, 0.5, 1.0]));
            }
        }
    }

    #[test]
    fn crosses_are_thinned() {
        let scene = Demo::Disk.scene();
        for (asked, least, most) in [(900, 800, 900), (5000, 600, 1300), (12000, 600, 1300)] {
            let floor = scene.floor(asked);
            let angles = vec![0.3; floor.points.len()];
            let svg = drawn(&floor.points, &floor.triangles, &angles);
            check(&svg);
            // the crosses are the longest path without a fill that has round ends and the ink's colour, after the rim's
            let path = svg
                .lines()
                .rfind(|line| line.starts_with(&format!("<path stroke=\"{INK}\"")))
                .unwrap();
            let crosses = path.matches('M').count() / 2;
            assert!((least..=most).contains(&crosses), "{crosses} crosses of {asked}");
        }
    }

    #[test]
    fn the_tints_have_numbers() {
        let points = [[0.0; 3], [1.0, 0.0, 0.0], [0.0, 1.0, 0.0]];
        let svg = drawn(&points, &[[0, 1, 2]], &[0.0; 3]);
        for (x, degrees) in [(0, 0), (260, 45), (520, 90)] {
            assert!(svg.contains(&format!("M{x} 90v30")), "a tick at {degrees}");
            assert!(svg.contains(&format!("<text x=\"{x}\" y=\"222\">{degrees}\u{b0}</text>")));
        }
    }

    #[test]
    fn markers_by_shape_and_colour() {
        let points = [[0.0; 3], [1.0, 0.0, 0.0], [0.0, 1.0, 0.0], [1.0, 1.0, 0.0]];
        let svg = drawn(&points, &[[0, 1, 2], [1, 0, 2]], &[0.0, 0.5, 1.0, 0.0]);
        for (colour, corners) in [(RED, 3), (BLUE, 5)] {
            let mark = format!("<path stroke=\"{colour}\"");
            let shape = svg
                .split(&mark)
                .nth(1)
                .expect("a mark")
                .split(" d=\"")
                .nth(1)
                .expect("a path");
            assert_eq!(shape.split('z').next().unwrap().matches('l').count() + 1, corners);
        }
        // nothing but the legend comes after the crosses, and no marker is filled
        let crosses = svg.rfind(&format!("\n<path stroke=\"{INK}\"")).expect("crosses");
        let legend = svg.find("<g transform").expect("a legend");
        let after = &svg[crosses + 1..legend];
        assert_eq!((after.lines().count(), after.matches("<path").count()), (1, 1));
        for colour in [RED, BLUE] {
            let fill = format!("fill=\"{colour}\"");
            assert!(svg.split(&fill).skip(1).all(|rest| rest.starts_with(" fill-opacity")));
        }
        assert!(svg.contains("three quads meet: 1") && svg.contains("five quads meet: 1"));
        assert!(svg.contains("<title>a &lt;b&gt; &amp; c</title>"));
    }
}
