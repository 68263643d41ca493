//! Makes copies of the reference in the build's own folder, which is never committed: `bound.rs`, whose sine, cosine and arctangent are
//! libgodf.a's, `platform.rs`, which keeps the platform's, and `wrong.rs` with one bound copy for each line of wrong.txt, that line
//! made wrong in it. A whole solve notes its first pass's angles, its counts and its second pass's angles on the way. Each copy gets
//! the text of accessors.rs at its end, so that private functions can be called. Any text that is not found exactly as often as
//! expected stops the build, and so does a text of messages.txt, or an error of the reference that is not there.

use std::{env, fs, path::Path, path::PathBuf, process::exit};

/// A text of the reference, how often it occurs, and what takes its place.
type Edit<'a> = (&'a str, usize, &'a str);

const BINDINGS: [Edit; 5] = [
    ("re: angle.cos(),", 1, "re: crate::leaves::cos(angle),"),
    ("im: angle.sin(),", 1, "im: crate::leaves::sin(angle),"),
    ("self.im.atan2(self.re)", 1, "crate::leaves::atan2(self.im, self.re)"),
    ("dvy.atan2(1.0 + dvx)", 1, "crate::leaves::atan2(dvy, 1.0 + dvx)"),
    // boundary_targets, and a demonstration that is not called
    (
        "(points[v][1] - points[u][1]).atan2(points[v][0] - points[u][0])",
        2,
        "crate::leaves::atan2(points[v][1] - points[u][1], points[v][0] - points[u][0])",
    ),
];

/// Calls of the platform's functions that may be left once the bindings stand: one in a demonstration.
const LEFT: [(&str, usize); 6] = [
    (".cos()", 0),
    (".sin()", 0),
    (".sin_cos()", 1),
    (".atan2(", 0),
    (".tan()", 0),
    (".atan()", 0),
];

/// Where solve_impl has its angles and counts, and where conjugate_gradient begins.
const NOTES: [Edit; 4] = [
    (
        "    if options.adaptive <= 0.0 {",
        1,
        "    access::note_coarse(&alpha);\n    if options.adaptive <= 0.0 {",
    ),
    (
        "    if flagged == 0 {\n        return Ok(alpha);",
        1,
        "    access::note_counts(flagged, edge_order.len());\n    if flagged == 0 {\n        return Ok(alpha);",
    ),
    (
        "    if refined_alpha.len() < n {",
        1,
        "    access::note_fine(&refined_alpha);\n    if refined_alpha.len() < n {",
    ),
    (
        "    let rhs_norm = euclidean_norm(rhs);",
        1,
        "    access::note_system(matrix, rhs, tolerance, max_iterations);\n    let rhs_norm = euclidean_norm(rhs);",
    ),
];

fn stop(message: String) -> ! {
    eprintln!("oracle: {message}");
    println!("cargo:warning=oracle: {message}");
    exit(1)
}

/// The text without comments on lines of their own.
fn code(text: &str) -> String {
    text.lines()
        .filter(|line| !line.trim_start().starts_with("//"))
        .map(|line| line.to_string() + "\n")
        .collect()
}

fn expect(text: &str, what: &str, times: usize) {
    let found = text.matches(what).count();
    if found != times {
        stop(format!("{found} times `{what}` in the reference, and not {times}"));
    }
}

fn edited(text: &str, (old, times, new): Edit) -> String {
    expect(text, old, times);
    text.replace(old, new)
}

fn bind(text: &str) -> String {
    let bound = BINDINGS
        .iter()
        .fold(text.to_string(), |text, &edit| edited(&text, edit));
    LEFT.iter().for_each(|&(what, times)| expect(&bound, what, times));
    bound
}

/// The rows of a table, cut at ` | ` into so many parts; lines that begin with # are comments.
fn rows(root: &Path, name: &str, parts: usize) -> Vec<Vec<String>> {
    println!("cargo:rerun-if-changed={name}");
    let text = fs::read_to_string(root.join(name)).unwrap_or_else(|e| stop(format!("{name}: {e}")));
    let lines = text.lines().filter(|line| !line.starts_with('#') && !line.is_empty());
    let rows: Vec<Vec<String>> = lines
        .map(|line| line.splitn(parts, " | ").map(str::to_string).collect())
        .collect();
    if let Some(row) = rows.iter().find(|row| row.len() != parts) {
        stop(format!("{name}: not {parts} parts in: {}", row.join(" | ")));
    }
    rows
}

fn count(word: &str) -> usize {
    word.parse().unwrap_or_else(|_| stop(format!("not a count: {word}")))
}

/// Every error of the reference is a row of messages.txt, and the other way round.
fn check_messages(root: &Path, source: &str) {
    let mut all = 0;
    for row in rows(root, "messages.txt", 5) {
        expect(source, &format!("\"{}\"", row[4]), count(&row[3]));
        all += count(&row[3]);
    }
    expect(source, "Err(", all);
}

/// A copy as the inside of a module.
fn copy(source: &str, accessors: &str) -> String {
    let noted = NOTES.iter().fold(source.to_string(), |text, &edit| edited(&text, edit));
    format!("{noted}\n{accessors}")
}

fn main() {
    let root = PathBuf::from(env::var("CARGO_MANIFEST_DIR").unwrap());
    let folder = env::var("GODF_REFERENCE").map_or(root.join("../../shared/docs/src"), PathBuf::from);
    let file = folder.join("src--src--simons_godf.rs.txt");
    let library = env::var("GODF_LIBRARY").map_or(root.join("../crates/godf/out"), PathBuf::from);
    println!("cargo:rerun-if-env-changed=GODF_REFERENCE");
    println!("cargo:rerun-if-env-changed=GODF_LIBRARY");
    println!("cargo:rerun-if-changed={}", file.display());
    println!("cargo:rerun-if-changed=accessors.rs");
    println!("cargo:rerun-if-changed={}", library.join("libgodf.a").display());
    let Ok(source) = fs::read_to_string(&file) else {
        stop(format!(
            "the reference is not at {}: set GODF_REFERENCE to its folder",
            file.display()
        ))
    };
    if !library.join("libgodf.a").exists() {
        stop(format!(
            "no libgodf.a in {}: run `rt lib` in crates/godf first",
            library.display()
        ))
    }
    let source = code(&source);
    let accessors = fs::read_to_string(root.join("accessors.rs")).expect("accessors.rs");
    check_messages(&root, &source);
    let out = PathBuf::from(env::var("OUT_DIR").unwrap());
    let write = |name: &str, text: String| fs::write(out.join(name), text).expect("a generated copy");
    write("platform.rs", copy(&source, &accessors));
    write("bound.rs", copy(&bind(&source), &accessors));
    // lines made wrong on purpose, to see that the comparison notices them: one module each, and a table of them
    let (mut modules, mut table) = (String::new(), String::new());
    for row in rows(&root, "wrong.txt", 5) {
        let [name, layers, times, old, new] = &row[..] else {
            unreachable!()
        };
        let text = copy(&bind(&edited(&source, (old, count(times), new))), &accessors);
        write(&format!("wrong_{name}.rs"), text);
        modules += &format!("mod {name} {{ include!(concat!(env!(\"OUT_DIR\"), \"/wrong_{name}.rs\")); }}\n");
        table +=
            &format!("    Copy {{ name: \"{name}\", layers: \"{layers}\", reference: &{name}::access::REFERENCE }},\n");
    }
    write(
        "wrong.rs",
        format!("{modules}pub static COPIES: &[Copy] = &[\n{table}];\n"),
    );
    println!("cargo:rustc-link-search=native={}", library.display());
    println!("cargo:rustc-link-lib=static=godf");
    println!("cargo:rustc-link-lib=m");
}
