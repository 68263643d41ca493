//! The command as it is used: statuses, messages, and what the files hold after it.
#![cfg(unix)]

use std::{
    fs,
    io::Write,
    os::unix::{
        fs::{MetadataExt, PermissionsExt},
        process::{CommandExt, ExitStatusExt},
    },
    path::{Path, PathBuf},
    process::{Command, Output, Stdio},
    thread,
    time::Duration,
};

const SQUARE: &str = "4 2\n0 0 0 1\n2 0 0 1\n2 2 0 1\n0 2 0 1\n0 1 2\n0 2 3\n";
const TURNING: &str = "4 2\n0 0 0 1 0\n2 0 0 1 0.375\n2 2 0 1 0\n0 2 0 1 0\n0 1 2\n0 2 3\n";

/// A folder of a test's own, gone with it.
struct Folder(PathBuf);

impl Folder {
    fn new(test: &str) -> Self {
        let path = std::env::temp_dir().join(format!("godf-{test}-{}", std::process::id()));
        let _ = fs::remove_dir_all(&path);
        fs::create_dir(&path).expect("a folder");
        Self(path)
    }

    fn with(&self, name: &str, text: &str) -> String {
        fs::write(self.0.join(name), text).expect("a file");
        name.to_string()
    }

    fn has(&self, name: &str) -> Option<String> {
        fs::read_to_string(self.0.join(name)).ok()
    }

    fn names(&self) -> Vec<String> {
        let entries = fs::read_dir(&self.0).expect("a folder");
        let mut names: Vec<String> = entries.map(|e| e.unwrap().file_name().into_string().unwrap()).collect();
        names.sort();
        names
    }

    fn godf(&self, words: &str) -> Command {
        let mut command = Command::new(env!("CARGO_BIN_EXE_godf"));
        command.current_dir(&self.0).args(words.split_whitespace());
        command
    }

    fn run(&self, words: &str) -> Outcome {
        Outcome::of(self.godf(words).stdin(Stdio::null()).output().expect("godf"))
    }

    fn run_on(&self, words: &str, input: &str) -> Outcome {
        let mut command = self.godf(words);
        command
            .stdin(Stdio::piped())
            .stdout(Stdio::piped())
            .stderr(Stdio::piped());
        let mut child = command.spawn().expect("godf");
        child
            .stdin
            .take()
            .unwrap()
            .write_all(input.as_bytes())
            .expect("standard input");
        Outcome::of(child.wait_with_output().expect("godf"))
    }
}

impl Drop for Folder {
    fn drop(&mut self) {
        let _ = fs::remove_dir_all(&self.0);
    }
}

#[derive(Debug)]
struct Outcome {
    status: Option<i32>,
    out: String,
    err: String,
}

impl Outcome {
    fn of(output: Output) -> Self {
        Self {
            status: output.status.code(),
            out: String::from_utf8(output.stdout).unwrap(),
            err: String::from_utf8(output.stderr).unwrap(),
        }
    }

    /// Expects this status, and these words in the message: one line, after any about progress.
    fn expect(&self, status: i32, words: &str) {
        assert_eq!(self.status, Some(status), "{self:?}");
        assert!(self.err.contains(words), "no `{words}` in {self:?}");
        if status != 0 {
            let last = self.err.lines().last().unwrap_or("");
            assert!(last.starts_with("godf: ") && last.contains(words), "{self:?}");
        }
    }
}

fn numbers(text: &str) -> Vec<f64> {
    text.split_whitespace()
        .map(|word| word.parse().expect("a number"))
        .collect()
}

#[test]
fn help_and_version() {
    let folder = Folder::new("help");
    for words in ["--help", "-h", "help", "solve --help"] {
        let outcome = folder.run(words);
        outcome.expect(0, "");
        assert!(outcome.out.contains("godf demo disk|plate|yard") && outcome.out.lines().count() <= 24);
    }
    assert!(folder.run("--version").out.starts_with("godf 0."));
    let outcome = folder.run("");
    outcome.expect(2, "missing command");
    assert!(outcome.out.is_empty() && outcome.err.contains("godf demo disk|plate|yard"));
    folder.run("solve").expect(2, "missing floor");
    folder.run("solve a --colour red").expect(2, "unknown option --colour");
    // a file of that name
    folder.with("--floor", SQUARE);
    folder.run("solve --boundary tangent -- --floor").expect(0, "");
    folder
        .run("solve a --svg --accurate")
        .expect(2, "missing value for --svg");
    let outcome = folder.godf("solve a").args(["--svg", ""]).output().unwrap();
    Outcome::of(outcome).expect(2, "--svg needs a file name");
    assert_eq!(folder.names(), ["--floor"]);
}

/// Options that would do nothing.
#[test]
fn ignored_options() {
    let folder = Folder::new("ignored");
    folder.with("angles.txt", TURNING);
    for words in ["probe angles.txt 0.1 0.1", "singularities angles.txt"] {
        folder.run(words).expect(0, "");
        for option in ["--holomorphic 7", "--boundary tangent", "--accurate", "--iterations 3"] {
            let name = option.split(' ').next().unwrap();
            folder.run(&format!("{words} {option}")).expect(
                2,
                &format!("angles.txt has angles, which are the field: {name} would be ignored"),
            );
        }
        folder
            .run(&format!("{words} --adaptive nan"))
            .expect(2, "--adaptive applies only to");
        // with guidance the field is solved
        folder
            .run(&format!("{words} --guidance 1 --iterations 3"))
            .expect(0, "");
    }
    let refine = "refine angles.txt --adaptive 0.25";
    folder.run(refine).expect(0, "");
    folder
        .run(&format!("{refine} --accurate"))
        .expect(2, "--accurate would be ignored");
    // without angles the field is solved
    folder.with("square.txt", SQUARE);
    folder.run("probe square.txt 1 0.5 --boundary tangent").expect(0, "");
}

#[test]
fn a_solve_is_the_crates() {
    let folder = Folder::new("solve");
    folder.with("square.txt", SQUARE);
    let outcome = folder.run("solve square.txt --boundary tangent --angles angles.txt --floor out.txt --svg out.svg");
    outcome.expect(0, "");
    assert!(
        outcome.out.contains("square: 4 points, 2 triangles; boundary tangent"),
        "{outcome:?}"
    );
    assert!(
        outcome.out.contains("time: reading ") && outcome.out.contains(", solving "),
        "{outcome:?}"
    );
    let floor = godf::Floor {
        points: &[[0.0, 0.0, 0.0], [2.0, 0.0, 0.0], [2.0, 2.0, 0.0], [0.0, 2.0, 0.0]],
        triangles: &[[0, 1, 2], [0, 2, 3]],
        sizes: &[1.0; 4],
    };
    let options = godf::Options::new().boundary(godf::BoundaryMode::Tangent);
    let mut workspace = godf::Workspace::new();
    let field = workspace.solve(floor, &options, None, 100).unwrap();
    assert_eq!(numbers(&folder.has("angles.txt").unwrap()), field.angles());
    let svg = folder.has("out.svg").unwrap();
    assert!(svg.starts_with("<svg ") && svg.ends_with("</svg>\n"));
    // the floor that was written has the field
    let angle = folder.run("probe out.txt 1 0.5");
    angle.expect(0, "");
    let wanted = godf::probe(field.angles(), floor.points, floor.triangles, [1.0, 0.5]);
    assert_eq!(godf::Probe::Angle(numbers(&angle.out)[0]), wanted);
    assert_eq!(folder.names(), ["angles.txt", "out.svg", "out.txt", "square.txt"]);
}

#[test]
fn standard_input_and_output() {
    let folder = Folder::new("standard");
    let outcome = folder.run_on("solve - --boundary tangent --angles -", SQUARE);
    outcome.expect(0, "floor: 4 points, 2 triangles");
    assert_eq!(numbers(&outcome.out).len(), 4);
    // document 01's listing
    let refined = folder.run_on("refine - --adaptive 0.25", TURNING);
    refined.expect(0, "1 triangle flagged, 3 sides cut: 7 points, 6 triangles");
    let lines: Vec<&str> = refined.out.lines().collect();
    assert_eq!(lines[0], "7 6");
    assert_eq!(lines[8..], ["0 4 6", "4 1 5", "6 5 2", "4 5 6", "0 6 3", "6 2 3"]);
    // a field that is given is not solved again
    let outcome = folder.run_on("singularities -", "3 1\n0 0 0 1 0\n1 0 0 1 0.5\n0 1 0 1 1\n0 1 2\n");
    outcome.expect(0, "");
    assert!(
        outcome.out.contains("\n0 3 0.333") && outcome.out.ends_with("# 1 of valence 3, 0 of valence 5\n"),
        "{outcome:?}"
    );
    let guided = folder.run_on("solve - --guidance 1000000 --angles -", TURNING);
    assert!((numbers(&guided.out)[1] - 0.375).abs() < 1e-3, "{guided:?}");
    folder
        .run_on("solve - --guidance 1", SQUARE)
        .expect(2, "--guidance needs a floor with angles");
    assert_eq!(folder.names(), [""; 0]);
}

#[test]
fn refusals_are_status_1_with_their_row_and_line() {
    let folder = Folder::new("refusals");
    // the start of the message, and its row
    for (words, floor, start, row) in [
        ("solve -", "0 0\n", "standard input: ", 3),
        (
            "solve -",
            "# a comment\n3 1\n0 0 0 1\n\n1 0 0 1\n0 1 0 -1\n0 1 2\n",
            "standard input, line 6: point 2: ",
            7,
        ),
        (
            "solve -",
            "3 1\n0 0 0 1\ninf 0 0 1\n0 1 0 1\n0 1 2\n",
            "standard input, line 3: point 1: ",
            6,
        ),
        (
            "solve -",
            "3 2\n0 0 0 1\n1 0 0 1\n0 1 0 1\n0 1 2\n0 1 3\n",
            "standard input, line 6: triangle 1 (corners 0 1 3): ",
            8,
        ),
        (
            "solve -",
            "3 1\n0 0 0 1\n1 0 0 1\n2 0 0 1\n0 1 2\n",
            "standard input, line 5: triangle 0 (corners 0 1 2): ",
            19,
        ),
        (
            "solve -",
            "4 1\n0 0 0 1\n1 0 0 1\n0 1 0 1\n5 5 0 1\n0 1 2\n",
            "standard input, line 5: point 3: ",
            20,
        ),
        (
            "solve -",
            "3 1\n0 0 0 1e308\n1 0 0 1e308\n0 1 0 1e308\n0 1 2\n",
            "standard input, lines 2 and 3: edge from point 0 to point 1: ",
            22,
        ),
        (
            "solve - --guidance 1",
            "3 1\n0 0 0 1 0\n1 0 0 1 inf\n0 1 0 1 0\n0 1 2\n",
            "standard input, line 3: point 1: ",
            16,
        ),
        ("solve - --iterations 0", SQUARE, "", 2),
        ("solve - --holomorphic 1.5", SQUARE, "holomorphic", 9),
        (
            "solve - --boundary weak=-1",
            SQUARE,
            "the weight of the weak boundary",
            13,
        ),
        ("solve - --adaptive -0.5", SQUARE, "the threshold", 12),
        ("refine - --adaptive nan", SQUARE, "the threshold", 12),
    ] {
        let answer = folder.run_on(&format!("{words} "), floor);
        answer.expect(1, &format!("(refused by row {row})"));
        assert!(answer.err.starts_with(&format!("godf: {start}")), "{answer:?}");
        assert_eq!(answer.out, "");
    }
    folder.run_on("probe - 9 9", SQUARE).expect(1, "no angle at 9 9");
    folder
        .run("demo disk --points 20000 --svg big.svg")
        .expect(1, "(refused by row 1)");
    // the hints of the library's own texts
    let outcome = folder.run("demo plate --boundary none --holomorphic 1 --adaptive 0");
    outcome.expect(1, "(refused by row 24, reason 6)");
    assert!(
        outcome.err.starts_with("godf: plate: ") && outcome.err.contains("`accurate`"),
        "{outcome:?}"
    );
    assert_eq!(folder.names(), [""; 0]);
}

/// A grid of 31 by 31 points, each moved a little, with sizes between 1 and 1.5.
fn uneven_grid(seed: u64) -> String {
    const SIDE: usize = 31;
    let mut state = seed;
    let mut random = || {
        state = state
            .wrapping_mul(6_364_136_223_846_793_005)
            .wrapping_add(1_442_695_040_888_963_407);
        (state >> 11) as f64 / (1u64 << 53) as f64
    };
    let mut text = format!("{} {}\n", SIDE * SIDE, 2 * (SIDE - 1) * (SIDE - 1));
    for i in 0..SIDE * SIDE {
        let [x, y] = [i % SIDE, i / SIDE].map(|at| at as f64 + 0.6 * random() - 0.3);
        text += &format!("{x} {y} 0 {}\n", 1.0 + 0.5 * random());
    }
    for i in (0..SIDE * (SIDE - 1)).filter(|i| i % SIDE + 1 < SIDE) {
        let [a, b, c, d] = [i, i + 1, i + SIDE, i + SIDE + 1];
        text += &format!("{a} {b} {d}\n{a} {d} {c}\n");
    }
    text
}

/// A refusal of the second pass says so, and how to get the first pass's field.
#[test]
fn a_refusal_on_the_refined_floor() {
    let folder = Folder::new("second");
    let solve = "solve grid.txt --boundary tangent --adaptive";
    let second = (0..100).find(|&seed| {
        folder.with("grid.txt", &uneven_grid(seed));
        folder.run(&format!("{solve} 0.2")).err.contains("on the refined floor")
    });
    assert!(second.is_some(), "no floor that the second pass refuses");
    let outcome = folder.run(&format!("{solve} 0.2"));
    outcome.expect(
        1,
        "; --adaptive 0 gives the first pass's field (refused by row 24, reason ",
    );
    assert!(
        outcome.err.starts_with("godf: grid.txt: on the refined floor: "),
        "{outcome:?}"
    );
    folder.run(&format!("{solve} 0")).expect(0, "");
}

#[test]
fn floors_that_cannot_be_read() {
    let folder = Folder::new("unread");
    folder.with("empty.txt", "");
    folder.with("bad.txt", "4 2\n0 0 0 1\n2 0 zero 1\n");
    folder.with("huge.txt", "99999999999999 4\n");
    folder.with("more.txt", "999999999999999999999999 4\n");
    folder.with("short.txt", "100000 5\n0 0 0 1\n");
    fs::write(folder.0.join("bytes.txt"), [0xff, 0xfe, 0, 1]).unwrap();
    fs::create_dir(folder.0.join("sub")).unwrap();
    for (name, outcome) in [
        ("none.txt", "cannot read none.txt: No such file"),
        ("empty.txt", "empty.txt: no floor"),
        ("bad.txt", "bad.txt, line 3: `zero` is not a number"),
        ("huge.txt", "huge.txt, line 1: a floor has at most 114,688 points"),
        (
            "more.txt",
            "more.txt, line 1: `999999999999999999999999` is not a count",
        ),
        ("short.txt", "short.txt: the text ends after 1 of 100,000 points"),
        ("bytes.txt", "bytes.txt is not a text file"),
        ("sub", "cannot read sub: Is a directory"),
        ("/dev/zero", "/dev/zero is longer than 64 MiB"),
    ] {
        let before = folder.names();
        folder
            .run(&format!("solve {name} --svg out.svg --angles out.txt"))
            .expect(2, outcome);
        assert_eq!(folder.names(), before);
    }
}

/// The command as a user without rights: as another user where the test is run by root, who may read and write everything.
fn unprivileged(folder: &Folder, words: &str) -> Outcome {
    let mut command = folder.godf(words);
    if fs::metadata(&folder.0).unwrap().uid() == 0 {
        // where that user can reach it
        let copy = folder.0.join("godf");
        fs::copy(env!("CARGO_BIN_EXE_godf"), &copy).expect("a copy of the command");
        command = Command::new(&copy);
        command
            .current_dir(&folder.0)
            .args(words.split_whitespace())
            .uid(65534)
            .gid(65534);
    }
    Outcome::of(command.stdin(Stdio::null()).output().expect("godf"))
}

fn allow(path: &Path, mode: u32) {
    fs::set_permissions(path, fs::Permissions::from_mode(mode)).expect("rights");
}

#[test]
fn no_permission() {
    let folder = Folder::new("rights");
    allow(&folder.0, 0o755);
    folder.with("secret.txt", SQUARE);
    allow(&folder.0.join("secret.txt"), 0o000);
    unprivileged(&folder, "solve secret.txt").expect(2, "cannot read secret.txt: Permission denied");
    folder.with("square.txt", SQUARE);
    fs::create_dir(folder.0.join("closed")).unwrap();
    allow(&folder.0.join("closed"), 0o555);
    let outcome = unprivileged(&folder, "solve square.txt --boundary tangent --svg closed/a.svg");
    outcome.expect(2, "cannot write closed/a.svg: Permission denied");
    assert_eq!(fs::read_dir(folder.0.join("closed")).unwrap().count(), 0);
}

#[test]
fn outputs_that_cannot_be_written() {
    let folder = Folder::new("outputs");
    folder.with("square.txt", SQUARE);
    fs::create_dir(folder.0.join("sub")).unwrap();
    let before = folder.names();
    let solve = "solve square.txt --boundary tangent";
    folder
        .run(&format!("{solve} --svg sub"))
        .expect(2, "cannot write sub: it is a folder");
    folder
        .run(&format!("{solve} --svg none/a.svg"))
        .expect(2, "cannot write none/a.svg: none is not a folder");
    folder
        .run(&format!("{solve} --svg square.txt/a.svg"))
        .expect(2, "square.txt is not a folder");
    folder
        .run(&format!("{solve} --svg a.svg --angles ./a.svg"))
        .expect(2, "cannot write ./a.svg: another output goes there");
    folder
        .run(&format!("{solve} --angles a.txt --svg /dev/full"))
        .expect(2, "cannot write /dev/full: No space left");
    assert_eq!(folder.names(), before);
    // a standard output without room
    let full = fs::File::options().write(true).open("/dev/full").unwrap();
    let outcome = folder
        .godf(&format!("{solve} --angles - --svg a.svg"))
        .stdout(full)
        .output()
        .unwrap();
    Outcome::of(outcome).expect(2, "cannot write standard output: No space left");
    assert_eq!(folder.names(), before);
}

/// A full disk, by the shell's limit on the length of a file: what was there stays, and nothing is left beside it.
#[test]
fn full_disk() {
    let folder = Folder::new("full");
    folder.with("plate.svg", "as it was");
    let limited = "trap '' XFSZ; ulimit -f 8; exec \"$@\"";
    let mut command = Command::new("sh");
    command
        .current_dir(&folder.0)
        .args(["-c", limited, "sh", env!("CARGO_BIN_EXE_godf")]);
    command.args([
        "demo",
        "plate",
        "--angles",
        "angles.txt",
        "--svg",
        "plate.svg",
        "--floor",
        "floor.txt",
    ]);
    Outcome::of(command.output().unwrap()).expect(2, "File too large");
    assert_eq!(folder.names(), ["plate.svg"]);
    assert_eq!(folder.has("plate.svg").unwrap(), "as it was");
    // and with room
    folder.run("demo plate --svg plate.svg").expect(0, "");
    assert!(folder.has("plate.svg").unwrap().len() > 8 * 1024);
    assert_eq!(folder.names(), ["plate.svg"]);
}

/// An output that is the floor itself, by any name.
#[test]
fn the_input_is_not_replaced() {
    let folder = Folder::new("input");
    folder.with("f.txt", SQUARE);
    std::os::unix::fs::symlink("f.txt", folder.0.join("link.txt")).unwrap();
    for words in [
        "solve f.txt --boundary tangent --svg f.txt",
        "solve f.txt --boundary tangent --angles ./f.txt",
        "solve f.txt --boundary tangent --svg link.txt",
        "solve link.txt --boundary tangent --svg f.txt",
        "refine f.txt --boundary tangent --adaptive 0.1 --svg ./f.txt",
    ] {
        folder.run(words).expect(2, "it would replace the floor that is read");
        assert_eq!(folder.has("f.txt").as_deref(), Some(SQUARE));
    }
    let input = fs::File::open(folder.0.join("f.txt")).unwrap();
    let mut command = folder.godf("solve - --boundary tangent --svg f.txt");
    Outcome::of(command.stdin(input).output().unwrap()).expect(2, "it would replace the floor that is read");
    assert_eq!(folder.has("f.txt").as_deref(), Some(SQUARE));
    // a floor may replace a floor
    folder.run("solve f.txt --boundary tangent --floor f.txt").expect(0, "");
    assert!(folder.has("f.txt").unwrap().starts_with("4 2\n0 0 0 1 "));
    assert_eq!(folder.names(), ["f.txt", "link.txt"]);
}

/// Whether the kernel lets this test bind a file over itself, as containers do, in a name space of its own.
fn can_mount() -> bool {
    let status = Command::new("unshare")
        .args(["--mount", "true"])
        .stderr(Stdio::null())
        .status();
    status.is_ok_and(|status| status.success())
}

/// A mount point cannot be renamed over: it is written in place, and no part is left. Skipped where mounting is not allowed.
#[test]
fn an_output_that_is_a_mount_point() {
    if !can_mount() {
        eprintln!("skipped: an output that is a mount point needs the right to mount");
        return;
    }
    let folder = Folder::new("mount");
    folder.with("bound.svg", "before, and longer than nothing");
    let script = "mount --bind bound.svg bound.svg && exec \"$@\"";
    let mut command = Command::new("unshare");
    command.current_dir(&folder.0);
    command.args(["--mount", "sh", "-c", script, "sh", env!("CARGO_BIN_EXE_godf")]);
    command.args("demo disk --angles a.txt --svg bound.svg --floor f.txt".split(' '));
    Outcome::of(command.output().unwrap()).expect(0, "");
    assert!(folder.has("bound.svg").unwrap().ends_with("</svg>\n"));
    assert_eq!(folder.names(), ["a.txt", "bound.svg", "f.txt"]);
}

/// A command that has staged a.svg and a.txt and waits for a reader of the pipe that it writes first.
fn waiting(folder: &Folder) -> std::process::Child {
    let made = Command::new("mkfifo").arg(folder.0.join("pipe")).status().unwrap();
    assert!(made.success());
    let mut command = folder.godf("demo disk --svg a.svg --angles a.txt --floor pipe");
    command.stdout(Stdio::piped()).stderr(Stdio::piped());
    let child = command.spawn().unwrap();
    let begun = std::time::Instant::now();
    while folder.names().iter().filter(|name| name.ends_with(".part")).count() < 2 {
        assert!(begun.elapsed() < Duration::from_secs(60), "no parts");
        thread::sleep(Duration::from_millis(5));
    }
    child
}

/// A rename that fails leaves no part behind, neither its own nor another.
#[test]
fn a_rename_that_fails() {
    for (output, written) in [("a.svg", None), ("a.txt", Some("a.svg"))] {
        let folder = Folder::new(&format!("rename-{output}"));
        let child = waiting(&folder);
        fs::create_dir(folder.0.join(output)).unwrap();
        let floor = folder.has("pipe").unwrap();
        assert!(floor.lines().count() > 100);
        Outcome::of(child.wait_with_output().unwrap()).expect(2, &format!("cannot write {output}: Is a directory"));
        let mut left = vec![output, "pipe"];
        left.extend(written);
        left.sort_unstable();
        assert_eq!(folder.names(), left);
    }
}

#[test]
fn signals_leave_no_parts() {
    for (signal, number) in [("HUP", 1), ("INT", 2), ("TERM", 15)] {
        let folder = Folder::new(&format!("signal-{signal}"));
        let mut child = waiting(&folder);
        let sent = Command::new("kill")
            .args(["-s", signal, &child.id().to_string()])
            .status();
        assert!(sent.unwrap().success());
        assert_eq!(child.wait().unwrap().signal(), Some(number));
        assert_eq!(folder.names(), ["pipe"], "after {signal}");
    }
}

/// A reader that closes its end, and a standard error that fails.
#[test]
fn standard_streams_that_fail() {
    let folder = Folder::new("streams");
    let head = |words: &str| {
        let script = format!("\"$0\" {words} | head -n 1; echo \"${{PIPESTATUS[0]}}\"");
        let mut command = Command::new("bash");
        command
            .current_dir(&folder.0)
            .args(["-c", &script, env!("CARGO_BIN_EXE_godf")]);
        Outcome::of(command.output().unwrap())
    };
    // far more than a pipe holds
    let outcome = head("demo disk --points 4000 --floor - --svg a.svg 2>err");
    assert!(outcome.out.ends_with("\n0\n") && outcome.err.is_empty(), "{outcome:?}");
    assert!(!folder.has("err").unwrap().contains("Broken pipe"));
    assert!(folder.has("a.svg").unwrap().ends_with("</svg>\n"));
    let full = || fs::File::options().write(true).open("/dev/full").unwrap();
    let status = |words: &str| {
        folder
            .godf(words)
            .stderr(full())
            .stdout(Stdio::null())
            .status()
            .unwrap()
            .code()
    };
    assert_eq!(status("solve none.txt"), Some(2));
    assert_eq!(status("demo disk --points 20000"), Some(1));
    assert_eq!(status("demo disk --angles -"), Some(0));
}

#[test]
fn a_link_to_a_file_that_is_not_there_yet() {
    let folder = Folder::new("dangling");
    let link = |to: &str, name: &str| std::os::unix::fs::symlink(to, folder.0.join(name)).unwrap();
    fs::create_dir(folder.0.join("sub")).unwrap();
    link("sub/real.svg", "one.svg");
    link("one.svg", "two.svg");
    folder.run("demo disk --svg two.svg").expect(0, "");
    assert!(folder.has("sub/real.svg").unwrap().ends_with("</svg>\n"));
    for name in ["one.svg", "two.svg"] {
        assert!(fs::symlink_metadata(folder.0.join(name)).unwrap().is_symlink());
    }
    link("none/real.svg", "three.svg");
    folder
        .run("demo disk --svg three.svg")
        .expect(2, "cannot write three.svg");
    link("circle.svg", "circle.svg");
    folder.run("demo disk --svg circle.svg").expect(2, "too many links");
}

#[test]
fn a_link_and_its_rights_stay() {
    let folder = Folder::new("link");
    folder.with("real.svg", "before");
    allow(&folder.0.join("real.svg"), 0o640);
    std::os::unix::fs::symlink("real.svg", folder.0.join("link.svg")).unwrap();
    folder.run("demo disk --svg link.svg").expect(0, "");
    assert!(fs::symlink_metadata(folder.0.join("link.svg")).unwrap().is_symlink());
    assert!(folder.has("real.svg").unwrap().ends_with("</svg>\n"));
    assert_eq!(fs::metadata(folder.0.join("real.svg")).unwrap().mode() & 0o777, 0o640);
}

#[test]
fn demos() {
    let folder = Folder::new("demos");
    for (demo, charge) in [
        ("disk", "4 of valence 3, 0 of valence 5"),
        ("plate", "4 of valence 3, 4 of valence 5"),
        ("yard", ""),
    ] {
        let outcome = folder.run(&format!(
            "demo {demo} --svg {demo}.svg --floor {demo}.txt --angles {demo}.angles"
        ));
        outcome.expect(0, "");
        assert!(outcome.out.contains(charge), "{outcome:?}");
        let svg = folder.has(&format!("{demo}.svg")).unwrap();
        assert!(svg.len() < 500_000 && svg.contains("flagged triangles"));
        // the refined floor with its field can be read again
        let again = folder.run(&format!("singularities {demo}.txt"));
        again.expect(0, "");
        assert!(again.out.ends_with(&format!("{charge}\n")), "{again:?}");
    }
    folder
        .run("demo disk --points 5")
        .expect(2, "--points needs a count from 200");
}

/// A long stage is reported on standard error.
#[test]
fn a_line_while_it_lasts() {
    let folder = Folder::new("lasts");
    let mut command = folder.godf("solve - --boundary tangent");
    command
        .stdin(Stdio::piped())
        .stdout(Stdio::piped())
        .stderr(Stdio::piped());
    let mut child = command.spawn().unwrap();
    let mut input = child.stdin.take().unwrap();
    thread::sleep(Duration::from_millis(2400));
    input.write_all(SQUARE.as_bytes()).unwrap();
    drop(input);
    let outcome = Outcome::of(child.wait_with_output().unwrap());
    assert_eq!(
        (outcome.status, outcome.err.as_str()),
        (Some(0), "godf: reading standard input: 2 s\n"),
        "{outcome:?}"
    );
}
