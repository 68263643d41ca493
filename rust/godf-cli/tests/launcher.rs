//! ./godf and rust/archive, in a project of their own with stand-ins for cargo, dist/fits and dist/build that log their calls.
#![cfg(unix)]

use std::{
    fs,
    os::unix::{
        fs::{symlink, MetadataExt, PermissionsExt},
        process::CommandExt,
    },
    path::{Path, PathBuf},
    process::{Command, Output},
    time::{Duration, SystemTime},
};

const SOURCE: &str = "crates/godf/src/lib.rt";
const BUILT: &str = "rust/target/release/godf";

struct Project(PathBuf);

/// What a run printed, its status, and the calls of the stand-ins.
#[derive(Debug)]
struct Outcome {
    status: Option<i32>,
    out: String,
    err: String,
    log: Vec<String>,
}

impl Project {
    fn new(test: &str) -> Self {
        let path = std::env::temp_dir().join(format!("godf-launcher-{test}-{}", std::process::id()));
        let _ = fs::remove_dir_all(&path);
        fs::create_dir(&path).expect("a folder");
        let project = Self(path);
        let root = Path::new(env!("CARGO_MANIFEST_DIR"))
            .ancestors()
            .nth(2)
            .expect("the project");
        for name in ["godf", "rust/archive", "rust/Cargo.toml", "rust/godf-cli/help.txt"] {
            project.write(name, &fs::read_to_string(root.join(name)).expect(name));
        }
        project.write("crates.txt", "");
        project.write(SOURCE, "");
        project.write("rust/godf-cli/src/main.rs", "");
        for name in ["godf", "rust/archive"] {
            project.set_mode(name, 0o755);
        }
        // cargo builds a command that prints its words
        project.script(
            "bin/cargo",
            &format!("mkdir -p $project/rust/target/release; printf '#!/bin/sh\\necho ran \"$@\"\\n' > $project/{BUILT}; chmod +x $project/{BUILT}; echo \"library ${{GODF_LIBRARY:-none}}\" >> $project/log"),
        );
        project.script("dist/fits", "true");
        project.script("dist/build", "true");
        project
    }

    fn write(&self, name: &str, text: &str) {
        let path = self.0.join(name);
        fs::create_dir_all(path.parent().expect("a folder")).expect("a folder");
        fs::write(path, text).expect(name);
    }

    fn set_mode(&self, name: &str, mode: u32) {
        fs::set_permissions(self.0.join(name), fs::Permissions::from_mode(mode)).expect(name);
    }

    /// A stand-in that logs its name.
    fn script(&self, name: &str, does: &str) {
        let project = self.0.display();
        let last = name.rsplit('/').next().expect("a name");
        self.write(
            name,
            &format!("#!/bin/sh\nproject={project}\necho {last} >> $project/log\n{does}\n"),
        );
        self.set_mode(name, 0o755);
    }

    /// As old as an hour ago, or as new as in an hour.
    fn touch(&self, name: &str, later: bool) {
        let hour = Duration::from_secs(3600);
        let now = SystemTime::now();
        let time = if later { now + hour } else { now - hour };
        let file = fs::File::options().append(true).open(self.0.join(name)).expect(name);
        file.set_modified(time).expect(name);
    }

    fn command(&self, program: &Path) -> Command {
        let mut command = Command::new(program);
        let path = format!("{}:/usr/bin:/bin", self.0.join("bin").display());
        command.current_dir(&self.0).env("PATH", path);
        command.env_remove("GODF_LIBRARY").env_remove("CARGO_TARGET_DIR");
        command
    }

    fn outcome(&self, output: Output) -> Outcome {
        let log = fs::read_to_string(self.0.join("log")).unwrap_or_default();
        let _ = fs::remove_file(self.0.join("log"));
        Outcome {
            status: output.status.code(),
            out: String::from_utf8(output.stdout).expect("a text"),
            err: String::from_utf8(output.stderr).expect("a text"),
            log: log.lines().map(str::to_string).collect(),
        }
    }

    fn run(&self, words: &[&str]) -> Outcome {
        let output = self.command(&self.0.join("godf")).args(words).output();
        self.outcome(output.expect("./godf"))
    }

    fn archive(&self) -> Outcome {
        let output = self.command(&self.0.join("rust/archive")).output();
        self.outcome(output.expect("rust/archive"))
    }
}

impl Drop for Project {
    fn drop(&mut self) {
        let _ = fs::remove_dir_all(&self.0);
    }
}

/// Help and version need neither libgodf.a nor cargo, also through a link.
#[test]
fn help_at_once() {
    let project = Project::new("help");
    fs::remove_file(project.0.join("bin/cargo")).unwrap();
    fs::remove_file(project.0.join("dist/fits")).unwrap();
    symlink(project.0.join("godf"), project.0.join("bin/godf")).unwrap();
    let help = include_str!("../help.txt");
    let link = project.0.join("bin/godf");
    for words in [&["--help"][..], &["-h"], &["help"], &["solve", "a", "--help"]] {
        let output = project.command(&link).args(words).output().unwrap();
        let outcome = project.outcome(output);
        assert_eq!((outcome.status, outcome.out.as_str()), (Some(0), help), "{words:?}");
    }
    let outcome = project.run(&["--version"]);
    assert_eq!(outcome.out, concat!("godf ", env!("CARGO_PKG_VERSION"), "\n"));
    let outcome = project.run(&[]);
    assert_eq!((outcome.status, outcome.out.as_str()), (Some(2), ""));
    assert!(outcome.err.starts_with(help) && outcome.err.contains("godf: missing command"));
    // and a command needs cargo
    if !["/usr/bin/cargo", "/bin/cargo"]
        .iter()
        .any(|cargo| Path::new(cargo).exists())
    {
        let outcome = project.run(&["demo"]);
        assert_eq!(outcome.status, Some(2));
        assert!(outcome.err.contains("cargo is not installed"), "{outcome:?}");
    }
}

/// The archive is built where there is none of these sources, and only there.
#[test]
fn the_archive_first() {
    let project = Project::new("archive");
    let outcome = project.run(&["demo", "two words"]);
    assert_eq!(
        (outcome.status, outcome.out.as_str()),
        (Some(0), "ran demo two words\n"),
        "{outcome:?}"
    );
    assert_eq!(outcome.log, ["fits", "cargo", "library none"]);
    assert!(outcome.err.contains("building the command"));
    // again: nothing is newer, so that the archive is not looked for
    project.touch(BUILT, true);
    assert_eq!(project.run(&["demo"]).log, ["cargo", "library none"]);
    // a source that was changed
    project.touch(BUILT, false);
    project.script("dist/fits", "false");
    let outcome = project.run(&["demo"]);
    assert_eq!(outcome.log, ["fits", "build", "cargo", "library none"]);
    assert_eq!(outcome.out, "ran demo\n");
    // and a proof that fails
    project.touch(BUILT, false);
    project.script("dist/build", "exit 1");
    let outcome = project.run(&["demo"]);
    assert_eq!(
        (outcome.status, &outcome.log[..]),
        (Some(2), &["fits".to_string(), "build".to_string()][..])
    );
    assert!(outcome.err.contains("libgodf.a could not be built"), "{outcome:?}");
}

#[test]
fn which_archive() {
    let project = Project::new("which");
    assert_eq!(project.archive().out, format!("{}/dist\n", project.0.display()));
    project.script("dist/fits", "false");
    assert_eq!(
        (project.archive().status, project.archive().out.as_str()),
        (Some(1), "")
    );
    project.write("crates/godf/out/libgodf.a", "");
    project.touch("crates/godf/out/libgodf.a", true);
    let built = format!("{}/crates/godf/out\n", project.0.display());
    assert_eq!(project.archive().out, built);
    for source in [SOURCE, "crates.txt"] {
        project.touch("crates/godf/out/libgodf.a", false);
        for other in [SOURCE, "crates.txt"] {
            let file = fs::File::options().append(true).open(project.0.join(other)).unwrap();
            file.set_modified(SystemTime::UNIX_EPOCH).unwrap();
        }
        assert_eq!(project.archive().out, built);
        project.touch(source, true);
        assert_eq!(project.archive().status, Some(1), "{source} is newer");
    }
}

/// A relative GODF_LIBRARY is one of the folder where ./godf is called.
#[test]
fn a_relative_library() {
    let project = Project::new("relative");
    fs::create_dir_all(project.0.join("elsewhere/lib")).unwrap();
    let run = |library: &str| {
        let mut command = project.command(Path::new("../godf"));
        command
            .current_dir(project.0.join("elsewhere"))
            .env("GODF_LIBRARY", library)
            .arg("demo");
        project.outcome(command.output().unwrap())
    };
    let outcome = run("lib");
    let library = fs::canonicalize(project.0.join("elsewhere/lib")).unwrap();
    assert_eq!(
        outcome.log,
        ["cargo".to_string(), format!("library {}", library.display())],
        "{outcome:?}"
    );
    let outcome = run("none");
    assert!(
        outcome.status == Some(2) && outcome.err.contains("GODF_LIBRARY is not a folder: none"),
        "{outcome:?}"
    );
}

/// A command that is built runs where it cannot be built again, and says if a source is newer. Where it can be, a failing cargo stops.
#[test]
fn a_read_only_install() {
    let project = Project::new("read-only");
    project.run(&["demo"]);
    project.script("bin/cargo", "exit 1");
    assert_eq!(project.run(&["demo"]).status, Some(2));
    project.touch(BUILT, true);
    for folder in ["", "rust", "rust/target", "rust/target/release"] {
        project.set_mode(folder, 0o555);
    }
    let run = || {
        let mut command = project.command(&project.0.join("godf"));
        if fs::metadata(&project.0).unwrap().uid() == 0 {
            // root may write everything
            command.uid(65534).gid(65534);
        }
        project.outcome(command.arg("demo").output().unwrap())
    };
    let outcome = run();
    assert_eq!(
        (outcome.status, outcome.out.as_str(), outcome.err.as_str()),
        (Some(0), "ran demo\n", "")
    );
    assert_eq!(outcome.log, [""; 0]);
    project.touch(BUILT, false);
    let outcome = run();
    assert_eq!((outcome.status, outcome.out.as_str()), (Some(0), "ran demo\n"));
    assert!(
        outcome
            .err
            .contains("is newer than the command, which cannot be built again here"),
        "{outcome:?}"
    );
    for folder in ["", "rust", "rust/target", "rust/target/release"] {
        project.set_mode(folder, 0o755);
    }
}
