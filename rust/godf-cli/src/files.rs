//! Files: read whole, and written whole or not at all.

use crate::parts::Part;
use std::{
    env, fs,
    fs::File,
    io::{self, Read, Write},
    os::unix::fs::MetadataExt,
    path::{Path, PathBuf},
    process,
};

/// The name of standard input and of standard output.
pub const STANDARD: &str = "-";
/// The longest text that is read: several times that of the largest floor.
const MOST_BYTES: u64 = 64 << 20;

fn read_bytes(name: &str) -> io::Result<Vec<u8>> {
    let mut bytes = vec![];
    let mut take = |from: &mut dyn Read| from.take(MOST_BYTES + 1).read_to_end(&mut bytes);
    if name == STANDARD {
        take(&mut io::stdin().lock())?;
    } else {
        take(&mut File::open(name)?)?;
    }
    Ok(bytes)
}

/// An input's name in a message.
pub fn shown(name: &str) -> &str {
    if name == STANDARD {
        "standard input"
    } else {
        name
    }
}

/// The text of a file, or of standard input.
pub fn read(name: &str) -> Result<String, String> {
    let shown = shown(name);
    let bytes = read_bytes(name).map_err(|e| format!("cannot read {shown}: {e}"))?;
    if bytes.len() as u64 > MOST_BYTES {
        return Err(format!("{shown} is longer than 64 MiB, the most that is read"));
    }
    String::from_utf8(bytes).map_err(|_| format!("{shown} is not a text file"))
}

/// Where a rename fails because the file is a mount point, as a file bound into a container is.
const EBUSY: i32 = 16;
/// More links than this in a row are a circle.
const MOST_LINKS: usize = 40;

/// A file that is complete, beside the one that it will replace.
struct Staged {
    part: Part,
    target: PathBuf,
}

/// What a command writes: a name that was given changes only when everything has been written.
#[derive(Default)]
pub struct Outputs {
    staged: Vec<Staged>,
    /// Written in place: standard output, pipes and devices.
    direct: Vec<(String, String)>,
}

fn failed(name: &str, e: &io::Error) -> String {
    format!("cannot write {name}: {e}")
}

/// Finds out before a long solve that a name cannot be written to.
pub fn check(name: &str) -> Result<(), String> {
    if name == STANDARD {
        return Ok(());
    }
    let path = target_of(name)?;
    let folder = folder_of(&path);
    if path.is_dir() {
        Err(format!("cannot write {name}: it is a folder"))
    } else if !path.exists() && !folder.is_dir() {
        Err(format!(
            "cannot write {name}: {} is not a folder",
            relative(folder).display()
        ))
    } else {
        Ok(())
    }
}

/// Refuses an output that is the input.
pub fn check_apart(output: &str, input: &str) -> Result<(), String> {
    let input = if input == STANDARD { "/dev/stdin" } else { input };
    let file = |name: &str| {
        let data = fs::metadata(name).ok().filter(fs::Metadata::is_file)?;
        Some((data.dev(), data.ino()))
    };
    match (file(output), file(input)) {
        (Some(output_file), Some(input_file)) if output != STANDARD && output_file == input_file => Err(format!(
            "cannot write {output}: it would replace the floor that is read"
        )),
        _ => Ok(()),
    }
}

fn folder_of(path: &Path) -> &Path {
    match path.parent() {
        Some(folder) if folder != Path::new("") => folder,
        _ => Path::new("."),
    }
}

/// The file that a name stands for. Links are followed, also to a file that does not exist yet.
fn target_of(name: &str) -> Result<PathBuf, String> {
    let mut path = PathBuf::from(name);
    for _ in 0..MOST_LINKS {
        match fs::read_link(&path) {
            Ok(to) => path = folder_of(&path).join(to),
            Err(_) => {
                let folder = fs::canonicalize(folder_of(&path)).ok();
                let whole = folder.zip(path.file_name()).map(|(folder, name)| folder.join(name));
                return Ok(whole.unwrap_or(path));
            }
        }
    }
    Err(format!("cannot write {name}: too many links"))
}

impl Staged {
    /// Puts the file in its place.
    fn finish(&self) -> io::Result<()> {
        match fs::rename(self.part.path(), &self.target) {
            Err(e) if e.raw_os_error() == Some(EBUSY) => {
                let text = fs::read(self.part.path())?;
                File::options()
                    .write(true)
                    .truncate(true)
                    .open(&self.target)?
                    .write_all(&text)
            }
            renamed => renamed,
        }
    }
}

impl Outputs {
    /// Writes a text beside the file that it will replace.
    pub fn stage(&mut self, name: &str, text: String) -> Result<(), String> {
        let special = fs::metadata(name).is_ok_and(|data| !data.is_file() && !data.is_dir());
        if name == STANDARD || special {
            self.direct.push((name.to_string(), text));
            return Ok(());
        }
        check(name)?;
        let target = target_of(name)?;
        if self.staged.iter().any(|other| other.target == target) {
            return Err(format!("cannot write {name}: another output goes there"));
        }
        let last = target.file_name().unwrap_or_default().to_string_lossy().into_owned();
        let path = folder_of(&target).join(format!(".{last}.{}.part", process::id()));
        let write = || {
            let part = Part::new(path)?;
            let mut file = File::options().write(true).create_new(true).open(part.path())?;
            if let Ok(data) = fs::metadata(&target) {
                file.set_permissions(data.permissions())?;
            }
            file.write_all(text.as_bytes())?;
            file.sync_all()?;
            Ok(part)
        };
        let part = write().map_err(|e| failed(name, &e))?;
        self.staged.push(Staged { part, target });
        Ok(())
    }

    /// Puts everything in its place; the names that were written. What is left beside them is removed, also after a failure.
    pub fn finish(self) -> Result<Vec<String>, String> {
        for (name, text) in &self.direct {
            if name == STANDARD {
                print(text)?;
            } else {
                let write = || File::options().write(true).open(name)?.write_all(text.as_bytes());
                write().map_err(|e| failed(name, &e))?;
            }
        }
        let mut names = vec![];
        for staged in &self.staged {
            let name = relative(&staged.target).display().to_string();
            staged.finish().map_err(|e| failed(&name, &e))?;
            names.push(name);
        }
        Ok(names)
    }
}

/// A path as it is shown: without the current folder.
fn relative(path: &Path) -> &Path {
    let Ok(here) = env::current_dir() else { return path };
    path.strip_prefix(here).unwrap_or(path)
}

/// To standard output. A reader that has closed it, as `head` does, has all it wants.
pub fn print(text: &str) -> Result<(), String> {
    let mut out = io::stdout().lock();
    match out.write_all(text.as_bytes()).and_then(|()| out.flush()) {
        Err(e) if e.kind() != io::ErrorKind::BrokenPipe => Err(failed("standard output", &e)),
        _ => Ok(()),
    }
}

/// To standard error, where a failure can be reported to nobody.
pub fn print_error(text: &str) {
    let _ = io::stderr().lock().write_all(text.as_bytes());
}
