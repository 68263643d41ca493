//! Files that are being written, under names of their own until they are complete ("parts"): removed if the program ends before, by an
//! error or by a signal.

use std::{
    ffi::{c_char, c_int, CString},
    fs, io,
    os::unix::ffi::OsStrExt,
    path::{Path, PathBuf},
    ptr,
    sync::{
        atomic::{AtomicPtr, Ordering::SeqCst},
        Once,
    },
};

/// A command has at most three outputs.
const MOST: usize = 3;

/// The names of the parts that exist, for the signal handler, which may use neither locks nor memory of its own.
static NAMES: [AtomicPtr<c_char>; MOST] = [const { AtomicPtr::new(ptr::null_mut()) }; MOST];

mod c {
    use super::{c_char, c_int};

    // the same on Linux, macOS and the BSDs
    pub const SIGHUP: c_int = 1;
    pub const SIGINT: c_int = 2;
    pub const SIGTERM: c_int = 15;
    pub const SIG_DFL: usize = 0;
    pub const SIG_IGN: usize = 1;

    extern "C" {
        pub fn signal(number: c_int, action: usize) -> usize;
        pub fn raise(number: c_int) -> c_int;
        pub fn unlink(path: *const c_char) -> c_int;
    }
}

/// Removes all parts and ends as the signal would have ended the program.
extern "C" fn remove_and_end(number: c_int) {
    for name in &NAMES {
        let name = name.swap(ptr::null_mut(), SeqCst);
        if !name.is_null() {
            // SAFETY: a string that is never freed; unlink, signal and raise may be called in a handler
            unsafe { c::unlink(name) };
        }
    }
    // SAFETY: as above
    unsafe {
        c::signal(number, c::SIG_DFL);
        c::raise(number);
    }
}

fn watch_signals() {
    static ONCE: Once = Once::new();
    ONCE.call_once(|| {
        for number in [c::SIGHUP, c::SIGINT, c::SIGTERM] {
            // SAFETY: the handler does only what a handler may; a signal that was ignored stays ignored, as nohup needs
            unsafe {
                if c::signal(number, remove_and_end as *const () as usize) == c::SIG_IGN {
                    c::signal(number, c::SIG_IGN);
                }
            }
        }
    });
}

/// A part, removed when dropped.
pub struct Part {
    path: PathBuf,
    slot: Option<usize>,
}

impl Part {
    /// Before the file is created.
    pub fn new(path: PathBuf) -> io::Result<Self> {
        watch_signals();
        // a few bytes are leaked, since the handler may run at any time
        let name = CString::new(path.as_os_str().as_bytes())?.into_raw();
        let free = |slot: &AtomicPtr<c_char>| slot.compare_exchange(ptr::null_mut(), name, SeqCst, SeqCst).is_ok();
        let slot = NAMES.iter().position(free);
        Ok(Self { path, slot })
    }

    pub fn path(&self) -> &Path {
        &self.path
    }
}

impl Drop for Part {
    /// After a rename there is no file of this name, and nothing to remove.
    fn drop(&mut self) {
        let _ = fs::remove_file(&self.path);
        if let Some(slot) = self.slot {
            NAMES[slot].store(ptr::null_mut(), SeqCst);
        }
    }
}
