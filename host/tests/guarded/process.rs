//! A test of this program in a process of its own, which may die or hang.

use std::env;
use std::fs::{self, File};
use std::os::unix::fs::FileExt;
use std::os::unix::process::ExitStatusExt;
use std::path::{Path, PathBuf};
use std::process::{self, Command, Stdio};
use std::sync::atomic::{AtomicU64, Ordering};
use std::thread;
use std::time::{Duration, Instant};

/// The variable that names the file for a process's progress.
const PROGRESS: &str = "TEYOLXAN_FUZZ_PROGRESS";

/// How long a process may take to begin its first case, on a busy machine.
const START: Duration = Duration::from_secs(60);

/// How a process ended.
#[derive(Clone, Copy, Debug, PartialEq, Eq)]
pub enum End {
    /// It left with this code.
    Left(i32),
    /// A signal ended it.
    Died(i32),
    /// It made no progress, and was ended.
    Hung,
}

/// A process that has ended.
pub struct Ended {
    pub end: End,
    /// The number of the last case that was begun, if one was.
    pub case: Option<u64>,
    /// What it printed.
    pub output: String,
}

/// The number of the case that a process is at, in a file, which is there after its death too.
pub struct Progress(Option<File>);

impl Progress {
    /// The file that this process was given, if it was given one.
    pub fn of_this_process() -> Progress {
        let open = |path| File::options().write(true).open(path);
        Progress(env::var_os(PROGRESS).map(|path| open(path).expect("the file is there")))
    }

    /// Begins a case.
    pub fn begin(&self, case: u64) {
        if let Some(file) = &self.0 {
            file.write_all_at(&case.to_le_bytes(), 0)
                .expect("the file is written");
        }
    }
}

/// The number in a file of this kind.
fn case_in(file: &File) -> Option<u64> {
    let mut octets = [0; 8];
    let whole = file.read_exact_at(&mut octets, 0);
    whole.ok().map(|()| u64::from_le_bytes(octets))
}

/// A file that is removed in the end.
struct Removed(PathBuf);

impl Drop for Removed {
    fn drop(&mut self) {
        let _ = fs::remove_file(&self.0);
    }
}

/// Runs one test of this program, which is ignored otherwise, with these variables. It is ended
/// where a case takes longer than this.
pub fn run(test: &str, variables: &[(&str, String)], patience: Duration) -> Ended {
    static STARTED: AtomicU64 = AtomicU64::new(0);
    let folder = Path::new(env!("CARGO_TARGET_TMPDIR"));
    fs::create_dir_all(folder).expect("a folder");
    let number = STARTED.fetch_add(1, Ordering::Relaxed);
    let path = |kind| Removed(folder.join(format!("{kind}-{}-{number}", process::id())));
    let (progress_path, output_path) = (path("progress"), path("output"));
    let create = |path: &Removed| {
        let mut options = File::options();
        options.read(true).write(true).create(true).truncate(true);
        options.open(&path.0).expect("a new file")
    };
    let (progress, output) = (create(&progress_path), create(&output_path));

    let mut child = Command::new(env::current_exe().expect("this program has a path"))
        .args(["--exact", test, "--ignored", "--nocapture"])
        .envs(variables.iter().cloned())
        .env(PROGRESS, &progress_path.0)
        .stdin(Stdio::null())
        .stderr(output.try_clone().expect("the same file"))
        .stdout(output)
        .spawn()
        .expect("this program starts again");
    let mut last = (None, Instant::now());
    let end = loop {
        if let Some(status) = child.try_wait().expect("a state") {
            break match status.signal() {
                Some(signal) => End::Died(signal),
                None => End::Left(status.code().unwrap_or(-1)),
            };
        }
        let case = case_in(&progress);
        if case != last.0 {
            last = (case, Instant::now());
        } else if last.1.elapsed() > case.map_or(START, |_| patience) {
            child.kill().expect("a process that runs");
            child.wait().expect("its end");
            break End::Hung;
        }
        thread::sleep(Duration::from_millis(20));
    };
    let output = fs::read(&output_path.0).expect("what was printed");
    Ended {
        end,
        case: case_in(&progress),
        output: String::from_utf8_lossy(&output).into_owned(),
    }
}
