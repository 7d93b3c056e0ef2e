//! What the tests share: the built programs, and texts to try them on.

use std::path::{Path, PathBuf};
use std::process::{Command, Output};

/// The repository's root.
pub fn root() -> PathBuf {
    Path::new(env!("CARGO_MANIFEST_DIR")).parent().unwrap().to_path_buf()
}

/// A program of the repository, as `rt run` leaves it.
pub fn program(name: &str) -> PathBuf {
    root().join("crates").join(name).join("out").join(name)
}

/// A folder of its own for one test, emptied first.
pub fn scratch(name: &str) -> PathBuf {
    let dir = std::env::temp_dir().join(format!("jantsovy-{}-{name}", std::process::id()));
    let _ = std::fs::remove_dir_all(&dir);
    std::fs::create_dir_all(&dir).unwrap();
    dir
}

/// How a program ended, with what it wrote.
pub struct Ended {
    pub status: Option<i32>,
    pub stdout: String,
    pub stderr: String,
}

impl From<Output> for Ended {
    fn from(o: Output) -> Self {
        Ended {
            status: o.status.code(),
            stdout: String::from_utf8_lossy(&o.stdout).into_owned(),
            stderr: String::from_utf8_lossy(&o.stderr).into_owned(),
        }
    }
}

/// Runs a program of the repository.
pub fn run(name: &str, args: &[&str]) -> Ended {
    Command::new(program(name)).args(args).output().unwrap().into()
}

/// Runs it with a stack of one megabyte.
pub fn run_small_stack(name: &str, args: &[&str]) -> Ended {
    let script = "ulimit -s 1024; exec \"$0\" \"$@\"";
    Command::new("sh").arg("-c").arg(script).arg(program(name)).args(args).output().unwrap().into()
}

/// Texts that read and are sound, one of each kind of thing in them.
pub const WORKED: [&str; 6] = [
    "width 3; proc f(x, y) pre x < 4 and y < 4; post x == old x + old y; less 0; { x = x + y; }",
    "width 2; proc mx(a[2], m) pre yes; post all i < 2 { a[i] <= m }; less 0; { m = a[0]; if m < a[1] { m = a[1]; } else { } }",
    "width 2; proc s(a[2], i, j) pre i < 2 and j < 2; post a[i] == old a[j] and a[j] == old a[i]; less 0; { var t; t = a[i]; a[i] = a[j]; a[j] = t; }",
    "width 2; proc fac(n) pre n < 3; post n == 0; less n; { if 0 < n { n = n - 1; fac(n); } else { } }",
    "width 2; proc g(x) pre yes; post yes; less 0; { any x; check x < 3; }",
    "width 2; proc h(x) pre yes; post yes; less x; { k(x); } proc k(x) pre yes; post yes; less x; { h(x); }",
];
