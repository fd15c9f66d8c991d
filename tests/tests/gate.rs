//! The gate, .ci/run, in a folder of its own with stand-ins for all that it
//! runs: what it counts, and what it says in its last lines.

mod common;

use common::folder::Folder;
use common::project;
use std::fs::{create_dir_all, read, read_dir, remove_file, set_permissions, Permissions};
use std::os::unix::fs::{symlink, PermissionsExt};
use std::path::PathBuf;
use std::process::{Command, Stdio};
use std::sync::{Mutex, MutexGuard};

/// What the gate uses of the system; nothing else is on its path.
const TOOLS: [&str; 11] = [
    "sh", "bash", "awk", "cp", "dirname", "grep", "mktemp", "rm", "tail", "tee", "timeout",
];

/// The toolchain: `rt ci` with no more words at the top, `rt lib` in the folder
/// of the library.
const RT: &str = "\
case $*,${PWD##*/} in
ci,*)
    [ -f .ci/run ] || exit 1
    echo 'rt: ok; must-fail edits: 4 refused, 1 of them only by a limit; done'
    echo 7 passed, 0 failed
    ;;
version,* | lib,trusted_block) ;;
*) exit 1 ;;
esac";

/// All is well: 7 proofs, the library, 5 and 4 tests in Rust, the answers, and
/// 3 tests in C are 21.
const WELL: [(&str, &str); 9] = [
    ("bin/rt", RT),
    (
        "bin/cargo",
        "echo 'ok. 5 passed; 0 failed;'; echo 'ok. 4 passed; 0 failed;'",
    ),
    ("bin/gcc", ""),
    ("bin/valgrind", ""),
    ("bin/python3", ""),
    ("bin/id", "echo 1000"),
    ("tests/Cargo.toml", ""),
    ("tests/answers", ""),
    ("tests/c/run", "echo 3 passed, 0 failed"),
];

/// One at a time: a script that is just written must not be open in a process
/// that another test starts.
static ONE: Mutex<()> = Mutex::new(());

struct Gate {
    folder: Folder,
    _alone: MutexGuard<'static, ()>,
}

impl Gate {
    fn new() -> Gate {
        let alone = ONE.lock().unwrap_or_else(|broken| broken.into_inner());
        let gate = Gate {
            folder: Folder::new("gate"),
            _alone: alone,
        };
        let script = read(project().join(".ci/run")).expect("the gate");
        gate.folder.file(".ci/run", &script);
        for name in ["tmp", "crates/trusted_block"] {
            create_dir_all(gate.folder.0.join(name)).expect("a folder can be made");
        }
        WELL.iter()
            .for_each(|(name, script)| gate.put(name, script));
        for tool in TOOLS {
            let place = gate.folder.0.join("bin").join(tool);
            symlink(on_path(tool), place).expect("a link can be made");
        }
        gate
    }

    /// A stand-in, with what it does.
    fn put(&self, name: &str, script: &str) {
        let file = self
            .folder
            .file(name, format!("#!/bin/sh\n{script}\n").as_bytes());
        set_permissions(file, Permissions::from_mode(0o755)).expect("it can be run");
    }

    fn take(&self, name: &str) {
        remove_file(self.folder.0.join(name)).expect("it is there");
    }

    /// The exit status and the lines. Nothing stays in the folder for
    /// temporary files.
    fn run(&self) -> (i32, Vec<String>) {
        let [bin, temporary] = ["bin", "tmp"].map(|name| self.folder.0.join(name));
        let output = Command::new(bin.join("bash"))
            .arg(self.folder.0.join(".ci/run"))
            .env_clear()
            .envs([("PATH", &bin), ("TMPDIR", &temporary)])
            .stdin(Stdio::null())
            .output()
            .expect("the gate runs");
        let left = read_dir(&temporary).expect("a folder").count();
        assert_eq!((output.stderr.as_slice(), left), (&b""[..], 0));
        let text = String::from_utf8(output.stdout).expect("plain text");
        let lines = text.lines().map(str::to_string).collect();
        (output.status.code().expect("no signal"), lines)
    }
}

fn on_path(tool: &str) -> PathBuf {
    let path = std::env::var_os("PATH").expect("a path");
    let mut files = std::env::split_paths(&path).map(|folder| folder.join(tool));
    files.find(|file| file.is_file()).expect(tool)
}

/// The two lines at the end.
fn end(lines: &[String]) -> [&str; 2] {
    let at = lines.len() - 2;
    [&lines[at], &lines[at + 1]]
}

const GONE: &str = "FAILED: tests/Cargo.toml is gone, so that no test in Rust was run";
const NOT_RUN: &str = "NOT RUN: tests/answers, since python3 IS MISSING on this machine";

#[test]
fn all_is_well() {
    let (status, lines) = Gate::new().run();
    assert_eq!((status, end(&lines)[1]), (0, "21 passed, 0 failed"));
    assert!(end(&lines)[0].starts_with("whole gate: "), "{lines:?}");
}

#[test]
fn the_tests_in_rust_are_gone() {
    let gate = Gate::new();
    gate.take("tests/Cargo.toml");
    let (status, lines) = gate.run();
    assert_eq!((status, end(&lines)), (1, [GONE, "12 passed, 1 failed"]));
    gate.take("bin/python3");
    let (status, lines) = gate.run();
    assert_eq!((status, end(&lines)[1]), (1, "11 passed, 1 failed"));
    assert!(end(&lines)[0].starts_with(NOT_RUN), "{lines:?}");
    assert_eq!(lines[lines.len() - 3], GONE);
}

#[test]
fn python_is_missing() {
    let gate = Gate::new();
    gate.take("bin/python3");
    gate.put("bin/apt-get", "cp tests/answers bin/python3");
    let (status, lines) = gate.run();
    assert_eq!((status, end(&lines)[1]), (0, "20 passed, 0 failed"));
    assert!(end(&lines)[0].starts_with(NOT_RUN), "{lines:?}");
}

/// Root tries to install it, and goes on without where it can't.
#[test]
fn python_is_missing_for_root() {
    let gate = Gate::new();
    gate.put("bin/id", "echo 0");
    gate.take("bin/python3");
    gate.put("bin/apt-get", "echo no network; exit 100");
    let (status, lines) = gate.run();
    assert_eq!((status, end(&lines)[1]), (0, "20 passed, 0 failed"));
    assert!(end(&lines)[0].starts_with(NOT_RUN), "{lines:?}");
    assert!(lines.contains(&"no network".to_string()));
    let install = "[ \"$*\" = 'install -y python3' ] && cp tests/answers bin/python3";
    gate.put("bin/apt-get", install);
    let (status, lines) = gate.run();
    assert_eq!((status, end(&lines)[1]), (0, "21 passed, 0 failed"));
}

#[test]
fn valgrind_is_missing() {
    let gate = Gate::new();
    gate.take("bin/valgrind");
    let (status, lines) = gate.run();
    assert_eq!((status, end(&lines)[1]), (0, "21 passed, 0 failed"));
    let line = "valgrind is missing: the C tests run with the sanitizers alone";
    assert!(lines.contains(&line.to_string()));
}

#[test]
fn what_is_needed_is_missing() {
    let gate = Gate::new();
    for (tool, last) in [("gcc", "0 passed, 1 failed"), ("rt", "0 passed, 2 failed")] {
        gate.take(&format!("bin/{tool}"));
        let (status, lines) = gate.run();
        assert_eq!((status, end(&lines)[1]), (1, last));
        let line = format!("missing on this machine: {tool} (");
        assert!(
            lines.iter().any(|said| said.starts_with(&line)),
            "{lines:?}"
        );
    }
}

/// A stand-in, what it does in its stead, and the gate's last line: failures
/// that a stage counts; a stage that counts none and fails; one that counts
/// nothing at all.
const FAILING: &str = "\
bin/rt: [ $1 = ci ] && echo 6 passed, 1 failed && exit 1; true => 20 passed, 1 failed
bin/rt: [ $1 = ci ] && echo 7 passed, 0 failed && exit 1; true => 21 passed, 1 failed
bin/rt: [ $1 = lib ] && exit 1; echo 7 passed, 0 failed => 20 passed, 1 failed
bin/rt: true => 14 passed, 1 failed
bin/cargo: echo '8 passed; 1 failed;'; exit 101 => 20 passed, 1 failed
bin/cargo: exit 101 => 12 passed, 1 failed
bin/cargo: true => 12 passed, 1 failed
tests/answers: exit 1 => 20 passed, 1 failed
tests/c/run: echo 2 passed, 2 failed; exit 1 => 20 passed, 2 failed
tests/c/run: true => 18 passed, 1 failed";

/// Edits that cannot be tried fail the gate, though `rt ci` passes over them.
#[test]
fn edits_are_bad() {
    for (said, bad, last) in [
        ("4 refused, 2 bad; done", 2, "21 passed, 2 failed"),
        (
            "4 refused, 1 of them only by a limit, 1 bad; done",
            1,
            "21 passed, 1 failed",
        ),
        ("0 refused, 10 bad; done", 10, "21 passed, 10 failed"),
    ] {
        let gate = Gate::new();
        let line = "4 refused, 1 of them only by a limit; done";
        gate.put("bin/rt", &RT.replace(line, said));
        let (status, lines) = gate.run();
        let told = format!("FAILED: bad must-fail edits: {bad}; each is named above by BAD EDIT");
        assert_eq!((status, end(&lines)), (1, [told.as_str(), last]));
    }
}

#[test]
fn a_stage_fails() {
    for line in FAILING.lines() {
        let (stand_in, last) = line.split_once(" => ").expect("two sides");
        let (name, script) = stand_in.split_once(": ").expect("a name");
        let gate = Gate::new();
        gate.put(name, script);
        let (status, lines) = gate.run();
        assert_eq!((status, end(&lines)[1]), (1, last), "{line}");
    }
}
