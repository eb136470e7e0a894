//! Exit statuses, standard error, and where is read and written.

use std::fs::{self, File};
use std::path::PathBuf;

use guineatwirl::join_file;

use crate::files::small;
use crate::program::{command, house};

/// A path for a file of this test run.
fn path(name: &str) -> PathBuf {
    PathBuf::from(env!("CARGO_TARGET_TMPDIR")).join(name)
}

#[test]
fn the_command_line() {
    for arguments in [
        &[][..],
        &["join"],
        &["mend", "-"],
        &["join", "-", "-"],
        &["join", "--loud", "-"],
        &["join", "--explain", "--explain", "-"],
        &["pack", "--explain", "-"],
        &["--help", "join"],
    ] {
        let run = house(arguments, b"");
        assert_eq!(run.status, 2, "{arguments:?}");
        assert!(run.out.is_empty() && run.said.starts_with("usage: house pack TEXT"));
    }
    let help = house(&["--help"], b"");
    assert_eq!((help.status, help.said.as_str()), (0, ""));
    assert!(help.text().starts_with("usage: house pack TEXT"));
}

#[test]
fn files_by_their_names() {
    let (file, text) = (path("small.jh"), path("small.txt"));
    fs::write(&file, small().file()).unwrap();
    fs::write(&text, small().text()).unwrap();
    let (file, text) = (file.to_str().unwrap(), text.to_str().unwrap());
    assert_eq!(house(&["pack", text], b"").done(), small().file());
    assert_eq!(house(&["unpack", file], b"").done(), small().text().into_bytes());
    let joined = join_file(&small().file()).into_bytes();
    assert_eq!(house(&["join", file], b"").done(), joined);
    assert_eq!(house(&["join", "--explain", text], b"").done(), joined);
    assert_eq!(house(&["join", text, "--explain"], b"").done(), joined);
    assert_eq!(house(&["show", file], b"").out, house(&["show", text], b"").out);
}

#[test]
fn what_cannot_be_read() {
    for name in ["no such file", env!("CARGO_MANIFEST_DIR")] {
        for command in ["pack", "unpack", "join", "show"] {
            let run = house(&[command, name], b"");
            assert_eq!((run.status, run.text()), (2, ""));
            assert!(run.said.starts_with(&format!("house: {name} cannot be read: ")));
        }
    }
}

#[test]
fn what_cannot_be_written() {
    let text = path("written.txt");
    fs::write(&text, small().text()).unwrap();
    let full = || File::options().write(true).open("/dev/full");
    if full().is_err() {
        return;
    }
    for name in ["pack", "join", "show"] {
        let run = command().arg(name).arg(&text).stdout(full().unwrap()).output().unwrap();
        assert_eq!(run.status.code(), Some(2));
        assert!(run.stderr.starts_with(b"house: standard output cannot be written: "));
    }
}

#[test]
fn input_without_an_end() {
    if File::open("/dev/zero").is_ok() {
        let run = house(&["join", "/dev/zero"], b"");
        assert_eq!((run.status, run.text()), (1, "refused 9 45126\n"));
    }
}

/// A file with a faulty range cannot be joined or shown; its text can be read, and is refused where
/// the fault is.
#[test]
fn a_faulty_range_can_be_mended() {
    let mut faulty = small();
    faulty.lists[1].push((9, 12, 30));
    let run = house(&["join", "-"], &faulty.file());
    assert_eq!((run.status, run.text(), run.said.as_str()), (1, "refused 6 2\n", ""));
    let why =
        "range 1 of list 1 (counted from 0) does not start beyond the end of the range before it";
    house(&["show", "-"], &faulty.file())
        .assert_refused(&format!("house: standard input: code 6: {why}\n"));

    let text = house(&["unpack", "-"], &faulty.file()).done();
    let at = "house: standard input, line 8, column 1: ";
    let what = "the range starts at 9, and that of line 7 ends at 9: it must start beyond";
    house(&["pack", "-"], &text).assert_refused(&format!("{at}{what}\n"));
}
