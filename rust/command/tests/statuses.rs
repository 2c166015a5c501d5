//! Exit statuses, and what is told where something cannot be read or written.

mod days;
mod process;

use days::sample;
use process::{fails, run, shell, text, Folder, COMMAND};
use std::fs::{self, File};
use std::io::Write;
use std::process::{Command, Stdio};

fn refused_file() -> Vec<u8> {
    let mut day = sample();
    day.positions[3].lots = 0;
    day.bytes()
}

#[test]
fn accepted_refused_and_wrong_usage() {
    let (accepted, refused) = (sample().bytes(), refused_file());
    for words in [&["sheet"][..], &["explain"], &["explain", "--csv"]] {
        assert_eq!(run(words, &accepted).status, 0);
        assert_eq!(run(words, &refused).status, 1);
    }
    assert_eq!(run(&["show"], &refused).status, 0);
    for words in
        [&["settle"][..], &[], &["value", "IR"], &["value", "IR", "95"], &["value", "I", "95.00"], &["sheet", "--csv"]]
    {
        let ran = run(words, b"");
        assert_eq!((ran.status, ran.out.as_str()), (2, ""));
        assert!(!ran.err.is_empty());
    }
}

/// Where the rows would stand is one that says why there are none, so that no older file is taken for today's.
#[test]
fn a_refusal_is_one_row_of_a_spreadsheet() {
    let folder = Folder::new("spreadsheet");
    let out = folder.file("day.csv", b"yesterday's rows\n");
    let row = "refused,13,3,\"a position's lots are 0, below -1,000,000 or above 1,000,000\"\n";
    let ran = run(&["explain", "--csv", "-o", text(&out)], &refused_file());
    assert_eq!((ran.status, ran.out.as_str()), (1, ""));
    assert!(ran.err.starts_with("refused 13 at 3: ") && ran.err.contains("<-- no lots"), "{}", ran.err);
    assert_eq!(fs::read_to_string(&out).expect("a row"), row);
    let ran = run(&["explain", "--csv"], &refused_file());
    assert_eq!((ran.status, ran.out.as_str()), (1, row));
    assert!(ran.err.starts_with("refused 13 at 3: "), "{}", ran.err);
    assert_eq!(run(&["explain", "--csv"], b"").out, "refused,1,0,the file is shorter than 24 bytes\n");
}

#[test]
fn what_cannot_be_read() {
    let folder = Folder::new("unreadable");
    let (directory, missing) = (folder.path(""), folder.path("missing"));
    for command in [&["sheet"][..], &["explain"], &["explain", "--text"], &["show"], &["make"]] {
        fails(&run(&[command, &[text(&directory)]].concat(), b""), "Is a directory");
        fails(&run(&[command, &[text(&missing)]].concat(), b""), "missing cannot be read: No such file");
        fails(&shell(&format!("exec \"$0\" {} <&-", command.join(" ")), &[]), "standard input cannot be read");
        fails(
            &shell(&format!("exec \"$0\" {} < /", command.join(" ")), &[]),
            "standard input cannot be read: Is a directory",
        );
    }
}

#[test]
fn what_cannot_be_written() {
    let folder = Folder::new("unwritable");
    let file = folder.file("day.bin", &sample().bytes());
    for command in ["sheet", "explain", "explain --csv", "show"] {
        fails(
            &shell(&format!("exec \"$0\" {command} \"$1\" > /dev/full"), &[&file]),
            "standard output cannot be written: No space",
        );
        fails(&shell(&format!("exec \"$0\" {command} \"$1\" >&-"), &[&file]), "standard output cannot be written: Bad file");
    }
    for line in ["--help", "--version", "explain --help", "value IR 95.01", "completions bash"] {
        fails(&shell(&format!("exec \"$0\" {line} > /dev/full"), &[]), "standard output cannot be written: No space");
    }
    let outs = [folder.path("missing/out"), folder.path(""), file.join("out"), "/dev/full".into(), "/proc/out".into()];
    for out in &outs {
        fails(&run(&["sheet", text(&file), "-o", text(out)], b""), "cannot be written: ");
    }
    assert_eq!(folder.names(), ["day.bin"]);
}

/// A name with a newline or an escape in it is told in one line that moves no cursor.
#[test]
fn names_with_control_characters() {
    let folder = Folder::new("controls");
    let out = folder.path("no\nfolder\u{1b}/out");
    for command in [&["sheet"][..], &["explain", "--text"], &["make"]] {
        fails(&run(&[command, &["a\nb\u{1b}[2J"]].concat(), b""), "citronreef: a\\nb\\u{1b}[2J cannot be read: ");
    }
    fails(&run(&["sheet", "-o", text(&out)], b""), "/no\\nfolder\\u{1b}/out cannot be written: ");
    let mistake = folder.file("a\nb", b"marks");
    let ran = run(&["make", text(&mistake)], b"");
    assert!(ran.err.contains("/a\\nb, line 1, field 1: ") && ran.err.matches('\n').count() == 1, "{}", ran.err);
    let ran = run(&["sheet", "a", "b\u{1b}[2J"], b"");
    assert_eq!(ran.status, 2);
    assert!(ran.err.starts_with("error: ") && !ran.err.contains('\u{1b}'), "{}", ran.err);
}

/// The pipe is closed before the command has anything to write.
#[test]
fn a_closed_pipe() {
    for command in [&["sheet"][..], &["explain"], &["show"]] {
        let mut started = Command::new(COMMAND);
        let piped = started.args(command).stdin(Stdio::piped()).stdout(Stdio::piped()).stderr(Stdio::piped());
        let mut child = piped.spawn().expect("a process");
        drop(child.stdout.take());
        child.stdin.take().expect("a pipe").write_all(&sample().bytes()).expect("the command reads its input");
        let output = child.wait_with_output().expect("an end");
        assert_eq!((output.status.code(), output.stderr), (Some(2), vec![]));
    }
}

/// The process may have 64 MiB of memory, program and libraries included.
#[test]
fn a_gigabyte_of_input() {
    let folder = Folder::new("gigabyte");
    let sparse = folder.path("sparse");
    File::create(&sparse).and_then(|file| file.set_len(1 << 30)).expect("a sparse file");
    let from = |words: &str, source: &str| shell(&format!("ulimit -v 65536; {source}\"$0\" {words}"), &[&sparse]);
    for source in ["head -c 1073741824 /dev/zero | ", "exec < \"$1\"; "] {
        let ran = from("sheet", source);
        assert_eq!((ran.status, ran.out.as_str(), ran.err.as_str()), (1, "refused 3 at 0\n", ""));
        let ran = from("explain", source);
        assert_eq!(ran.status, 1);
        assert!(ran.out.contains("over 65,536"), "{}", ran.out);
        fails(&from("show", source), "is longer than 1024 KiB");
        fails(&from("make", source), "is longer than 16384 KiB");
        fails(&from("explain --text", source), "is longer than 16384 KiB");
    }
    assert_eq!(from("sheet \"$1\"", "").out, "refused 3 at 0\n");
}

/// A line takes many times its length when it is parted into fields.
#[test]
fn a_line_as_long_as_a_text() {
    let folder = Folder::new("long-line");
    let line = "bytes".to_string() + &" 00".repeat((16 << 20) / 3 - 2);
    let file = folder.file("long.txt", line.as_bytes());
    let ran = shell("ulimit -v 65536; exec \"$0\" make \"$1\"", &[&file]);
    assert_eq!((ran.status, ran.out.as_str()), (1, ""), "{}", ran.err);
    assert!(
        ran.err.ends_with("long.txt, line 1: the line has more than 65,536 bytes: write several lines\n"),
        "{}",
        ran.err
    );
}

/// Runs the command with a terminal as its standard streams, on which these lines are typed.
fn at_terminal(words: &str, typed: &[u8]) -> (i32, String) {
    let line = format!("{COMMAND} {words}");
    let ran = process::with_input(Command::new("script").args(["-qec", &line, "/dev/null"]), typed);
    (ran.status, ran.out.replace('\r', ""))
}

#[test]
fn a_terminal() {
    for command in ["sheet", "explain", "show"] {
        let (status, said) = at_terminal(command, b"");
        assert_eq!(status, 2);
        assert!(said.contains("citronreef: standard input is a terminal: name a FILE"), "{said}");
    }
    let (status, said) = at_terminal("explain --text", b"mark IR 3 27 95.68 95.71\nposition 1001 IR/3/27 250\n\x04");
    assert_eq!(status, 0, "{said}");
    assert!(said.contains("citronreef: reading a text from the terminal"), "{said}");
    assert!(said.contains("+18,105.00  AUD"), "{said}");
    for (command, name) in [("make", "standard output"), ("make -o -", "standard output"), ("make -o /dev/tty", "/dev/tty")]
    {
        let (status, said) = at_terminal(command, b"");
        assert_eq!(status, 2);
        assert!(said.contains(&format!("citronreef: {name} is a terminal")), "{said}");
    }
}

/// `timeout` ends a command that waits for what nobody types.
#[test]
fn a_terminal_by_its_name() {
    for name in ["/dev/stdin", "/dev/tty", "/dev/fd/0"] {
        for command in ["sheet", "explain", "show"] {
            let line = format!("timeout --foreground 5 {COMMAND} {command} {name}");
            let ran = process::with_input(Command::new("script").args(["-qec", &line, "/dev/null"]), b"");
            assert_eq!(ran.status, 2, "{}", ran.out);
            assert!(ran.out.contains(&format!("citronreef: {name} is a terminal: name a FILE")), "{}", ran.out);
        }
        let typed = b"mark IR 3 27 95.68 95.71\nposition 1001 IR/3/27 250\n\x04";
        let (status, said) = at_terminal(&format!("explain --text {name}"), typed);
        assert_eq!(status, 0, "{said}");
        assert!(said.contains("citronreef: reading a text from the terminal"), "{said}");
    }
}
