//! What `-o` names: files that are replaced, links, open descriptors, and files that must not be written.

mod days;
mod process;

use days::sample;
use process::{fails, run, shell, text, with_input, Folder, COMMAND};
use std::fs;
use std::os::unix::fs::{symlink, MetadataExt, PermissionsExt};
use std::os::unix::process::CommandExt;
use std::process::Command;

fn sheet() -> String {
    run(&["sheet"], &sample().bytes()).out
}

#[test]
fn a_file_is_replaced_as_a_whole() {
    let folder = Folder::new("replaced");
    let file = folder.file("day.bin", &sample().bytes());
    let sheet = run(&["sheet"], &sample().bytes()).out;
    let out = folder.file("out", b"an older sheet");
    fs::set_permissions(&out, fs::Permissions::from_mode(0o600)).expect("a file of the test's own");
    let link = folder.path("link");
    symlink("out", &link).expect("a link");
    for name in ["out", "link", "new"] {
        let ran = run(&["sheet", text(&file), "-o", text(&folder.path(name))], b"");
        assert_eq!((ran.status, ran.out, ran.err), (0, String::new(), String::new()));
        assert_eq!(fs::read_to_string(folder.path(name)).expect("a sheet"), sheet);
    }
    assert_eq!(fs::metadata(&out).expect("a sheet").permissions().mode() & 0o777, 0o600);
    assert!(fs::symlink_metadata(&link).expect("a link").file_type().is_symlink());
    assert_eq!(run(&["sheet", "-o", text(&out)], b"").status, 1);
    assert_eq!(fs::read(&out).expect("a sheet"), b"refused 1 at 0\n");
    assert_eq!(run(&["sheet", text(&file), "-o", "/dev/null"], b"").status, 0);
    assert_eq!(folder.names(), ["day.bin", "link", "new", "out"]);
}

/// No file may be longer than 512 bytes (a block of `ulimit -f`), so that a write fails after a part, or than none.
#[test]
fn a_write_that_fails_half_way_leaves_the_old_file() {
    let folder = Folder::new("half");
    let file = folder.file("day.bin", &sample().bytes());
    let out = folder.file("out", b"an older explanation");
    for blocks in [0, 1] {
        let limited = format!("ulimit -f {blocks}; exec \"$0\" explain \"$1\" -o \"$2\"");
        fails(&shell(&limited, &[&file, &out]), "cannot be written: File too large");
        assert_eq!(fs::read(&out).expect("the old file"), b"an older explanation");
        fails(&shell(&limited, &[&file, &folder.path("new")]), "cannot be written: File too large");
        assert_eq!(folder.names(), ["day.bin", "out"]);
    }
}

/// A descriptor is written to as it is: what stands before stays, and what comes later follows.
#[test]
fn open_descriptors() {
    let folder = Folder::new("descriptors");
    let file = folder.file("day.bin", &sample().bytes());
    let link = folder.path("link");
    symlink("/dev/stdout", &link).expect("a link");
    let names = ["/dev/stdout", "/dev/fd/1", "/proc/self/fd/1", "/dev/../dev/stdout", text(&link)];
    for name in names {
        let log = folder.file("log", b"old\n");
        let ran = shell(&format!("\"$0\" sheet \"$1\" -o {name} >> \"$2\""), &[&file, &log]);
        assert_eq!((ran.status, ran.err.as_str()), (0, ""), "{name}");
        assert_eq!(fs::read_to_string(&log).expect("a log"), format!("old\n{}", sheet()), "{name}");
        let both = format!("{{ echo head; \"$0\" sheet \"$1\" -o {name}; echo tail; }} > \"$2\"");
        assert_eq!(shell(&both, &[&file, &log]).status, 0);
        assert_eq!(fs::read_to_string(&log).expect("a log"), format!("head\n{}tail\n", sheet()), "{name}");
    }
    for (name, redirect) in [("/dev/stderr", "2>>"), ("/dev/fd/7", "7>>"), ("/proc/self/fd/2", "2>>")] {
        let log = folder.file("log", b"old\n");
        let ran = shell(&format!("\"$0\" sheet \"$1\" -o {name} {redirect} \"$2\""), &[&file, &log]);
        assert_eq!((ran.status, ran.out.as_str()), (0, ""), "{name}");
        assert_eq!(fs::read_to_string(&log).expect("a log"), format!("old\n{}", sheet()), "{name}");
    }
    fails(&run(&["sheet", text(&file), "-o", "/dev/fd/99"], b""), "/dev/fd/99 cannot be written: Bad file descriptor");
    fails(&shell("\"$0\" sheet \"$1\" -o /dev/stdout > /dev/full", &[&file]), "/dev/stdout cannot be written: No space");
    assert_eq!(folder.names(), ["day.bin", "link", "log"]);
}

/// The file that the last of some links names is made, and the links stay.
#[test]
fn links_to_a_file_that_is_not_there() {
    let folder = Folder::new("links");
    let file = folder.file("day.bin", &sample().bytes());
    fs::create_dir_all(folder.path("days")).expect("a folder");
    symlink("days/today", folder.path("link")).expect("a link");
    symlink(folder.path("link"), folder.path("further")).expect("a link");
    symlink("ring", folder.path("ring")).expect("a link");
    let out = |name: &str| run(&["sheet", text(&file), "-o", text(&folder.path(name))], b"");
    for name in ["further", "link"] {
        assert_eq!(out(name).status, 0);
        assert_eq!(fs::read_to_string(folder.path("days/today")).expect("a sheet"), sheet());
        assert!(fs::symlink_metadata(folder.path(name)).expect("a link").file_type().is_symlink());
        fs::remove_file(folder.path("days/today")).expect("the sheet");
    }
    fails(&out("ring"), "ring cannot be written: too many links");
    fails(&out("new/"), "cannot be written: ");
    fs::remove_dir(folder.path("days")).expect("an empty folder");
    fails(&out("link"), "link cannot be written: No such file");
    assert_eq!(folder.names(), ["day.bin", "further", "link", "ring"]);
}

/// Names beside the file that earlier runs with the same process id left behind are passed over, and left.
#[test]
fn leftovers_do_not_block() {
    let folder = Folder::new("leftovers");
    let file = folder.file("day.bin", &sample().bytes());
    let out = folder.path("out");
    let taken = "cd \"$(dirname \"$2\")\" && echo 1 > .citronreef-$$.part && echo 2 > .citronreef-$$-1.part";
    let ran = shell(&format!("{taken} && exec \"$0\" sheet \"$1\" -o \"$2\""), &[&file, &out]);
    assert_eq!((ran.status, ran.err.as_str()), (0, ""));
    assert_eq!(fs::read_to_string(&out).expect("a sheet"), sheet());
    assert_eq!(folder.names().len(), 4, "{:?}", folder.names());
}

/// Whoever runs the tests may write every file if they are the superuser: then the command is run as somebody else, from a folder that
/// everybody may enter.
#[test]
fn a_file_that_may_not_be_written() {
    let folder = Folder::within(&std::env::temp_dir(), "citronreef-forbidden");
    let copied = Command::new("cp").args([COMMAND, text(&folder.path("command"))]).status().expect("a copy");
    assert!(copied.success());
    let out = folder.file("out", b"not yours");
    fs::set_permissions(&out, fs::Permissions::from_mode(0o444)).expect("a file of the test's own");
    fs::set_permissions(folder.path(""), fs::Permissions::from_mode(0o777)).expect("a folder of the test's own");
    let mut command = Command::new(folder.path("command"));
    command.args(["sheet", "-o", text(&out)]);
    if fs::metadata("/proc/self").expect("this process").uid() == 0 {
        command.uid(65_534);
    }
    fails(&with_input(&mut command, &sample().bytes()), "out cannot be written: Permission denied");
    assert_eq!(fs::read(&out).expect("the old file"), b"not yours");
    assert_eq!(folder.names(), ["command", "out"]);
}

#[test]
fn the_file_that_is_read_is_not_written() {
    let folder = Folder::new("same");
    let own = folder.file("own", include_bytes!("../../../samples/day.txt"));
    symlink("own", folder.path("link")).expect("a link");
    fs::hard_link(&own, folder.path("other")).expect("a second name");
    let held = fs::read(&own).expect("the text");
    for command in ["make", "make --anyway", "show", "sheet", "explain", "explain --text --csv"] {
        for name in ["own", "link", "other"] {
            for input in ["\"$1\"", "< \"$1\""] {
                let line = format!("exec \"$0\" {command} {input} -o \"$2\"");
                fails(&shell(&line, &[&own, &folder.path(name)]), &format!("{name} is the file that is read: name another"));
            }
        }
    }
    assert_eq!(fs::read(&own).expect("the text"), held);
    assert_eq!(run(&["make", text(&own), "-o", text(&folder.path("day.bin"))], b"").status, 0);
}

/// A pipe with a name is opened once, and written to.
#[test]
fn pipes_with_a_name() {
    let folder = Folder::new("pipes");
    let file = folder.file("day.bin", &sample().bytes());
    let pipe = folder.path("pipe");
    let line = "mkfifo \"$2\"; timeout 5 cat \"$2\" & timeout 5 \"$0\" show \"$1\" | timeout 5 \"$0\" make -o \"$2\"; wait";
    let output = Command::new("sh").args(["-c", line, COMMAND, text(&file), text(&pipe)]).output().expect("a shell");
    assert_eq!(output.stdout, sample().bytes());
    let line = "\"$0\" sheet \"$1\" -o >(cat); wait $!";
    let output = Command::new("bash").args(["-c", line, COMMAND, text(&file)]).output().expect("bash");
    assert_eq!(String::from_utf8_lossy(&output.stdout), sheet());
}

/// A descriptor of another process is not written to, and the file behind it stays.
#[test]
fn descriptors_of_another_process() {
    let folder = Folder::new("another");
    let file = folder.file("day.bin", &sample().bytes());
    let log = folder.file("log", b"old\n");
    let ran = shell("{ \"$0\" sheet \"$1\" -o /proc/$$/fd/7; echo $? >&7; } 7>> \"$2\"", &[&file, &log]);
    assert!(ran.err.contains("/fd/7 cannot be written: it is a descriptor of another process"), "{}", ran.err);
    assert_eq!(fs::read_to_string(&log).expect("a log"), "old\n2\n");
}
