//! Help, version, completions and the size of the program.

mod process;

use citronreef::VERSION;
use process::{run, Ran, COMMAND};

const COMMANDS: [&str; 8] = ["sheet", "explain", "value", "tick", "bracket", "make", "show", "completions"];

#[test]
fn every_command_has_an_example() {
    let Ran { status, out, err } = run(&["--help"], b"");
    assert_eq!((status, err.as_str()), (0, ""));
    assert!(out.contains("Exit status: 0 accepted, 1 refused, 2 could not read or write"), "{out}");
    for command in COMMANDS {
        assert!(out.contains(&format!("\n  {command} ")), "{out}");
        let Ran { status, out, err } = run(&[command, "--help"], b"");
        assert_eq!((status, err.as_str()), (0, ""));
        assert!(out.contains("Example") && out.contains(&format!("\n  citronreef {command} ")), "{out}");
    }
}

#[test]
fn the_version_tells_what_the_library_answers_by() {
    let Ran { status, out, err } = run(&["--version"], b"");
    assert_eq!((status, err.as_str()), (0, ""));
    let expected = "prices from 0.0000 to 100.0000 in units of 0.0001
lots from -1,000,000 to 1,000,000
at most 256 marks, 512 corrections and 4,096 positions in a day file
";
    assert_eq!(out, format!("citronreef {VERSION}\n{expected}"));
}

#[test]
fn completions_for_bash() {
    let Ran { status, out, err } = run(&["completions", "bash"], b"");
    assert_eq!((status, err.as_str()), (0, ""));
    assert!(COMMANDS.iter().all(|command| out.contains(&format!("citronreef__{command}"))), "{out}");
    assert!(out.contains("complete -F _citronreef"), "{out}");
}

/// What bash is offered for the last of these words, by the script itself. Where that is nothing, bash offers files.
fn offered(words: &str) -> String {
    let script = format!(
        "source <(\"$0\" completions bash); COMP_WORDS=({words}); COMP_CWORD=$((${{#COMP_WORDS[@]}} - 1)); \
         _citronreef citronreef; echo \"${{COMPREPLY[*]}}\""
    );
    let output = std::process::Command::new("bash").args(["-c", &script, COMMAND]).output().expect("bash");
    String::from_utf8(output.stdout).expect("text").trim_end().to_string()
}

#[test]
fn bash_offers_files_where_a_file_is_named() {
    for words in ["sheet ''", "explain --text ''", "make ''", "show da", "sheet day.bin -o ''", "make day.txt --out d"] {
        assert_eq!(offered(&format!("citronreef {words}")), "", "{words}");
    }
    assert_eq!(offered("citronreef explain --c"), "--csv");
    assert_eq!(offered("citronreef make day.txt --"), "--anyway --out --help");
    assert_eq!(offered("citronreef value ''"), "-h --help");
    assert_eq!(offered("citronreef sh"), "sheet show");
    assert_eq!(offered("citronreef completions b"), "bash");
    assert!(run(&["completions", "bash"], b"").out.contains("complete -F _citronreef -o bashdefault -o default citronreef"));
}

#[test]
fn the_program_is_small() {
    let length = std::fs::metadata(COMMAND).expect("the command").len();
    assert!(cfg!(debug_assertions) || length < 3_000_000, "{length} bytes");
}
