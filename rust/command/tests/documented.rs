//! The examples of docs/COMMAND.md: each line after `$` is run, and has to print the lines below it.

mod process;

use process::{Folder, COMMAND};
use std::fs;
use std::path::Path;
use std::process::{Command, Stdio};

const PAGE: &str = include_str!("../../../docs/COMMAND.md");
const SAMPLES: &str = concat!(env!("CARGO_MANIFEST_DIR"), "/../../samples");

/// Each command line of the page, and what stands below it.
fn examples() -> Vec<(String, String)> {
    let mut examples: Vec<(String, String)> = Vec::new();
    let mut is_open = false;
    for line in PAGE.lines() {
        let code = line.strip_prefix("    ").or_else(|| line.is_empty().then_some(""));
        match (code, code.and_then(|code| code.strip_prefix("$ "))) {
            (_, Some(command)) => examples.push((command.to_string(), String::new())),
            (Some(code), None) if is_open => examples.last_mut().expect("an example").1 += &format!("{code}\n"),
            _ => {}
        }
        is_open = code.is_some() && (is_open || !examples.is_empty() && !line.is_empty());
    }
    examples
}

/// What a line prints on both streams, in a folder that the examples share.
fn printed(line: &str, folder: &Path) -> String {
    let programs = Path::new(COMMAND).parent().expect("the command's folder");
    let path = format!("{}:{}", programs.display(), std::env::var("PATH").unwrap_or_default());
    let both = format!("exec 2>&1; {line}");
    let mut shell = Command::new("sh");
    let output = shell.arg("-c").arg(both).current_dir(folder).env("PATH", path).stdin(Stdio::null()).output();
    String::from_utf8(output.expect("a shell").stdout).expect("text")
}

#[test]
fn examples_print_what_the_page_says() {
    let folder = Folder::new("documented");
    std::os::unix::fs::symlink(fs::canonicalize(SAMPLES).expect("samples"), folder.path("samples")).expect("a link");
    let examples = examples();
    assert!(examples.len() > 10, "{examples:?}");
    for (line, below) in examples {
        assert_eq!(printed(&line, &folder.path("")).trim_end(), below.trim_end(), "$ {line}");
    }
}
