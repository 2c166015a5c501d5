//! docs/TEXT.md shows what the code says.

use super::samples::sample;
use super::{bytes_of, shown, wrong_with};

fn document() -> String {
    let path = concat!(env!("CARGO_MANIFEST_DIR"), "/../../docs/TEXT.md");
    std::fs::read_to_string(path).unwrap_or_else(|error| panic!("{path}: {error}"))
}

/// A text as the document shows it, four spaces in.
fn quoted(text: &str) -> String {
    let line = |line: &str| if line.is_empty() { "\n".to_string() } else { format!("    {line}\n") };
    text.lines().map(line).collect()
}

#[test]
fn the_document_shows_texts_as_they_are_written() {
    let case = sample("case.txt");
    for file in [&case[..], &case[..70], &case[..20]] {
        let text = shown(file);
        assert!(document().contains(&quoted(&text)), "docs/TEXT.md does not show\n{text}");
    }
}

#[test]
fn the_example_of_the_document_is_made() {
    let document = document();
    let start = document.find("    # One bill").expect("the example");
    let example: String =
        document[start..].lines().take_while(|line| line.starts_with("    ")).map(|line| format!("{line}\n")).collect();
    assert_eq!(bytes_of(&example), sample("case.txt"));
}

#[test]
fn the_mistakes_of_the_document_are_told_so() {
    let document = document();
    let rows = document.lines().filter_map(|line| line.strip_prefix("| `")?.strip_suffix("` |")?.split_once("` | `"));
    let mistakes: Vec<(&str, &str)> = rows.filter(|(_, said)| said.starts_with("line ")).collect();
    assert!(mistakes.len() >= 10);
    for (text, said) in mistakes {
        assert_eq!(wrong_with(text), said);
    }
}
