//! `citronreef completions`: the scripts by which shells complete the command's words.

use crate::arguments::Arguments;
use crate::ending::{Ended, Ending};
use crate::output;
use clap::CommandFactory;
use clap_complete::Shell;

pub fn run(shell: Shell) -> Ended {
    let mut script = Vec::new();
    clap_complete::generate(shell, &mut Arguments::command(), "citronreef", &mut script);
    if shell == Shell::Bash {
        script = with_files(&String::from_utf8_lossy(&script)).into_bytes();
    }
    output::write(&script, None)?;
    Ok(Ending::Accepted)
}

/// The places of words that the script offers as if they were words.
const PLACES: [&str; 4] = [" [FILE]", " [TEXT]", " <CODE>", " <PRICE>"];

/// Where the script starts to choose.
const CHOICE: &str = "    case \"${cmd}\" in\n";

/// What is no option of these commands is a file. Where a script offers nothing, bash offers files.
const FILES: &str = "    \
    case \"${cmd},${cur}\" in
        *,-*)
            ;;
        citronreef__sheet,*|citronreef__explain,*|citronreef__make,*|citronreef__show,*)
            return 0
            ;;
    esac

";

/// The script for bash, which offers files where a file is to be named.
fn with_files(script: &str) -> String {
    let script = PLACES.iter().fold(script.to_string(), |script, place| script.replace(place, ""));
    script.replacen(CHOICE, &format!("{FILES}{CHOICE}"), 1)
}
