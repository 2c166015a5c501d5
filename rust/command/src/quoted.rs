//! Prices and contracts as people write them.

use citronreef::records::Mark;
use std::path::Path;

const MONTHS: [&str; 12] = ["Jan", "Feb", "Mar", "Apr", "May", "Jun", "Jul", "Aug", "Sep", "Oct", "Nov", "Dec"];
const UNITS: u32 = 10_000;
const DECIMALS: usize = 4;

/// A price as quoted, with two to four decimals: 950100 units are 95.01.
pub fn price_text(units: u32) -> String {
    let decimals = format!("{:04}", units % UNITS);
    let kept = decimals.trim_end_matches('0').len().max(2);
    format!("{}.{}", units / UNITS, &decimals[..kept])
}

/// The units of 0.0001 that a price means: `95.01`, or `950100u` for units. A number without a point is no price.
pub fn price_of(word: &str) -> Result<u32, String> {
    if let Some(units) = word.strip_suffix('u') {
        return digits(units)
            .ok_or_else(|| format!("{} is no number of units: write digits and u, as in 950100u", told(word)));
    }
    if digits(word).is_some() {
        return Err(format!("{word} has no decimal point: write {word}.00, or {word}u for units of 0.0001"));
    }
    let no_price = |why: &str| Err(format!("{} is no price: {why}", told(word)));
    let (whole, decimals) = match word.split_once('.') {
        Some(parts) if all_digits(parts.0) && all_digits(parts.1) => parts,
        _ => return no_price("write digits with a point, as in 95.01"),
    };
    if decimals.len() > DECIMALS {
        return no_price("it has one to four decimals, as in 95.01");
    }
    digits(&format!("{whole}{decimals:0<DECIMALS$}")).map_or_else(|| no_price("the largest is 429496.7295"), Ok)
}

/// Whether a word has digits and nothing else.
fn all_digits(word: &str) -> bool {
    !word.is_empty() && word.bytes().all(|byte| byte.is_ascii_digit())
}

/// A number of decimal digits alone that fits 32 bits.
pub fn digits(word: &str) -> Option<u32> {
    all_digits(word).then(|| word.parse().ok()).flatten()
}

/// A code as two capital letters, or in hexadecimal where the bytes are others.
pub fn code_text(code: [u8; 2]) -> String {
    match code.iter().all(u8::is_ascii_uppercase) {
        true => code.iter().map(|&byte| char::from(byte)).collect(),
        false => format!("0x{:02x}{:02x}", code[0], code[1]),
    }
}

/// The two bytes of a code: two capital letters, or any two bytes in hexadecimal.
pub fn code_of(word: &str) -> Result<[u8; 2], String> {
    if let Some(code) = word.strip_prefix("0x").and_then(hexadecimal) {
        return Ok(code.to_be_bytes());
    }
    match *word.as_bytes() {
        [first, second] if first.is_ascii_uppercase() && second.is_ascii_uppercase() => Ok([first, second]),
        [first, second] => {
            let other = code_text([first, second]);
            Err(format!("{} is no code: write two capital letters, as in IR, or {other} for these bytes", told(word)))
        }
        _ => {
            Err(format!("{} is no code: write two capital letters, as in IR, or 0x and four hexadecimal digits", told(word)))
        }
    }
}

/// A number of four hexadecimal digits.
fn hexadecimal(word: &str) -> Option<u16> {
    let digits = word.len() == 4 && word.bytes().all(|byte| byte.is_ascii_hexdigit());
    digits.then(|| u16::from_str_radix(word, 16).ok()).flatten()
}

/// A code for a person who has to mend it, with the letters where there are any: 0x6972 ("ir").
pub fn code_spelled(code: [u8; 2]) -> String {
    let letters = String::from_utf8_lossy(&code);
    match code.iter().all(u8::is_ascii_graphic) && !code.iter().all(u8::is_ascii_uppercase) {
        true => format!("{} (\"{letters}\")", code_text(code)),
        false => code_text(code),
    }
}

/// A contract as staff say it: XT Mar 27.
pub fn contract_text(mark: &Mark) -> String {
    let month = usize::from(mark.month).checked_sub(1).and_then(|place| MONTHS.get(place));
    let month = month.map_or_else(|| format!("month {}", mark.month), |name| name.to_string());
    format!("{} {} {:02}", code_text(mark.code), month, mark.year)
}

/// A contract as the readable text names it: XT/3/27.
pub fn contract_key(mark: &Mark) -> String {
    contract_name([mark.code[0], mark.code[1], mark.month, mark.year])
}

/// The same, of the four bytes of code, month and year.
pub fn contract_name([first, second, month, year]: [u8; 4]) -> String {
    format!("{}/{month}/{year}", code_text([first, second]))
}

/// The four bytes of the contract that a name such as XT/3/27 means.
pub fn contract_of(word: &str) -> Result<[u8; 4], String> {
    let no_name = || format!("{} is no contract's name: write code/month/year, as in XT/3/27", told(word));
    let parts: Vec<&str> = word.splitn(4, '/').collect();
    let (code, month, year) = match parts[..] {
        [code, month, year] => (code_of(code)?, month, year),
        _ => return Err(no_name()),
    };
    let byte = |word| digits(word).and_then(|number| u8::try_from(number).ok()).ok_or_else(no_name);
    Ok([code[0], code[1], byte(month)?, byte(year)?])
}

/// A word as messages repeat it: its first characters, with those that do not print escaped.
pub fn told(word: &str) -> String {
    const TOLD: usize = 40;
    let start: String = word.chars().take(TOLD).flat_map(char::escape_debug).collect();
    if word.chars().nth(TOLD).is_some() {
        start + ".."
    } else {
        start
    }
}

/// A path as messages repeat it, with control characters escaped, so that it stays in one line and moves no cursor.
pub fn path_text(path: &Path) -> String {
    escaped(&path.to_string_lossy(), |_| false)
}

/// A text with its control characters escaped, but for those that are kept.
pub fn escaped(text: &str, kept: impl Fn(char) -> bool) -> String {
    let shown = |c: char| if c.is_control() && !kept(c) { c.escape_default().to_string() } else { c.to_string() };
    text.chars().map(shown).collect()
}

#[cfg(test)]
mod tests {
    use super::*;

    #[test]
    fn prices_come_back_from_their_text() {
        for units in (0..=1_010_000).step_by(7).chain([u32::MAX, 1, 10, 100, 1_000, 10_000]) {
            assert_eq!(price_of(&price_text(units)), Ok(units));
            assert_eq!(price_of(&format!("{units}u")), Ok(units));
        }
        assert_eq!(price_text(950_100), "95.01");
        assert_eq!(price_text(953_455), "95.3455");
        assert_eq!(price_text(1_000_000), "100.00");
    }

    #[test]
    fn what_is_no_price_is_told() {
        for word in [
            "100",
            "",
            ".",
            "95.",
            ".5",
            "95.00001",
            "-1.0",
            "+1.0",
            "1e3",
            "u",
            "-5u",
            "429496.7296",
            "4294967296u",
            "9 5.0",
        ] {
            assert!(price_of(word).is_err(), "{word}");
        }
    }

    #[test]
    fn what_is_wrong_with_a_price_is_told() {
        for (word, says) in [
            ("100", "100 has no decimal point: write 100.00, or 100u for units of 0.0001"),
            ("95,01", "95,01 is no price: write digits with a point, as in 95.01"),
            ("95.00001", "95.00001 is no price: it has one to four decimals, as in 95.01"),
            ("429496.7296", "429496.7296 is no price: the largest is 429496.7295"),
            ("-5u", "-5u is no number of units: write digits and u, as in 950100u"),
        ] {
            assert_eq!(price_of(word), Err(says.to_string()));
        }
    }

    #[test]
    fn contracts_come_back_from_their_names() {
        for code in 0..=u16::MAX {
            let [first, second] = code.to_be_bytes();
            assert_eq!(code_of(&code_text([first, second])), Ok([first, second]));
            let contract = [first, second, second.wrapping_mul(7), first.wrapping_mul(5)];
            let name = contract_name(contract);
            assert_eq!(contract_of(&name), Ok(contract));
            assert!(!name.contains(|c: char| c == '#' || c == '@' || !c.is_ascii_graphic()));
        }
        assert_eq!(contract_name(*b"XT\x03\x1b"), "XT/3/27");
        assert_eq!(contract_of("0x5854/03/27"), Ok(*b"XT\x03\x1b"));
    }

    #[test]
    fn what_is_no_contract_is_told() {
        for word in
            ["", "XT", "XT/3", "XT/3/", "XT//27", "/3/27", "XT/3/256", "XT/-3/27", "XT/3/27/", "xt/3/27", "0x58/3/27"]
        {
            assert!(contract_of(word).is_err(), "{word}");
        }
    }

    #[test]
    fn words_are_repeated_shortly_and_in_print() {
        assert_eq!(told("95.01"), "95.01");
        assert_eq!(told("\u{feff}mark\u{1b}"), "\\u{feff}mark\\u{1b}");
        assert_eq!(told(&"é".repeat(40)), "é".repeat(40));
        assert_eq!(told(&"é".repeat(41)), "é".repeat(40) + "..");
    }
}
