//! Whole numbers, and cents as dollars, as people write them.

/// The digits in groups of three: 1,000,000.
fn grouped(digits: &str) -> String {
    let mut text = String::new();
    for (place, digit) in digits.char_indices() {
        if place > 0 && (digits.len() - place) % 3 == 0 {
            text.push(',');
        }
        text.push(digit);
    }
    text
}

/// A whole number with separators: -1,000,000.
pub fn whole_text(number: i64) -> String {
    let sign = if number < 0 { "-" } else { "" };
    format!("{sign}{}", grouped(&number.unsigned_abs().to_string()))
}

/// Dollars with separators and sign: +18,105.00, and 0.00 without one.
pub fn dollars_text(cents: i64) -> String {
    let sign = match cents {
        0 => "",
        1.. => "+",
        _ => "-",
    };
    let size = cents.unsigned_abs();
    format!("{sign}{}.{:02}", grouped(&(size / 100).to_string()), size % 100)
}

/// Dollars as a spreadsheet takes them: -18498.40.
pub fn plain_dollars(cents: i64) -> String {
    let sign = if cents < 0 { "-" } else { "" };
    let size = cents.unsigned_abs();
    format!("{sign}{}.{:02}", size / 100, size % 100)
}

#[cfg(test)]
mod tests {
    use super::*;

    #[test]
    fn numbers_are_grouped() {
        assert_eq!(whole_text(0), "0");
        assert_eq!(whole_text(999), "999");
        assert_eq!(whole_text(-1_000), "-1,000");
        assert_eq!(whole_text(i64::MIN), "-9,223,372,036,854,775,808");
    }

    #[test]
    fn cents_become_dollars() {
        assert_eq!(dollars_text(0), "0.00");
        assert_eq!(dollars_text(5), "+0.05");
        assert_eq!(dollars_text(-99), "-0.99");
        assert_eq!(dollars_text(1_810_500), "+18,105.00");
        assert_eq!(dollars_text(-100_000_000), "-1,000,000.00");
        assert_eq!(plain_dollars(-1_849_840), "-18498.40");
        assert_eq!(plain_dollars(i64::MIN), "-92233720368547758.08");
    }
}
