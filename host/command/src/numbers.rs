//! Numbers as people write and read them.
use crate::failure::quoted;

/// Reads a number: decimal, or hexadecimal after `0x`, with underscores where one likes. Else says what is wrong.
pub fn parse(text: &str) -> Result<u64, String> {
    let (digits, radix) = match text.strip_prefix("0x").or_else(|| text.strip_prefix("0X")) {
        Some(digits) => (digits, 16),
        None => (text, 10),
    };
    let digits = digits.replace('_', "");
    if digits.is_empty() || !digits.chars().all(|c| c.is_digit(radix)) {
        return Err(format!("{} is not a number (decimal, or hexadecimal after 0x)", quoted(text)));
    }
    u64::from_str_radix(&digits, radix).map_err(|_| format!("{} is above the largest 64-bit number", quoted(text)))
}

/// A size for people: decimal, with commas at the thousands.
pub fn grouped(number: u64) -> String {
    let digits = number.to_string();
    let mut text = String::new();
    for (at, digit) in digits.chars().enumerate() {
        if at > 0 && (digits.len() - at).is_multiple_of(3) {
            text.push(',');
        }
        text.push(digit);
    }
    text
}

/// A hash or a key for people: hexadecimal.
pub fn hex(number: u64) -> String {
    format!("{number:#x}")
}

/// A size with what it counts.
pub fn counted(number: u64, one: &str, many: &str) -> String {
    format!("{} {}", grouped(number), if number == 1 { one } else { many })
}

/// Numbers of branch cells and of entry cells.
pub fn cells(cells: shelf::Cells) -> String {
    let branches = counted(cells.branches, "branch cell", "branch cells");
    format!("{branches} and {}", counted(cells.entries, "entry cell", "entry cells"))
}

#[cfg(test)]
mod tests {
    use super::*;

    #[test]
    fn numbers_are_read_in_both_bases() {
        assert_eq!(parse("1_000"), Ok(1_000));
        assert_eq!(parse("0x7000_0000_0000_0008"), Ok(0x7000_0000_0000_0008));
        assert_eq!(parse("18446744073709551615"), Ok(u64::MAX));
        for wrong in ["", "_", "0x", "+1", "-1", "1.0", "ff", "18446744073709551616", "0x1_0000_0000_0000_0000"] {
            assert!(parse(wrong).is_err(), "{wrong}");
        }
    }

    #[test]
    fn sizes_are_grouped_by_thousands() {
        assert_eq!([0, 999, 1_000, 95_432_716].map(grouped), ["0", "999", "1,000", "95,432,716"]);
    }
}
