//! Numbers and small words of what the tool says. What is counted has its thousands set apart; what
//! is named by its number, an OID, a block, a frame, has not.

use std::fmt::Display;

/// A number as sentences have it: 65,536.
pub fn thousands(number: impl Display) -> String {
    let digits = number.to_string();
    let mut said = String::new();
    for (i, digit) in digits.chars().enumerate() {
        if i > 0 && (digits.len() - i).is_multiple_of(3) {
            said.push(',');
        }
        said.push(digit);
    }
    said
}

/// "1 page", "1,020 pages".
pub fn counted(number: usize, one: &str, many: &str) -> String {
    let word = if number == 1 { one } else { many };
    format!("{} {word}", thousands(number))
}

pub fn pages(number: usize) -> String {
    counted(number, "page", "pages")
}

/// "9", or "9 to 12"; `last` is the last one.
pub fn span(first: impl Display, last: impl Display) -> String {
    let (first, last) = (first.to_string(), last.to_string());
    if first == last {
        first
    } else {
        format!("{first} to {last}")
    }
}

/// "OID 100", "OIDs 100 to 201".
pub fn oids(first: u32, last: u32) -> String {
    let word = if first == last { "OID" } else { "OIDs" };
    format!("{word} {}", span(first, last))
}

/// "block 9", "blocks 9 to 1020".
pub fn blocks(first: usize, last: usize) -> String {
    let word = if first == last { "block" } else { "blocks" };
    format!("{word} {}", span(first, last))
}

#[cfg(test)]
mod tests {
    use super::*;

    #[test]
    fn thousands_are_set_apart() {
        let said = [0, 999, 1_000, 65_536, 4_294_967_295u32].map(thousands);
        assert_eq!(said, ["0", "999", "1,000", "65,536", "4,294,967,295"]);
    }

    #[test]
    fn one_is_no_plural() {
        assert_eq!(pages(1), "1 page");
        assert_eq!(pages(1_020), "1,020 pages");
        assert_eq!(span(9, 9), "9");
        assert_eq!(span(9, 12), "9 to 12");
        assert_eq!(oids(100, 100), "OID 100");
        assert_eq!(oids(100, 1_000), "OIDs 100 to 1000");
        assert_eq!(blocks(9, 9), "block 9");
        assert_eq!(blocks(9, 1_000), "blocks 9 to 1000");
    }
}
