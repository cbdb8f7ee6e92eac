//! The order in which people expect names: numbers inside them by their size, `2` before `10`.
use std::cmp::Ordering;

/// The digits at the start of a text, without zeros in front, and the rest.
fn number(text: &[u8]) -> (&[u8], &[u8]) {
    let end = text.iter().position(|byte| !byte.is_ascii_digit());
    let (digits, rest) = text.split_at(end.unwrap_or(text.len()));
    let zeros = digits.iter().position(|&digit| digit != b'0');
    (&digits[zeros.unwrap_or(digits.len())..], rest)
}

/// Compares two names. Names that differ in zeros in front of a number only go by their bytes.
pub fn compare(a: &[u8], b: &[u8]) -> Ordering {
    let (mut left, mut right) = (a, b);
    while let (Some(x), Some(y)) = (left.first(), right.first()) {
        if x.is_ascii_digit() && y.is_ascii_digit() {
            let ((m, after_m), (n, after_n)) = (number(left), number(right));
            let order = m.len().cmp(&n.len()).then(m.cmp(n));
            if order != Ordering::Equal {
                return order;
            }
            (left, right) = (after_m, after_n);
        } else if x != y {
            return x.cmp(y);
        } else {
            (left, right) = (&left[1..], &right[1..]);
        }
    }
    left.len().cmp(&right.len()).then(a.cmp(b))
}

#[cfg(test)]
mod tests {
    use super::*;

    #[test]
    fn names() {
        let mut names = [
            "hall-10", "b", "10", "hall-2", "2", "02", "a", "hall", "1x", "1",
        ];
        names.sort_by(|a, b| compare(a.as_bytes(), b.as_bytes()));
        assert_eq!(
            names,
            ["1", "1x", "02", "2", "10", "a", "b", "hall", "hall-2", "hall-10"]
        );
    }
}
