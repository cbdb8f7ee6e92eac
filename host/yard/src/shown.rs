//! Texts and numbers for the screen.
use router::Refusal;

/// The most characters that are shown of one text.
const MOST: usize = 200;

/// A byte as `\xHH`.
fn escaped(bytes: &[u8], out: &mut String) {
    for byte in bytes {
        *out += &format!("\\x{byte:02X}");
    }
}

/// A text without what a screen cannot show: control characters and bytes that are no UTF-8 become `\xHH`. A long one is cut.
pub fn shown(text: &[u8]) -> String {
    let mut out = String::new();
    let mut left = MOST;
    for chunk in text.utf8_chunks() {
        for character in chunk.valid().chars() {
            if left == 0 {
                return out + "...";
            }
            left -= 1;
            if character.is_control() {
                escaped(character.encode_utf8(&mut [0; 4]).as_bytes(), &mut out);
            } else {
                out.push(character);
            }
        }
        escaped(chunk.invalid(), &mut out);
        left = left.saturating_sub(chunk.invalid().len());
    }
    out
}

/// A number with commas between its thousands.
pub fn grouped(number: usize) -> String {
    let digits = number.to_string();
    let mut out = String::new();
    for (place, digit) in digits.chars().enumerate() {
        if place > 0 && (digits.len() - place).is_multiple_of(3) {
            out.push(',');
        }
        out.push(digit);
    }
    out
}

/// A number with a noun, `1 line` or `3 lines`.
pub fn counted(number: usize, noun: &str) -> String {
    let end = if number == 1 { "" } else { "s" };
    format!("{} {noun}{end}", grouped(number))
}

/// A refusal by number, name and sentence.
pub fn refused(refusal: &Refusal) -> String {
    format!(
        "refused ({} {}): {refusal}",
        refusal.number(),
        refusal.name()
    )
}

/// A word as it is typed to a shell: in quotes where the shell would make something else of it.
pub fn typed(word: &str) -> String {
    let plain = |c: char| c.is_alphanumeric() || "._-/".contains(c);
    if !word.is_empty() && word.chars().all(plain) {
        return word.into();
    }
    format!("'{}'", word.replace('\'', r"'\''"))
}

#[cfg(test)]
mod tests {
    use super::*;

    #[test]
    fn texts() {
        assert_eq!(shown("weiche-ö".as_bytes()), "weiche-ö");
        assert_eq!(shown(b"a\x07\xc0\x80."), "a\\x07\\xC0\\x80.");
        assert_eq!(shown(b"\x1b[2J"), "\\x1B[2J");
        assert!(shown(&[b'a'; 5000]).len() < 300 && shown(&[0xff; 5000]).len() < 21_000);
    }

    #[test]
    fn numbers() {
        let told = [0, 7, 999, 1000, 65537, 1048592].map(grouped);
        assert_eq!(told, ["0", "7", "999", "1,000", "65,537", "1,048,592"]);
        assert_eq!(counted(1, "line") + &counted(2, "line"), "1 line2 lines");
    }

    #[test]
    fn words() {
        let told = ["-", "lists/yard-2.list", "süd.list", "my list", "a'b", ""].map(typed);
        assert_eq!(
            told,
            [
                "-",
                "lists/yard-2.list",
                "süd.list",
                "'my list'",
                r"'a'\''b'",
                "''"
            ]
        );
    }
}
