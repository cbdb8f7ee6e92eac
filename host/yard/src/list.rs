//! The lines of a binding list: a pattern, blanks, a target.
use crate::faults::Cause;
use crate::json::Object;
use crate::shown::shown;

/// A line with its pattern and its target. Lines are counted from 1.
#[derive(Clone, Copy, Debug, PartialEq, Eq)]
pub struct Line<'f> {
    pub number: usize,
    pub pattern: &'f [u8],
    pub target: u32,
}

impl Line<'_> {
    /// The line for the screen, without its target.
    pub fn text(&self) -> String {
        format!("line {:<5} {}", self.number, shown(self.pattern))
    }

    /// The line for programs.
    pub fn json(&self) -> Object {
        Object::default()
            .field("line", self.number)
            .bytes("pattern", self.pattern)
            .field("target", self.target)
    }
}

/// What some editors write at the start of a file that is UTF-8.
const BYTE_ORDER_MARK: &[u8] = b"\xef\xbb\xbf";

fn is_blank(byte: u8) -> bool {
    matches!(byte, b' ' | b'\t' | b'\r')
}

fn trimmed_end(text: &[u8]) -> &[u8] {
    let end = text.iter().rposition(|&byte| !is_blank(byte));
    end.map_or(&[], |last| &text[..=last])
}

fn trimmed(text: &[u8]) -> &[u8] {
    let start = text.iter().position(|&byte| !is_blank(byte));
    start.map_or(&[], |first| trimmed_end(&text[first..]))
}

/// A target: digits, and no number beyond 32 bits.
fn target(word: &[u8]) -> Option<u32> {
    let digits = word.iter().all(u8::is_ascii_digit);
    let word = std::str::from_utf8(word).ok().filter(|_| digits)?;
    word.parse().ok()
}

/// The pattern and the target of a line without its comment. The target is the last word.
fn split(line: &[u8]) -> Result<(&[u8], u32), Cause> {
    let Some(blank) = line.iter().rposition(|&byte| is_blank(byte)) else {
        return Err(Cause::NoTarget);
    };
    let word = &line[blank + 1..];
    match target(word) {
        Some(target) => Ok((trimmed_end(&line[..blank]), target)),
        None => Err(Cause::BadTarget(word.to_vec())),
    }
}

/// The line up to each `#` that begins a word.
fn before_hashes(line: &[u8]) -> impl Iterator<Item = &[u8]> {
    let begins = |&at: &usize| line[at] == b'#' && is_blank(line[at - 1]);
    let places = (1..line.len()).filter(begins);
    places.map(|at| trimmed_end(&line[..at]))
}

/// The pattern and the target of a line, what is wrong with it, or nothing where it is empty or a comment.
/// A `#` begins a comment where it begins a word and stands behind a target.
fn entry(line: &[u8]) -> Option<Result<(&[u8], u32), Cause>> {
    let line = trimmed(line);
    if line.is_empty() || line[0] == b'#' {
        return None;
    }
    let commented = before_hashes(line).map(split).find(Result::is_ok);
    let whole = commented.unwrap_or_else(|| split(line));
    if whole.is_ok() {
        return Some(whole);
    }
    // No reading is right: what stands before the first `#` tells most.
    Some(before_hashes(line).next().map_or(whole, split))
}

/// Each line of a file that is neither empty nor a comment, with its number.
pub fn lines(file: &[u8]) -> impl Iterator<Item = (usize, Result<Line<'_>, Cause>)> {
    let file = file.strip_prefix(BYTE_ORDER_MARK).unwrap_or(file);
    let numbered = (1..).zip(file.split(|&byte| byte == b'\n'));
    numbered.filter_map(|(number, line)| {
        let line = entry(line)?.map(|(pattern, target)| Line {
            number,
            pattern,
            target,
        });
        Some((number, line))
    })
}

#[cfg(test)]
mod tests {
    use super::*;

    fn read(line: &str) -> Option<Result<(&[u8], u32), Cause>> {
        entry(line.as_bytes())
    }

    fn pair(pattern: &str, target: u32) -> Option<Result<(&[u8], u32), Cause>> {
        Some(Ok((pattern.as_bytes(), target)))
    }

    #[test]
    fn patterns_and_targets() {
        assert_eq!(read("yard.a.> 7"), pair("yard.a.>", 7));
        assert_eq!(read("  yard.a \t 4294967295\r"), pair("yard.a", u32::MAX));
        assert_eq!(read("gleis 3.weiche 1 007"), pair("gleis 3.weiche 1", 7));
        assert_eq!(read(".. 7"), pair("..", 7));
    }

    #[test]
    fn comments() {
        assert_eq!(read(""), None);
        assert_eq!(read("   # a 7"), None);
        assert_eq!(read("a 7 # b 8"), pair("a", 7));
        assert_eq!(read("a 7 #8"), pair("a", 7));
        assert_eq!(read("halle #3.a 7"), pair("halle #3.a", 7));
        assert_eq!(read("halle #3.a 7 # zu"), pair("halle #3.a", 7));
    }

    #[test]
    fn faults() {
        let bad = |word: &str| Some(Err(Cause::BadTarget(word.into())));
        assert_eq!(read("yard.a"), Some(Err(Cause::NoTarget)));
        assert_eq!(read("yard.a # zu"), Some(Err(Cause::NoTarget)));
        assert_eq!(read("yard.a x7"), bad("x7"));
        assert_eq!(read("yard.a x7 # zu"), bad("x7"));
        assert_eq!(read("yard.a 4294967296"), bad("4294967296"));
        assert_eq!(read("yard.a -1"), bad("-1"));
        assert_eq!(read("yard.a +1"), bad("+1"));
    }

    #[test]
    fn numbers_of_lines() {
        let file = b"\xef\xbb\xbfa 1\n\n# x\nb 2\nc";
        let numbers: Vec<usize> = lines(file).map(|(number, _)| number).collect();
        assert_eq!(numbers, [1, 4, 5]);
        let first = lines(file).next().map(|(_, line)| line);
        assert_eq!(
            first,
            Some(Ok(Line {
                number: 1,
                pattern: b"a",
                target: 1
            }))
        );
    }
}
