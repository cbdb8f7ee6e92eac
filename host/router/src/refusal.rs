//! Why a call turns back: the scope document's refusals, numbers 1 to 22, 28 and 99, with their names and values.
//!
//! Values count from 0, as the scope document has them. The sentences that `Display` gives count tokens, bytes, entries and subjects from 1,
//! as people do, and say so where it matters.
use crate::limits::{
    COPY_BYTES, MAX_CAPACITY, MAX_ENTRIES, MAX_FRONTIER, MAX_MOVE, MAX_TEXT, MAX_TOKENS, NODE_WORDS,
};
use core::fmt;

/// Why a text is refused as a subject or as a pattern: 1 to 9.
#[derive(Clone, Copy, Debug, PartialEq, Eq, Hash)]
pub enum TextRefusal {
    /// 1: the text has over 4,096 bytes.
    TooLong,
    /// 2: no well-formed sequence starts at this byte.
    NotUtf8 { index: usize },
    /// 3: the text has no bytes.
    Empty,
    /// 4: a pattern token follows this `>`.
    TailWildcardNotLast { index: usize },
    /// 5: a 33rd token is reached.
    TooDeep { depth: usize },
    /// 6: this token is empty.
    EmptyToken { index: usize },
    /// 7: this token of a subject is a wildcard.
    WildcardNotAllowed { ch: char, index: usize },
    /// 8: this token has a control character.
    ControlChar { ch: char, index: usize },
    /// 9: this token has a wildcard beside other characters.
    IllegalChar { ch: char, index: usize },
}

/// Why a call is refused. A refused call changes no state and no area, save that the node area of a refused build is free afterwards.
#[derive(Clone, Copy, Debug, PartialEq, Eq, Hash)]
pub enum Refusal {
    /// 1 to 9: the call's own subject or pattern is refused.
    Text(TextRefusal),
    /// 1 to 9: this subject of a move is refused.
    Subject { place: usize, text: TextRefusal },
    /// 10: the list is full.
    EntriesFull,
    /// 11: the pattern is longer than what is left of the text store.
    TextFull,
    /// 12: the text of this entry lies outside the store.
    BadEntry { index: usize },
    /// 12: this subject of a move lies outside the lent bytes.
    SubjectOutside { place: usize },
    /// 13: the text of an entry is refused.
    InvalidPattern(TextRefusal),
    /// 14: the table needs so many nodes, and fewer were lent.
    NodesFull { needed: usize },
    /// 15: there are more entries than target words.
    TargetsFull,
    /// 16: the worst case is greater than the limit.
    ForkLimitExceeded { worst_case: usize, limit: usize },
    /// 17: the cache's areas are too short for its capacity, or that is over 1,024.
    CacheShort,
    /// 18: a cache's state or slots cannot be.
    BadSlot,
    /// 19: a table's counts or words point outside.
    Damaged,
    /// 20: the snapshot's area is shorter than the table.
    StoreFull,
    /// 21: the list or the move has so many targets, or the text so many bytes, and the output is shorter.
    OutShort { needed: usize },
    /// 22: the move has over 64 subjects.
    SetTooLarge,
    /// 28: the load maker's start is 0.
    ZeroStart,
    /// 99: the areas of a call on bytes are too long.
    CopyFull,
    /// An answer that is none of the above. No call of the proved library gives one.
    Unknown { number: u64, values: [u64; 3] },
}

/// A character that a value stands for.
fn character(value: u64) -> Option<char> {
    u32::try_from(value).ok().and_then(char::from_u32)
}

/// An index or a count that a value stands for.
fn count(value: u64) -> Option<usize> {
    usize::try_from(value).ok()
}

impl TextRefusal {
    /// The refusal of a number 1 to 9 and its values; none for any other number, or for values that no refusal has.
    pub fn from_words(number: u64, first: u64, second: u64) -> Option<TextRefusal> {
        Some(match number {
            1 => TextRefusal::TooLong,
            2 => TextRefusal::NotUtf8 {
                index: count(first)?,
            },
            3 => TextRefusal::Empty,
            4 => TextRefusal::TailWildcardNotLast {
                index: count(first)?,
            },
            5 => TextRefusal::TooDeep {
                depth: count(first)?,
            },
            6 => TextRefusal::EmptyToken {
                index: count(first)?,
            },
            7 => TextRefusal::WildcardNotAllowed {
                ch: character(first)?,
                index: count(second)?,
            },
            8 => TextRefusal::ControlChar {
                ch: character(first)?,
                index: count(second)?,
            },
            9 => TextRefusal::IllegalChar {
                ch: character(first)?,
                index: count(second)?,
            },
            _ => return None,
        })
    }

    /// The scope document's number.
    pub const fn number(&self) -> u64 {
        match self {
            TextRefusal::TooLong => 1,
            TextRefusal::NotUtf8 { .. } => 2,
            TextRefusal::Empty => 3,
            TextRefusal::TailWildcardNotLast { .. } => 4,
            TextRefusal::TooDeep { .. } => 5,
            TextRefusal::EmptyToken { .. } => 6,
            TextRefusal::WildcardNotAllowed { .. } => 7,
            TextRefusal::ControlChar { .. } => 8,
            TextRefusal::IllegalChar { .. } => 9,
        }
    }

    /// The scope document's name.
    pub const fn name(&self) -> &'static str {
        match self {
            TextRefusal::TooLong => "TooLong",
            TextRefusal::NotUtf8 { .. } => "NotUtf8",
            TextRefusal::Empty => "Empty",
            TextRefusal::TailWildcardNotLast { .. } => "TailWildcardNotLast",
            TextRefusal::TooDeep { .. } => "TooDeep",
            TextRefusal::EmptyToken { .. } => "EmptyToken",
            TextRefusal::WildcardNotAllowed { .. } => "WildcardNotAllowed",
            TextRefusal::ControlChar { .. } => "ControlChar",
            TextRefusal::IllegalChar { .. } => "IllegalChar",
        }
    }
}

/// A token for people: counted from 1.
struct Token(usize);

impl fmt::Display for Token {
    fn fmt(&self, f: &mut fmt::Formatter<'_>) -> fmt::Result {
        write!(f, "token {} (counted from 1)", self.0.saturating_add(1))
    }
}

impl fmt::Display for TextRefusal {
    fn fmt(&self, f: &mut fmt::Formatter<'_>) -> fmt::Result {
        match *self {
            TextRefusal::TooLong => {
                write!(f, "the text has more than {MAX_TEXT} bytes: shorten it")
            }
            TextRefusal::NotUtf8 { index } => {
                let byte = index.saturating_add(1);
                write!(f, "byte {byte} (counted from 1) begins no UTF-8 character: save the text as UTF-8, or type it again from there")
            }
            TextRefusal::Empty => f.write_str("the text is empty: write at least one token"),
            TextRefusal::TailWildcardNotLast { index } => {
                let token = Token(index);
                write!(f, "{token} is `>`, which stands for all that follows and must be the last: end there, or write `*` for one token")
            }
            TextRefusal::TooDeep { .. } => {
                write!(
                    f,
                    "the text has more than {MAX_TOKENS} tokens: use fewer dots"
                )
            }
            TextRefusal::EmptyToken { index } => {
                let token = Token(index);
                write!(f, "{token} is empty: two dots stand next to each other, or the text begins or ends with a dot")
            }
            TextRefusal::WildcardNotAllowed { ch, index } => {
                let token = Token(index);
                write!(f, "{token} is the wildcard `{ch}`, which only a pattern may have: write out what the order is for")
            }
            TextRefusal::ControlChar { ch, index } => {
                let (token, code) = (Token(index), u32::from(ch));
                write!(f, "{token} has the control character U+{code:04X}, which a screen does not show: delete it")
            }
            TextRefusal::IllegalChar { ch, index } => {
                let token = Token(index);
                write!(f, "{token} has `{ch}` beside other characters: a wildcard stands alone between two dots")
            }
        }
    }
}

impl core::error::Error for TextRefusal {}

impl Refusal {
    /// The refusal of a number and its values, as the C calls give them. What is no refusal of the scope document becomes `Unknown`, 0 too.
    pub fn from_words(number: u64, values: [u64; 3]) -> Refusal {
        Refusal::known(number, values).unwrap_or(Refusal::Unknown { number, values })
    }

    /// The same for a whole move, where the subject's place stands before the values of 1 to 9, and is the value of 12.
    pub fn from_move_words(number: u64, values: [u64; 3]) -> Refusal {
        let known = match number {
            1..=9 | 12 => Refusal::of_subject(number, values),
            _ => Refusal::known(number, values),
        };
        known.unwrap_or(Refusal::Unknown { number, values })
    }

    /// What is wrong with one subject of a move.
    fn of_subject(number: u64, [place, first, second]: [u64; 3]) -> Option<Refusal> {
        let place = count(place)?;
        if number == 12 {
            return Some(Refusal::SubjectOutside { place });
        }
        let text = TextRefusal::from_words(number, first, second)?;
        Some(Refusal::Subject { place, text })
    }

    fn known(number: u64, [first, second, third]: [u64; 3]) -> Option<Refusal> {
        Some(match number {
            1..=9 => Refusal::Text(TextRefusal::from_words(number, first, second)?),
            10 => Refusal::EntriesFull,
            11 => Refusal::TextFull,
            12 => Refusal::BadEntry {
                index: count(first)?,
            },
            13 => Refusal::InvalidPattern(TextRefusal::from_words(first, second, third)?),
            14 => Refusal::NodesFull {
                needed: count(first)?,
            },
            15 => Refusal::TargetsFull,
            16 => Refusal::ForkLimitExceeded {
                worst_case: count(first)?,
                limit: count(second)?,
            },
            17 => Refusal::CacheShort,
            18 => Refusal::BadSlot,
            19 => Refusal::Damaged,
            20 => Refusal::StoreFull,
            21 => Refusal::OutShort {
                needed: count(first)?,
            },
            22 => Refusal::SetTooLarge,
            28 => Refusal::ZeroStart,
            99 => Refusal::CopyFull,
            _ => return None,
        })
    }

    /// The scope document's number.
    pub const fn number(&self) -> u64 {
        match self {
            Refusal::Text(text) | Refusal::Subject { text, .. } => text.number(),
            Refusal::EntriesFull => 10,
            Refusal::TextFull => 11,
            Refusal::BadEntry { .. } | Refusal::SubjectOutside { .. } => 12,
            Refusal::InvalidPattern(_) => 13,
            Refusal::NodesFull { .. } => 14,
            Refusal::TargetsFull => 15,
            Refusal::ForkLimitExceeded { .. } => 16,
            Refusal::CacheShort => 17,
            Refusal::BadSlot => 18,
            Refusal::Damaged => 19,
            Refusal::StoreFull => 20,
            Refusal::OutShort { .. } => 21,
            Refusal::SetTooLarge => 22,
            Refusal::ZeroStart => 28,
            Refusal::CopyFull => 99,
            Refusal::Unknown { number, .. } => *number,
        }
    }

    /// The scope document's name.
    pub const fn name(&self) -> &'static str {
        match self {
            Refusal::Text(text) | Refusal::Subject { text, .. } => text.name(),
            Refusal::EntriesFull => "EntriesFull",
            Refusal::TextFull => "TextFull",
            Refusal::BadEntry { .. } | Refusal::SubjectOutside { .. } => "BadEntry",
            Refusal::InvalidPattern(_) => "InvalidPattern",
            Refusal::NodesFull { .. } => "NodesFull",
            Refusal::TargetsFull => "TargetsFull",
            Refusal::ForkLimitExceeded { .. } => "ForkLimitExceeded",
            Refusal::CacheShort => "CacheShort",
            Refusal::BadSlot => "BadSlot",
            Refusal::Damaged => "Damaged",
            Refusal::StoreFull => "StoreFull",
            Refusal::OutShort { .. } => "OutShort",
            Refusal::SetTooLarge => "SetTooLarge",
            Refusal::ZeroStart => "ZeroStart",
            Refusal::CopyFull => "CopyFull",
            Refusal::Unknown { .. } => "Unknown",
        }
    }
}

impl From<TextRefusal> for Refusal {
    fn from(refusal: TextRefusal) -> Refusal {
        Refusal::Text(refusal)
    }
}

impl fmt::Display for Refusal {
    fn fmt(&self, f: &mut fmt::Formatter<'_>) -> fmt::Result {
        match *self {
            Refusal::Text(text) => text.fmt(f),
            Refusal::Subject { place, text } => {
                let subject = place.saturating_add(1);
                write!(f, "subject {subject} (counted from 1): {text}")
            }
            Refusal::EntriesFull => write!(f, "the list is full: it takes {MAX_ENTRIES} entries, or fewer where less room was lent; take lines out"),
            Refusal::TextFull => f.write_str("the text store is full: the pattern is longer than what is left of it; lend a longer store"),
            Refusal::BadEntry { index } => {
                let entry = index.saturating_add(1);
                write!(f, "entry {entry} (counted from 1) has a text that lies outside the text store: lend the store that the list was written with")
            }
            Refusal::SubjectOutside { place } => {
                let subject = place.saturating_add(1);
                write!(f, "subject {subject} (counted from 1) lies outside the lent bytes: lend the bytes that the move was written in")
            }
            Refusal::InvalidPattern(text) => {
                let (number, name) = (text.number(), text.name());
                write!(f, "the pattern of an entry is refused ({number} {name}): {text}")
            }
            Refusal::NodesFull { needed } => {
                let words = needed.saturating_mul(NODE_WORDS);
                write!(f, "the table needs {needed} nodes, and fewer were lent: lend {words} node words")
            }
            Refusal::TargetsFull => f.write_str("the list has more entries than target words were lent: lend one word an entry"),
            Refusal::ForkLimitExceeded { worst_case, limit } => write!(f, "an order could stand at {worst_case} places of the table at once, and {limit} are allowed: use `*` in fewer lines that differ in several tokens"),
            Refusal::CacheShort => write!(f, "the cache's areas are too short for its capacity, or the capacity is over {MAX_CAPACITY}: lend longer areas or ask for fewer slots"),
            Refusal::BadSlot => f.write_str("the cache's state or slots hold what no call leaves there: make the cache anew"),
            Refusal::Damaged => write!(f, "the table is damaged: its counts or words point outside its areas, or more than {MAX_FRONTIER} places would be reached; build it anew"),
            Refusal::StoreFull => f.write_str("the snapshot's area is shorter than the table: lend a longer area"),
            Refusal::OutShort { needed } => write!(f, "the output is too short for the answer: lend at least {needed} places, one a target of a list or a byte of a text"),
            Refusal::SetTooLarge => write!(f, "the move has more than {MAX_MOVE} subjects: split it into moves that may each go out alone"),
            Refusal::ZeroStart => f.write_str("the start is 0, and every draw from 0 is 0: begin with any other number, as 1"),
            Refusal::CopyFull => write!(f, "the areas have together more than {COPY_BYTES} bytes: use the call on words"),
            Refusal::Unknown { number, .. } => write!(f, "the library gave an answer that this program does not know, number {number}: use the library and the program of one version"),
        }
    }
}

impl core::error::Error for Refusal {}

#[cfg(test)]
mod tests {
    use super::*;
    extern crate std;
    use std::string::ToString;

    const NAMES: [&str; 22] = [
        "TooLong",
        "NotUtf8",
        "Empty",
        "TailWildcardNotLast",
        "TooDeep",
        "EmptyToken",
        "WildcardNotAllowed",
        "ControlChar",
        "IllegalChar",
        "EntriesFull",
        "TextFull",
        "BadEntry",
        "InvalidPattern",
        "NodesFull",
        "TargetsFull",
        "ForkLimitExceeded",
        "CacheShort",
        "BadSlot",
        "Damaged",
        "StoreFull",
        "OutShort",
        "SetTooLarge",
    ];

    #[test]
    fn every_number_has_its_name() {
        for (number, name) in (1..).zip(NAMES) {
            let refusal = Refusal::from_words(number, [3, 2, 1]);
            assert_eq!((refusal.number(), refusal.name()), (number, name));
        }
        let zero = Refusal::from_words(28, [0; 3]);
        assert_eq!((zero.number(), zero.name()), (28, "ZeroStart"));
        assert_eq!(Refusal::from_words(99, [0; 3]), Refusal::CopyFull);
    }

    #[test]
    fn values_are_decoded() {
        let empty = TextRefusal::EmptyToken { index: 1 };
        assert_eq!(Refusal::from_words(6, [1, 0, 0]), Refusal::Text(empty));
        let inside = TextRefusal::IllegalChar { ch: '*', index: 4 };
        assert_eq!(
            Refusal::from_words(13, [9, 42, 4]),
            Refusal::InvalidPattern(inside)
        );
        let forks = Refusal::ForkLimitExceeded {
            worst_case: 1025,
            limit: 1024,
        };
        assert_eq!(Refusal::from_words(16, [1025, 1024, 0]), forks);
    }

    #[test]
    fn other_answers_are_unknown() {
        let others = [
            (0, [0; 3]),
            (23, [0; 3]),
            (27, [0; 3]),
            (98, [1, 2, 3]),
            (u64::MAX, [u64::MAX; 3]),
            (7, [0xd800, 0, 0]),
            (8, [u64::MAX, 0, 0]),
            (13, [10, 0, 0]),
            (13, [0, 0, 0]),
        ];
        for (number, values) in others {
            let unknown = Refusal::Unknown { number, values };
            assert_eq!(Refusal::from_words(number, values), unknown);
        }
    }

    #[test]
    fn refusals_of_a_move() {
        for (number, name) in (1..).zip(NAMES) {
            let refusal = Refusal::from_move_words(number, [3, 2, 1]);
            assert_eq!((refusal.number(), refusal.name()), (number, name));
        }
        let text = TextRefusal::IllegalChar { ch: '*', index: 4 };
        let subject = Refusal::Subject { place: 63, text };
        assert_eq!(Refusal::from_move_words(9, [63, 42, 4]), subject);
        let outside = Refusal::SubjectOutside { place: 2 };
        assert_eq!(Refusal::from_move_words(12, [2, 0, 0]), outside);
        let short = Refusal::OutShort { needed: 5 };
        assert_eq!(Refusal::from_move_words(21, [5, 0, 0]), short);
        for (number, values) in [(0, [2, 0, 0]), (8, [1, u64::MAX, 0]), (23, [0; 3])] {
            let unknown = Refusal::Unknown { number, values };
            assert_eq!(Refusal::from_move_words(number, values), unknown);
        }
    }

    #[test]
    fn sentences_count_from_one() {
        let refusal = Refusal::from_words(6, [1, 0, 0]);
        assert!(refusal
            .to_string()
            .starts_with("token 2 (counted from 1) is empty"));
        let last = TextRefusal::EmptyToken { index: usize::MAX };
        assert!(last.to_string().contains("is empty"));
        let subject = Refusal::from_move_words(6, [2, 1, 0]).to_string();
        assert!(
            subject.starts_with("subject 3 (counted from 1): token 2 (counted from 1) is empty")
        );
        let outside = Refusal::from_move_words(12, [u64::MAX, 0, 0]).to_string();
        assert!(outside.contains("lies outside"));
    }

    #[test]
    fn every_refusal_is_one_sentence_line() {
        for number in (1..=22).chain([28, 99, 1234]) {
            for refusal in [Refusal::from_words, Refusal::from_move_words] {
                let sentence = refusal(number, [7, 7, 7]).to_string();
                assert!(!sentence.is_empty() && !sentence.contains('\n'));
            }
        }
    }
}
