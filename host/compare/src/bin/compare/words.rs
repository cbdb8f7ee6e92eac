//! Texts on which code that reads words of eight bytes may go wrong: what it looks for, and what it may take for that, at every place of a word and of the rest.
use crate::exhaustive::texts_of_bytes;
use crate::tally::{Family, Tally};
use compare::random::Random;
use std::mem::replace;
use std::ops::RangeInclusive;

/// The most bytes of texts with few dots, and of tokens: five words.
const MOST: usize = 40;

/// The most bytes of texts with any byte at any place: three words.
const SHORT: usize = 24;

/// The bytes of texts with two odd characters: two words and one byte.
const ODD_LENGTH: usize = 17;

/// Tokens are made of the first so many of these.
pub const LETTERS: &[u8; MOST] = b"abcdefghijklmnopqrstuvwxyzABCDEFGHIJKLMN";

/// What stands beside dots: a letter, the byte behind the dot's, and the least and the largest that are legal in ASCII.
const OTHERS: &[u8] = b"a/ ~";

/// Bytes that a parse looks for, bytes next to them, and bytes that make a text ill-formed.
const ODD_BYTES: &[u8] = b".-/*+>?\x00\x1f \x7f~\x80\xae\xc3\xff";

/// Characters of two bytes. But for its highest bit, the second of all but the last is one that a parse looks for.
const ODD_CHARACTERS: [&str; 6] = ["®", "ª", "¾", "\u{80}", "\u{9f}", "ä"];

/// Bytes that are refused wherever they stand among letters.
const BAD: &[u8] = b"*\x1f\x7f\x80";

/// Lengths around 512, 1,024, 2,048 and 4,096.
const LONG: [RangeInclusive<usize>; 4] = [500..=512, 1016..=1034, 2030..=2060, 4080..=4104];

/// How many places at each end of a long text are tried.
const END: usize = 20;

/// Lengths of texts of dots alone: about as many as a byte counts, as many for each place of a word, and the most.
const DOTS: [usize; 7] = [254, 255, 256, 2039, 2040, 2048, 4096];

/// How many texts are drawn of each length, and of each number of tokens.
const DRAWN: usize = 4_000;
const DRAWN_TOKENS: usize = 20;

/// Visits a text, and it with a byte put at up to `most` places from `from` on.
fn each_with(text: &mut [u8], byte: u8, from: usize, most: usize, visit: &mut impl FnMut(&[u8])) {
    visit(text);
    if most == 0 {
        return;
    }
    for place in from..text.len() {
        let old = replace(&mut text[place], byte);
        each_with(text, byte, place + 1, most - 1, visit);
        text[place] = old;
    }
}

fn few_dots(tally: &mut Tally) {
    for other in *b"a/" {
        for length in 0..=MOST {
            let mut text = vec![other; length];
            each_with(&mut text, b'.', 0, 3, &mut |text| tally.text(text));
        }
    }
    tally.report(Family::Texts, "texts of up to 40 bytes with up to 3 dots");
    for length in 0..=MOST {
        let mut text = vec![b'.'; length];
        each_with(&mut text, b'a', 0, 3, &mut |text| tally.text(text));
    }
    tally.report(
        Family::Texts,
        "texts of up to 40 bytes with up to 3 letters among dots",
    );
}

/// Texts of 21 to 40 bytes with dots at half of their places, at a quarter, and at a quarter with none side by side.
fn drawn_dots(tally: &mut Tally, random: &mut Random) {
    for length in 21..=MOST {
        for turn in 0..DRAWN {
            let half = random.draw();
            let dots = match turn % 3 {
                0 => half,
                1 => half & random.draw(),
                _ => half & !(half << 1),
            };
            let byte = |place: usize| if dots >> place & 1 == 1 { b'.' } else { b'a' };
            let text: Vec<u8> = (0..length).map(byte).collect();
            tally.text(&text);
        }
    }
    tally.report(Family::Texts, "texts of 21 to 40 bytes with drawn dots");
}

/// Writes a piece over a text from a place on, as far as it fits.
fn put(text: &mut [u8], place: usize, piece: &[u8]) {
    for (byte, &new) in text[place..].iter_mut().zip(piece) {
        *byte = new;
    }
}

/// Visits the texts of up to 24 bytes that are a piece, at any place, among bytes of one kind.
fn each_place(piece: &[u8], other: u8, mut visit: impl FnMut(&mut [u8])) {
    for length in 1..=SHORT {
        for place in 0..length {
            let mut text = vec![other; length];
            put(&mut text, place, piece);
            visit(&mut text);
        }
    }
}

fn every_byte(tally: &mut Tally) {
    for byte in 0..=255 {
        let sides: [&[u8]; 4] = [&[byte], &[b'.', byte], &[byte, b'.'], &[b'.', byte, b'.']];
        for piece in sides {
            each_place(piece, b'a', |text| tally.text(text));
        }
    }
    tally.report(
        Family::Texts,
        "every byte, alone and beside dots, at each place of texts of up to 24 bytes",
    );
}

/// A text, and it with a dot at each place.
fn with_a_dot(tally: &mut Tally, text: &mut [u8]) {
    each_with(text, b'.', 0, 1, &mut |text| tally.text(text));
}

/// The odd bytes and characters.
fn odd() -> Vec<&'static [u8]> {
    let characters = ODD_CHARACTERS.iter().map(|character| character.as_bytes());
    ODD_BYTES.chunks(1).chain(characters).collect()
}

fn odd_ones(tally: &mut Tally) {
    for piece in odd() {
        for &other in OTHERS {
            each_place(piece, other, |text| with_a_dot(tally, text));
        }
    }
    tally.report(
        Family::Texts,
        "a dot and one of 22 odd characters at any two places of texts of up to 24 bytes",
    );
}

/// Any two odd characters at two places, and a dot at any place.
fn odd_pair(tally: &mut Tally, place: usize, behind: usize) {
    for first in odd() {
        for second in odd() {
            let mut text = [b'a'; ODD_LENGTH];
            put(&mut text, place, first);
            put(&mut text, behind, second);
            with_a_dot(tally, &mut text);
        }
    }
}

fn odd_pairs(tally: &mut Tally) {
    for place in 0..ODD_LENGTH {
        for behind in place + 1..ODD_LENGTH {
            odd_pair(tally, place, behind);
        }
    }
    tally.report(
        Family::Texts,
        "a dot and two of 22 odd characters at any three places of texts of 17 bytes",
    );
}

/// A text of so many bytes that dots divide into tokens of about one length.
fn divided(length: usize, tokens: usize) -> Vec<u8> {
    let mut text = vec![b'a'; length];
    for token in 1..tokens {
        text[token * length / tokens] = b'.';
    }
    text
}

/// A text with a byte put at some place.
fn changed(tally: &mut Tally, text: &[u8], place: usize, byte: u8) {
    let mut text = text.to_vec();
    text[place] = byte;
    tally.text(&text);
}

/// A text of one token with a dot or a refused byte at each place near its ends.
fn long_token(tally: &mut Tally, length: usize) {
    let text = divided(length, 1);
    for place in (0..END).chain(length - END..length) {
        for &byte in [b'.'].iter().chain(BAD) {
            changed(tally, &text, place, byte);
        }
    }
}

/// A text of so many tokens as it is, and with a refused byte at its ends and at some place.
fn long_tokens(tally: &mut Tally, random: &mut Random, length: usize, tokens: usize) {
    let text = divided(length, tokens);
    tally.text(&text);
    for &byte in BAD {
        for place in [0, length - 1, random.below(length)] {
            changed(tally, &text, place, byte);
        }
    }
}

fn long_texts(tally: &mut Tally, random: &mut Random) {
    for length in LONG.into_iter().flatten() {
        long_token(tally, length);
        for tokens in [1, 31, 32, 33] {
            long_tokens(tally, random, length, tokens);
        }
    }
    for length in DOTS {
        tally.text(&vec![b'.'; length]);
    }
    tally.report(
        Family::Texts,
        "texts of about 512, 1,024, 2,048 and 4,096 bytes with dots and refused bytes",
    );
}

fn joined(tally: &mut Tally, tokens: &[&[u8]]) {
    tally.text(&tokens.join(&b'.'));
}

/// Tokens as they are, and with each in turn replaced by each of the others.
fn replaced(tally: &mut Tally, tokens: &mut [&[u8]], others: &[&'static [u8]]) {
    joined(tally, tokens);
    for place in 0..tokens.len() {
        let old = tokens[place];
        for other in others {
            tokens[place] = other;
            joined(tally, tokens);
        }
        tokens[place] = old;
    }
}

fn many_tokens(tally: &mut Tally, random: &mut Random) {
    for count in 30..=35 {
        for length in 1..=9 {
            for first in 1..=8 {
                let mut tokens = vec![&LETTERS[..length]; count];
                tokens[0] = &LETTERS[..first];
                replaced(tally, &mut tokens, &[b""]);
            }
        }
        for _ in 0..DRAWN_TOKENS {
            let token = |_| &LETTERS[..1 + random.below(9)];
            let mut tokens: Vec<&[u8]> = (0..count).map(token).collect();
            replaced(tally, &mut tokens, &[b"", b"*", b">", b"a*"]);
        }
    }
    tally.report(
        Family::Texts,
        "texts of 30 to 35 tokens, with each replaced in turn",
    );
}

/// A subject against itself, and with any byte changed, both ways.
fn one_byte_off(tally: &mut Tally, subject: &[u8]) {
    tally.matching(subject, subject);
    for place in 0..subject.len() {
        let old = subject[place];
        for new in [old ^ 1, old ^ 0x80, b'.', b'*', b'>'] {
            let mut other = subject.to_vec();
            other[place] = new;
            tally.matching(&other, subject);
            tally.matching(subject, &other);
        }
    }
}

/// The token in the middle of a subject against `*` and `>`, and against tokens that are longer or shorter.
fn other_tokens(tally: &mut Tally, first: &[u8], token: &[u8]) {
    let subject = [first, token, b"b"].join(&b'.');
    let patterns: [&[&[u8]]; 6] = [
        &[first, b"*", b"b"],
        &[b"*", token, b"*"],
        &[first, b"*"],
        &[first, token, b">"],
        &[first, b">"],
        &[first, token, b"b", b">"],
    ];
    for pattern in patterns {
        tally.matching(&pattern.join(&b'.'), &subject);
    }
    for length in 1..=MOST {
        let pattern = [first, &LETTERS[..length], b"b"].join(&b'.');
        tally.matching(&pattern, &subject);
    }
}

fn tokens_matched(tally: &mut Tally) {
    for first in 1..=8 {
        let first = &LETTERS[..first];
        for length in 1..=MOST {
            let token = &LETTERS[..length];
            other_tokens(tally, first, token);
            if length <= 20 {
                one_byte_off(tally, &[first, token, b"b"].join(&b'.'));
            }
        }
    }
    tally.report(
        Family::Texts,
        "tokens of up to 40 bytes against wildcards, other lengths and one byte changed",
    );
}

pub fn run(tally: &mut Tally, random: &mut Random) {
    texts_of_bytes(b".a", 20, |text| tally.text(text));
    tally.report(
        Family::Texts,
        "texts of up to 20 bytes out of dot and letter",
    );
    texts_of_bytes(b".a*>", 9, |text| tally.text(text));
    tally.report(
        Family::Texts,
        "texts of up to 9 bytes out of dot, letter and wildcards",
    );
    few_dots(tally);
    drawn_dots(tally, random);
    every_byte(tally);
    odd_ones(tally);
    odd_pairs(tally);
    long_texts(tally, random);
    many_tokens(tally, random);
    tokens_matched(tally);
}
