//! What the command line asks for.
use crate::parts::{self, Part};

pub struct Options {
    pub seconds: Option<u64>,
    pub seed: u64,
    /// One turn of one part.
    pub turn: Option<(&'static Part, u64)>,
}

impl Options {
    /// Nothing if the words make no sense.
    pub fn read() -> Option<Options> {
        let (mut seconds, mut seed, mut part, mut turn) = (None, 1, None, None);
        let mut words = std::env::args().skip(1);
        while let Some(word) = words.next() {
            let value = words.next()?;
            match word.as_str() {
                "--seconds" => seconds = Some(value.parse().ok()?),
                "--seed" => seed = value.parse().ok()?,
                "--part" => part = Some(parts::named(&value)?),
                "--turn" => turn = Some(value.parse().ok()?),
                _ => return None,
            }
        }
        if part.is_some() != turn.is_some() {
            return None;
        }
        Some(Options {
            seconds,
            seed,
            turn: part.zip(turn),
        })
    }
}
