//! Subjects in some bytes, by their spans. What is lent of both may end before they do: a call that reads on finds what it could take for a subject.
use compare::model_move::Asked;
use router::raw::SnapshotState;

/// The text of a subject: in the lent bytes, or behind them.
#[derive(Clone, Copy, Debug, PartialEq, Eq)]
pub enum Text<'a> {
    Lent(&'a [u8]),
    Behind(&'a [u8]),
}

#[derive(Clone, Debug)]
pub struct Subjects {
    pub bytes: Vec<u8>,
    /// Two numbers a subject, start and length.
    pub spans: Vec<usize>,
    /// How many of each are lent.
    pub lent_bytes: usize,
    pub lent_numbers: usize,
}

impl Subjects {
    /// All of the bytes and of the spans are lent.
    pub fn new(bytes: Vec<u8>, spans: Vec<usize>) -> Subjects {
        Subjects {
            lent_bytes: bytes.len(),
            lent_numbers: spans.len(),
            bytes,
            spans,
        }
    }

    /// Texts one behind the other, those that are not lent behind the others.
    pub fn packed(texts: &[Text]) -> Subjects {
        let (mut lent, mut behind) = (Vec::new(), Vec::new());
        let mut spans = Vec::new();
        for text in texts {
            let (bytes, text) = match text {
                Text::Lent(text) => (&mut lent, text),
                Text::Behind(text) => (&mut behind, text),
            };
            spans.extend([bytes.len(), text.len()]);
            bytes.extend_from_slice(text);
        }
        let lent_bytes = lent.len();
        for (span, text) in spans.chunks_mut(2).zip(texts) {
            if matches!(text, Text::Behind(_)) {
                span[0] += lent_bytes;
            }
        }
        Subjects {
            lent_bytes,
            ..Subjects::new([lent, behind].concat(), spans)
        }
    }

    /// Texts one behind the other, all lent.
    pub fn of(texts: &[impl AsRef<[u8]>]) -> Subjects {
        let texts = texts.iter().map(|text| Text::Lent(text.as_ref()));
        Subjects::packed(&texts.collect::<Vec<Text>>())
    }

    /// How many subjects are lent.
    pub fn count(&self) -> usize {
        self.lent_numbers / 2
    }

    pub fn shown(&self) -> String {
        let asked = self.asked(SnapshotState::default(), &[]);
        let bytes = asked.bytes.escape_ascii();
        format!("{:?} in \"{bytes}\"", asked.spans)
    }

    /// One number more is lent: the start of the first subject once more, whose length stands behind what is lent.
    pub fn with_odd_number(mut self) -> Subjects {
        let first = self
            .spans
            .get(..2)
            .map_or([0; 2], |span| [span[0], span[1]]);
        self.spans.truncate(self.lent_numbers);
        self.spans.extend(first);
        self.lent_numbers += 1;
        self
    }

    /// What is lent, with a standing table.
    pub fn asked<'a>(&'a self, snapshot: SnapshotState, area: &'a [u32]) -> Asked<'a> {
        Asked {
            snapshot,
            area,
            bytes: &self.bytes[..self.lent_bytes],
            spans: &self.spans[..self.lent_numbers],
        }
    }
}
