//! The recording: the number of records, in eight bytes, then the records. Numbers have their lowest byte first.
//!
//! A record is its length in two bytes, then:
//!
//! | at | bytes | |
//! |---|---|---|
//! | 0 | 1 | kind |
//! | 1 | 1 | answer: 0, or the number of a refusal |
//! | 2, 6 | 4 each | the answer's first and second value, 0 where there is none |
//! | 10 | | the rest, by kind |
//!
//! A list is a count in two bytes and words of four bytes. A text that stands last has no length of its own.

/// An answer: 0 or the number of a refusal, and two values.
#[derive(Clone, Copy)]
pub struct Answer(pub u8, pub u32, pub u32);

/// One record as it is written.
pub struct Record {
    bytes: Vec<u8>,
}

impl Record {
    pub fn new(kind: u8, answer: Answer) -> Record {
        let bytes = vec![kind, answer.0];
        Record { bytes }.word(answer.1).word(answer.2)
    }

    pub fn small(mut self, number: u8) -> Record {
        self.bytes.push(number);
        self
    }

    pub fn word(mut self, word: u32) -> Record {
        self.bytes.extend_from_slice(&word.to_le_bytes());
        self
    }

    pub fn number(mut self, number: u64) -> Record {
        self.bytes.extend_from_slice(&number.to_le_bytes());
        self
    }

    pub fn list(mut self, list: &[u32]) -> Record {
        self.bytes.extend_from_slice(&length_bytes(list.len()));
        list.iter().fold(self, |record, &word| record.word(word))
    }

    /// A text with its length in front.
    pub fn text(mut self, text: &str) -> Record {
        self.bytes.extend_from_slice(&length_bytes(text.len()));
        self.last(text)
    }

    /// The text that stands last.
    pub fn last(mut self, text: &str) -> Record {
        self.bytes.extend_from_slice(text.as_bytes());
        self
    }
}

fn length_bytes(length: usize) -> [u8; 2] {
    u16::try_from(length)
        .expect("texts and lists are short")
        .to_le_bytes()
}

#[derive(Default)]
pub struct Recording {
    records: u64,
    bytes: Vec<u8>,
}

impl Recording {
    pub fn add(&mut self, record: Record) {
        self.records += 1;
        self.bytes
            .extend_from_slice(&length_bytes(record.bytes.len()));
        self.bytes.extend_from_slice(&record.bytes);
    }

    pub fn records(&self) -> u64 {
        self.records
    }

    pub fn bytes(&self) -> Vec<u8> {
        [&self.records.to_le_bytes()[..], &self.bytes].concat()
    }
}
