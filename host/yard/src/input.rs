//! Files, and subjects from standard input.
use crate::progress::ask_for;
use crate::trouble::Trouble;
use router::MAX_TEXT;
use std::ffi::OsStr;
use std::fs::File;
use std::io::{self, BufRead, BufReader, Read, StdinLock, Write};

/// The most bytes that a file may have.
const MOST: u64 = 64 << 20;

/// Bytes of subjects that are read at once.
const BUFFER: usize = 1 << 16;

/// The name of a file for messages.
pub fn name_of(file: &OsStr) -> String {
    if file == "-" {
        return "standard input".into();
    }
    file.to_string_lossy().into_owned()
}

fn bytes_of(file: &OsStr) -> io::Result<Vec<u8>> {
    let mut bytes = Vec::new();
    if file == "-" {
        io::stdin().lock().take(MOST + 1).read_to_end(&mut bytes)?;
    } else {
        File::open(file)?.take(MOST + 1).read_to_end(&mut bytes)?;
    }
    Ok(bytes)
}

/// The bytes of a file, or of standard input where its name is `-`.
pub fn file(name: &OsStr) -> Result<Vec<u8>, Trouble> {
    let trouble = |reason: String| Trouble::File {
        name: name_of(name),
        reason,
    };
    let bytes = bytes_of(name).map_err(|e| trouble(format!("cannot be read: {e}")))?;
    if bytes.len() as u64 > MOST {
        return Err(trouble(format!("has more than {} MiB", MOST >> 20)));
    }
    Ok(bytes)
}

/// A line of standard input. Of one that is longer than any text, so much is kept as shows that it is too long.
#[derive(Debug, Default, PartialEq, Eq)]
pub struct InputLine {
    pub text: Vec<u8>,
    /// Whether the line went on.
    pub cut: bool,
}

impl InputLine {
    /// A text that was not cut.
    pub fn whole(text: &[u8]) -> InputLine {
        InputLine {
            text: text.to_vec(),
            cut: false,
        }
    }

    /// Whether the line is passed over: it is empty or a comment.
    fn is_passed_over(&self) -> bool {
        matches!(self.text.first(), None | Some(b'#'))
    }

    fn keep(&mut self, bytes: &[u8]) {
        // Two more than a text has: one that shows it is too long, and a carriage return.
        let room = (MAX_TEXT + 2).saturating_sub(self.text.len());
        self.cut |= bytes.len() > room;
        self.text.extend_from_slice(&bytes[..room.min(bytes.len())]);
    }
}

/// The next line without its end, or none at the end of the input.
fn next_line(reader: &mut impl BufRead) -> io::Result<Option<InputLine>> {
    let mut line = InputLine::default();
    let mut begun = false;
    loop {
        let bytes = reader.fill_buf()?;
        let end = bytes.iter().position(|&byte| byte == b'\n');
        let taken = end.unwrap_or(bytes.len());
        line.keep(&bytes[..taken]);
        begun |= !bytes.is_empty();
        let at_end = bytes.is_empty();
        reader.consume(taken + usize::from(end.is_some()));
        if end.is_some() || at_end {
            break;
        }
    }
    if !line.cut && line.text.last() == Some(&b'\r') {
        line.text.pop();
    }
    Ok(begun.then_some(line))
}

/// Subjects from standard input, one a line.
pub struct Subjects {
    reader: BufReader<StdinLock<'static>>,
}

impl Subjects {
    pub fn from_input() -> Subjects {
        ask_for("subjects");
        Subjects {
            reader: BufReader::with_capacity(BUFFER, io::stdin().lock()),
        }
    }

    /// The next subject, or none at the end. Whoever waits for the answers in `out` gets them before more is read.
    pub fn next(&mut self, out: &mut impl Write) -> Result<Option<InputLine>, Trouble> {
        loop {
            if !self.reader.buffer().contains(&b'\n') {
                out.flush()?;
            }
            let line = next_line(&mut self.reader).map_err(|e| Trouble::File {
                name: "standard input".into(),
                reason: format!("cannot be read: {e}"),
            })?;
            match line {
                Some(line) if line.is_passed_over() => {}
                subject => return Ok(subject),
            }
        }
    }
}

#[cfg(test)]
mod tests {
    use super::*;

    fn all(mut bytes: &[u8]) -> Vec<InputLine> {
        std::iter::from_fn(|| next_line(&mut bytes).ok().flatten()).collect()
    }

    #[test]
    fn lines_of_input() {
        let texts: Vec<Vec<u8>> = all(b"a\nb\r\n\nc").into_iter().map(|l| l.text).collect();
        assert_eq!(texts, [&b"a"[..], b"b", b"", b"c"]);
        assert_eq!(all(b"").len(), 0);
    }

    #[test]
    fn long_lines() {
        let long = [vec![b'a'; 10_000], b"\nb".to_vec()].concat();
        let lines = all(&long);
        assert_eq!((lines[0].text.len(), lines[0].cut), (MAX_TEXT + 2, true));
        assert_eq!((lines[1].text.as_slice(), lines[1].cut), (&b"b"[..], false));
    }
}
