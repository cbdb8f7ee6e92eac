//! JSON, written by hand: strings, and objects field by field.
use router::Refusal;
use std::fmt::{Display, Write};

/// A string in quotes. Bytes that are no UTF-8 become U+FFFD.
pub fn string(text: &[u8]) -> String {
    let mut out = String::with_capacity(text.len() + 2);
    out.push('"');
    for character in String::from_utf8_lossy(text).chars() {
        match character {
            '"' => out += "\\\"",
            '\\' => out += "\\\\",
            '\n' => out += "\\n",
            '\r' => out += "\\r",
            '\t' => out += "\\t",
            c if c.is_control() => {
                let _ = write!(out, "\\u{:04x}", u32::from(c));
            }
            c => out.push(c),
        }
    }
    out.push('"');
    out
}

/// An array of values that are JSON already.
pub fn array(values: impl IntoIterator<Item = String>) -> String {
    let values: Vec<String> = values.into_iter().collect();
    format!("[{}]", values.join(","))
}

/// An object that gets one field after the other.
#[derive(Default)]
pub struct Object {
    fields: String,
}

impl Object {
    /// A field whose value is JSON already, as a number is.
    pub fn field(mut self, name: &str, value: impl Display) -> Object {
        if !self.fields.is_empty() {
            self.fields.push(',');
        }
        let _ = write!(self.fields, "\"{name}\":{value}");
        self
    }

    /// A field that is a string.
    pub fn text(self, name: &str, value: &str) -> Object {
        self.field(name, string(value.as_bytes()))
    }

    /// A field that is a text of any bytes. Where they are no UTF-8, a second field, `NAME_hex`, has each byte as two digits.
    pub fn bytes(self, name: &str, value: &[u8]) -> Object {
        let object = self.field(name, string(value));
        if std::str::from_utf8(value).is_ok() {
            return object;
        }
        let digits: String = value.iter().map(|byte| format!("{byte:02x}")).collect();
        object.text(&format!("{name}_hex"), &digits)
    }

    /// The refusal by number, name and sentence.
    pub fn refusal(self, refusal: &Refusal) -> Object {
        let object = Object::default()
            .field("number", refusal.number())
            .text("name", refusal.name())
            .text("sentence", &refusal.to_string());
        self.field("refusal", object.end())
    }

    pub fn end(self) -> String {
        format!("{{{}}}", self.fields)
    }
}

#[cfg(test)]
mod tests {
    use super::*;

    #[test]
    fn strings() {
        assert_eq!(string(b"a\"\\\n\x01\x7f"), r#""a\"\\\n\u0001\u007f""#);
        assert_eq!(string("ö\u{85}".as_bytes()), "\"ö\\u0085\"");
        assert_eq!(string(b"a\xff"), "\"a\u{fffd}\"");
    }

    #[test]
    fn objects() {
        let object = Object::default().field("n", 7).bytes("t", b"\xc0\x80");
        assert_eq!(
            object.end(),
            "{\"n\":7,\"t\":\"\u{fffd}\u{fffd}\",\"t_hex\":\"c080\"}"
        );
        assert_eq!(array(["1".to_string(), "2".to_string()]), "[1,2]");
        assert_eq!(Object::default().end(), "{}");
    }
}
