//! What `--json` writes is JSON, and says what the text says.
mod common;

use common::{list_of, yard, yard_with_input, YARD_LIST};
use std::collections::BTreeMap;
use std::iter::Peekable;
use std::str::Chars;

/// A JSON value. Numbers are whole.
#[derive(Clone, Debug, PartialEq)]
enum Value {
    Flag(bool),
    Number(u64),
    Text(String),
    Array(Vec<Value>),
    Object(BTreeMap<String, Value>),
}

impl Value {
    fn at(&self, name: &str) -> &Value {
        match self {
            Value::Object(fields) => fields.get(name).unwrap_or_else(|| panic!("no {name}")),
            _ => panic!("{self:?} is no object"),
        }
    }

    fn text(&self) -> &str {
        match self {
            Value::Text(text) => text,
            _ => panic!("{self:?} is no text"),
        }
    }

    fn number(&self) -> u64 {
        match self {
            Value::Number(number) => *number,
            _ => panic!("{self:?} is no number"),
        }
    }

    fn array(&self) -> &[Value] {
        match self {
            Value::Array(values) => values,
            _ => panic!("{self:?} is no array"),
        }
    }

    /// One field of each object in an array.
    fn numbers(&self, name: &str) -> Vec<u64> {
        self.array()
            .iter()
            .map(|value| value.at(name).number())
            .collect()
    }
}

/// A reader of JSON that takes nothing but JSON, without blanks.
struct Reader<'a> {
    left: Peekable<Chars<'a>>,
}

impl Reader<'_> {
    fn expect(&mut self, text: &str) {
        for character in text.chars() {
            assert_eq!(self.left.next(), Some(character));
        }
    }

    fn string(&mut self) -> String {
        self.expect("\"");
        let mut out = String::new();
        loop {
            match self.left.next().expect("a string ends") {
                '"' => return out,
                '\\' => out.push(self.escaped()),
                c => {
                    assert!(u32::from(c) >= 0x20, "a control character in a string");
                    out.push(c);
                }
            }
        }
    }

    fn escaped(&mut self) -> char {
        match self.left.next().expect("an escape ends") {
            'n' => '\n',
            'r' => '\r',
            't' => '\t',
            'u' => {
                let digits: String = self.left.by_ref().take(4).collect();
                let number = u32::from_str_radix(&digits, 16).expect("four digits");
                char::from_u32(number).expect("a character")
            }
            c @ ('"' | '\\' | '/') => c,
            c => panic!("\\{c} is no escape"),
        }
    }

    /// What stands between brackets, with commas between.
    fn several(&mut self, end: char, mut one: impl FnMut(&mut Self)) {
        self.left.next();
        if self.left.next_if_eq(&end).is_some() {
            return;
        }
        loop {
            one(self);
            match self.left.next() {
                Some(',') => {}
                Some(c) if c == end => return,
                other => panic!("{other:?} in place of a comma or {end}"),
            }
        }
    }

    fn value(&mut self) -> Value {
        match self.left.peek().copied().expect("a value") {
            '"' => Value::Text(self.string()),
            't' => {
                self.expect("true");
                Value::Flag(true)
            }
            'f' => {
                self.expect("false");
                Value::Flag(false)
            }
            '[' => {
                let mut values = Vec::new();
                self.several(']', |reader| values.push(reader.value()));
                Value::Array(values)
            }
            '{' => {
                let mut fields = BTreeMap::new();
                self.several('}', |reader| {
                    let name = reader.string();
                    reader.expect(":");
                    let old = fields.insert(name, reader.value());
                    assert_eq!(old, None, "a name stands twice");
                });
                Value::Object(fields)
            }
            _ => {
                let mut digits = String::new();
                while let Some(digit) = self.left.next_if(char::is_ascii_digit) {
                    digits.push(digit);
                }
                Value::Number(digits.parse().expect("a number"))
            }
        }
    }
}

/// The value of each line.
fn read(out: &str) -> Vec<Value> {
    assert!(out.ends_with('\n'));
    let line = |line: &str| {
        let mut reader = Reader {
            left: line.chars().peekable(),
        };
        let value = reader.value();
        assert_eq!(reader.left.next(), None, "something follows the value");
        value
    };
    out.lines().map(line).collect()
}

const ROW: &str = "a.b 1\n> 2\n*.b 3\na.> 4\na.b 5\n";

#[test]
fn check() {
    let list = list_of(ROW);
    let said = yard(&["check", "--json", list.name()]);
    let told = &read(&said.out)[0];
    assert_eq!(told.at("accepted"), &Value::Flag(true));
    assert_eq!(told.at("entries").at("used").number(), 5);
    assert_eq!(told.at("nodes").at("used").number(), 5);
    assert_eq!(told.at("worst_case").at("used").number(), 2);
    assert_eq!(told.at("worst_case").at("limit").number(), 1024);
    assert_eq!(told.at("crossing").at("pairs").number(), 10);
    assert_eq!(told.at("crossing").at("different_targets").number(), 10);
    let repeated = &told.at("repeated").array()[0];
    assert_eq!(
        repeated.at("lines"),
        &Value::Array(vec![Value::Number(1), Value::Number(5)])
    );
}

#[test]
fn a_refused_list() {
    let list = list_of("a..b 1\nc\n");
    for command in ["check", "move", "tree", "crossing"] {
        let said = yard(&[command, "--json", list.name()]);
        assert_eq!((said.status, said.err.as_str()), (2, ""));
        let told = &read(&said.out)[0];
        assert_eq!(told.at("accepted"), &Value::Flag(false));
        assert_eq!(told.at("faults").numbers("line"), [1, 2]);
        let refusal = told.at("faults").array()[0].at("refusal");
        assert_eq!(refusal.at("number").number(), 6);
        assert_eq!(refusal.at("name").text(), "EmptyToken");
    }
}

#[test]
fn route() {
    let list = list_of(ROW);
    let said = yard(&[
        "route",
        "--json",
        list.name(),
        "a.b",
        "c",
        "c.",
        "\"\\\u{85}",
    ]);
    assert_eq!(said.status, 1);
    let told = read(&said.out);
    assert_eq!(told[0].at("verdict").text(), "Ambiguous");
    assert_eq!(told[0].at("lines").numbers("line"), [2, 4, 1, 5, 3]);
    assert_eq!(told[0].at("lines").numbers("target"), [2, 4, 1, 5, 3]);
    assert_eq!(told[0].at("peak").number(), 2);
    assert_eq!(told[1].at("verdict").text(), "Routed");
    assert_eq!(told[1].at("target").number(), 2);
    assert_eq!(told[2].at("verdict").text(), "Refused");
    assert_eq!(told[2].at("refusal").at("name").text(), "EmptyToken");
    assert_eq!(told[3].at("subject").text(), "\"\\\u{85}");
}

/// What `--json` says of a move by the row.
fn moved(subjects: &[&str], status: i32) -> Value {
    let list = list_of(ROW);
    let input = subjects.join("\n");
    let said = yard_with_input(&["move", "--json", list.name()], input.as_bytes());
    assert_eq!((said.status, said.err.as_str()), (status, ""));
    let mut told = read(&said.out);
    assert_eq!(told.len(), 1);
    told.remove(0)
}

#[test]
fn a_move_that_is_routed() {
    let told = moved(&["c", "a", "c.d"], 0);
    let routed = told.at("routed");
    assert_eq!(routed.numbers("target"), [2, 2, 2]);
    let [c, a, _] = routed.array() else {
        panic!("three orders");
    };
    assert_eq!((c.at("subject").text(), a.at("subject").text()), ("c", "a"));
    assert_eq!(a.at("verdict").text(), "Routed");
    assert_eq!(a.at("lines").numbers("line"), [2]);
    assert_eq!(moved(&[], 0).at("routed"), &Value::Array(vec![]));
}

#[test]
fn a_move_that_is_held_up() {
    let told = moved(&["c", "d", "a.b", "c.b"], 1);
    let stopped = told.at("stopped");
    assert_eq!(stopped.at("place").number(), 3);
    assert_eq!(stopped.at("subject").text(), "a.b");
    assert_eq!(stopped.at("verdict").text(), "Ambiguous");
    assert_eq!(stopped.at("matched").number(), 5);
    assert_eq!(stopped.at("lines").numbers("line"), [2, 4, 1, 5, 3]);
}

#[test]
fn a_move_that_is_refused() {
    let told = moved(&["a.b", "c", "c."], 1);
    let refused = told.at("refused");
    assert_eq!(refused.at("place").number(), 3);
    assert_eq!(refused.at("subject").text(), "c.");
    assert_eq!(refused.at("refusal").at("number").number(), 6);
    assert_eq!(refused.at("refusal").at("name").text(), "EmptyToken");
    let sentence = refused.at("refusal").at("sentence").text();
    assert!(sentence.starts_with("subject 3 (counted from 1): token 2 "));
    let told = moved(&["a", &"a".repeat(5000)], 1);
    assert_eq!(told.at("refused").at("cut"), &Value::Flag(true));
    let told = moved(&["c"; 65], 1);
    let refusal = told.at("refused").at("refusal");
    assert_eq!(refusal.at("number").number(), 22);
    assert_eq!(refusal.at("name").text(), "SetTooLarge");
}

#[test]
fn any_bytes() {
    let list = list_of(ROW);
    let mut input: Vec<u8> = (0..=255).filter(|&byte| byte != b'\n').collect();
    input.extend_from_slice(b"\nx\xc0\x80\n");
    let said = yard_with_input(&["route", "--json", list.name()], &input);
    let told = read(&said.out);
    assert_eq!(told.len(), 2);
    let digits = told[0].at("subject_hex").text();
    assert_eq!((digits.len(), &digits[..6]), (2 * 255, "000102"));
    assert_eq!(told[1].at("subject_hex").text(), "78c080");
    assert_eq!(told[1].at("refusal").at("name").text(), "NotUtf8");
}

#[test]
fn a_cut_line() {
    let list = list_of(ROW);
    let said = yard_with_input(&["route", "--json", list.name()], &[b'a'; 5000]);
    let told = &read(&said.out)[0];
    assert_eq!(told.at("cut"), &Value::Flag(true));
    assert_eq!(told.at("refusal").at("name").text(), "TooLong");
}

#[test]
fn tree() {
    let list = list_of(ROW);
    let told = &read(&yard(&["tree", "--json", list.name()]).out)[0];
    assert_eq!(told.at("nodes").number(), 5);
    let root = told.at("root");
    assert_eq!(root.at("tail").numbers("line"), [2]);
    let [a, star] = root.at("children").array() else {
        panic!("two children");
    };
    assert_eq!((a.at("token").text(), star.at("token").text()), ("a", "*"));
    assert_eq!(a.at("tail").numbers("target"), [4]);
    assert_eq!(
        a.at("children").array()[0].at("exact").numbers("line"),
        [1, 5]
    );
}

#[test]
fn two_patterns() {
    let crossing = |words: [&str; 2]| {
        let said = yard(&["crossing", "--json", "--patterns", words[0], words[1]]);
        assert_eq!(said.err, "");
        (said.status, read(&said.out).remove(0))
    };
    let (status, told) = crossing(["a.*", "*.b"]);
    assert_eq!((status, told.at("crossing")), (1, &Value::Flag(true)));
    assert_eq!(told.at("first").text(), "a.*");
    assert_eq!(told.at("second").text(), "*.b");
    assert_eq!(told.at("order").text(), "a.b");
    let (status, told) = crossing(["a.>", "a"]);
    assert_eq!((status, told.at("crossing")), (0, &Value::Flag(false)));
    for (words, which, name) in [
        (["a..b", "a*"], "first", "EmptyToken"),
        (["a", "a*"], "second", "IllegalChar"),
    ] {
        let (status, told) = crossing(words);
        assert_eq!((status, told.at("refused").text()), (2, which));
        assert_eq!(told.at("refusal").at("name").text(), name);
    }
}

#[test]
fn a_new_line() {
    let list = list_of(ROW);
    let said = yard(&["crossing", "--json", list.name(), "c.*"]);
    assert_eq!((said.status, said.err.as_str()), (1, ""));
    let told = read(&said.out);
    let [all, b, end] = told.as_slice() else {
        panic!("two lines and the end");
    };
    assert_eq!((all.at("line").number(), b.at("line").number()), (2, 3));
    assert_eq!(b.at("pattern").text(), "*.b");
    assert_eq!(b.at("target").number(), 3);
    assert_eq!(all.at("order").text(), "c.x");
    assert_eq!(b.at("order").text(), "c.b");
    assert_eq!(end.at("pattern").text(), "c.*");
    assert_eq!(end.at("entries").number(), 5);
    assert_eq!(end.at("met").number(), 2);
    let said = yard(&["crossing", "--json", list.name(), "c*"]);
    assert_eq!((said.status, said.err.as_str()), (2, ""));
    let refusal = read(&said.out).remove(0);
    assert_eq!(refusal.at("refusal").at("name").text(), "IllegalChar");
}

#[test]
fn pairs_of_lines() {
    let list = list_of("a.* 7\nb 8\n*.a 7\na.b 9\n");
    let said = yard(&["crossing", "--json", list.name()]);
    assert_eq!((said.status, said.err.as_str()), (1, ""));
    let told = read(&said.out);
    let [same, different, end] = told.as_slice() else {
        panic!("two pairs and the end");
    };
    assert_eq!(same.at("lines").numbers("line"), [1, 3]);
    assert_eq!(same.at("lines").numbers("target"), [7, 7]);
    assert_eq!(same.at("lines").array()[1].at("pattern").text(), "*.a");
    assert_eq!(same.at("same_target"), &Value::Flag(true));
    assert_eq!(same.at("order").text(), "a.a");
    assert_eq!(different.at("lines").numbers("line"), [1, 4]);
    assert_eq!(different.at("same_target"), &Value::Flag(false));
    assert_eq!(end.at("list").text(), list.name());
    assert_eq!(end.at("entries").number(), 4);
    assert_eq!(end.at("pairs").number(), 2);
    assert_eq!(end.at("different_targets").number(), 1);
}

#[test]
fn every_order_shown_is_ambiguous() {
    let mut pairs = read(&yard(&["crossing", "--json", YARD_LIST]).out);
    let end = pairs.pop().expect("the counts");
    assert_eq!(end.at("pairs").number(), pairs.len() as u64);
    let orders: Vec<&str> = pairs.iter().map(|pair| pair.at("order").text()).collect();
    let routed = yard_with_input(
        &["route", "--json", YARD_LIST],
        orders.join("\n").as_bytes(),
    );
    let routed = read(&routed.out);
    assert_eq!((routed.len(), pairs.len()), (32, 32));
    for (pair, order) in pairs.iter().zip(routed) {
        assert_eq!(order.at("verdict").text(), "Ambiguous");
        let matched = order.at("lines").numbers("line");
        for line in pair.at("lines").numbers("line") {
            assert!(matched.contains(&line), "{pair:?}");
        }
    }
}

#[test]
fn loads() {
    let told = read(&yard(&["load", "--json", "1", "3"]).out);
    let patterns: Vec<&str> = told.iter().map(|line| line.at("pattern").text()).collect();
    assert_eq!(patterns, ["d.f.d.b", "*.b", "g.c.b.g"]);
    let told = Value::Array(told);
    assert_eq!(told.numbers("target"), [1, 2, 3]);
    assert_eq!(told.numbers("line"), [2, 3, 4]);
    let told = read(&yard(&["load", "--json", "1", "12", "--subjects", "2"]).out);
    let subjects: Vec<&str> = told.iter().map(|told| told.at("subject").text()).collect();
    assert_eq!(subjects, ["c.d.c.f", "e.d.f.f"]);
    for words in [
        &["load", "--json", "7", "0"][..],
        &["load", "--json", "7", "9", "--subjects", "0"],
    ] {
        let said = yard(words);
        assert_eq!((said.status, said.out.as_str()), (0, ""));
    }
}

/// A line of a load has the number by which the other commands know it.
#[test]
fn lines_of_a_load() {
    let list = list_of(&yard(&["load", "1", "2048"]).out);
    let told = read(&yard(&["load", "--json", "1", "2048"]).out);
    let routed = yard_with_input(&["route", "--json", list.name()], b"a.b.c\nd\n");
    for order in read(&routed.out) {
        let matched = order.at("lines").array();
        assert!(matched.len() > 1 && matched.iter().all(|line| told.contains(line)));
    }
}

#[test]
fn a_refused_start() {
    let said = yard(&["load", "--json", "0", "3"]);
    assert_eq!((said.status, said.err.as_str()), (2, ""));
    let told = read(&said.out);
    assert_eq!((told.len(), told[0].at("start").text()), (1, "0"));
    let refusal = told[0].at("refusal");
    assert_eq!(refusal.at("number").number(), 28);
    assert_eq!(refusal.at("name").text(), "ZeroStart");
    assert!(refusal.at("sentence").text().starts_with("the start is 0"));
}

#[test]
fn texts() {
    let told = read(&yard(&["parse", "--json", "a.*"]).out);
    assert_eq!(told[0].at("pattern").at("tokens").number(), 2);
    assert_eq!(told[0].at("subject").at("refusal").at("number").number(), 7);
    let told = read(&yard(&["matches", "--json", "a.*", "a.b"]).out);
    assert_eq!(told[0].at("matches"), &Value::Flag(true));
}
