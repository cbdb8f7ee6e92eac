//! `yard tree`: the table of a list, drawn as a tree.
use crate::command_line::Options;
use crate::json::{array, Object};
use crate::list::Line;
use crate::list_file::ListFile;
use crate::natural;
use crate::shown::{counted, shown};
use crate::tables::Tables;
use crate::tree_words::{Words, ROOT};
use crate::trouble::{Status, Trouble};
use std::collections::BTreeMap;
use std::ffi::OsStr;
use std::io::{self, Write};

/// The tokens of a list by their hash. Different tokens of one hash share a node.
type Names<'f> = BTreeMap<u64, Vec<&'f [u8]>>;

fn names<'f>(lines: &[Line<'f>]) -> Names<'f> {
    let mut names = Names::new();
    for line in lines {
        for token in router::tokens(line.pattern) {
            let known = names.entry(router::token_hash(token)).or_default();
            if !known.contains(&token) {
                known.push(token);
            }
        }
    }
    names
}

/// What stands below a node.
#[derive(Clone, Copy)]
enum Child {
    /// `>`, with the node whose tail it is.
    Tail(usize),
    Literal(usize),
    Star(usize),
}

/// A table with the names of its tokens and the lines of its targets.
struct Tree<'t, 'f> {
    words: Words<'t>,
    names: Names<'f>,
    lines: &'t [Line<'f>],
    nodes: usize,
    verbose: bool,
    /// How many tokens deep it is drawn.
    depth: usize,
}

impl<'t, 'f> Tree<'t, 'f> {
    fn new(lines: &'t [Line<'f>], tables: &'t Tables, options: &Options) -> Tree<'t, 'f> {
        Tree {
            words: Words::new(tables.places.lent()),
            names: names(lines),
            lines,
            nodes: tables.places.nodes,
            verbose: options.verbose,
            depth: options.depth.unwrap_or(usize::MAX),
        }
    }

    /// The name of a literal node: its token, or those that share its hash.
    fn name(&self, node: usize) -> Vec<u8> {
        let names = self.names.get(&self.words.hash(node));
        names.map_or(b"?".to_vec(), |names| names.join(&b" = "[..]))
    }

    /// What stands below a node: `>`, the names in order, `*`.
    fn children(&self, node: usize) -> Vec<Child> {
        let mut literals: Vec<(Vec<u8>, usize)> = self
            .words
            .literals(node)
            .into_iter()
            .map(|child| (self.name(child), child))
            .collect();
        literals.sort_by(|a, b| natural::compare(&a.0, &b.0));
        let tail = (!self.words.tail(node).is_empty()).then_some(Child::Tail(node));
        let literals = literals.into_iter().map(|(_, child)| Child::Literal(child));
        let star = self.words.star(node).map(Child::Star);
        tail.into_iter().chain(literals).chain(star).collect()
    }

    /// How many nodes lie below a node.
    fn below(&self, node: usize) -> usize {
        let children = self.words.literals(node).into_iter();
        let children = children.chain(self.words.star(node));
        children.map(|child| 1 + self.below(child)).sum()
    }

    fn line(&self, place: u32) -> Option<&Line<'f>> {
        self.lines.get(place as usize)
    }

    /// The targets with their lines, `  -> 12 (line 40), 13 (line 41)`; nothing where there is none.
    fn targets(&self, places: &[u32]) -> String {
        let lines = places.iter().filter_map(|&place| self.line(place));
        let told: Vec<String> = lines
            .map(|line| format!("{} (line {})", line.target, line.number))
            .collect();
        if told.is_empty() {
            return String::new();
        }
        format!("  -> {}", told.join(", "))
    }

    /// A child in one line, without the branches in front of it.
    fn label(&self, child: Child) -> String {
        let number = |node: usize| {
            if self.verbose {
                format!("  [node {node}]")
            } else {
                String::new()
            }
        };
        match child {
            Child::Tail(node) => format!(">{}", self.targets(self.words.tail(node))),
            Child::Literal(node) => {
                let targets = self.targets(self.words.exact(node));
                format!("{}{}{targets}", shown(&self.name(node)), number(node))
            }
            Child::Star(node) => {
                let targets = self.targets(self.words.exact(node));
                format!("*{}{targets}", number(node))
            }
        }
    }

    /// How many nodes are left out below one that is so many tokens deep.
    fn left_out(&self, node: usize, level: usize) -> String {
        if level < self.depth {
            return String::new();
        }
        match self.below(node) {
            0 => String::new(),
            below => format!("  ... {} below", counted(below, "node")),
        }
    }

    /// Draws what stands below a node that is `level` tokens deep.
    fn draw(
        &self,
        node: usize,
        level: usize,
        branches: &str,
        out: &mut impl Write,
    ) -> io::Result<()> {
        if level == self.depth {
            return Ok(());
        }
        let children = self.children(node);
        for (place, &child) in children.iter().enumerate() {
            let last = place + 1 == children.len();
            let (branch, next) = if last {
                ("└── ", "    ")
            } else {
                ("├── ", "│   ")
            };
            let label = self.label(child);
            match child {
                Child::Tail(_) => writeln!(out, "{branches}{branch}{label}")?,
                Child::Literal(node) | Child::Star(node) => {
                    let left_out = self.left_out(node, level + 1);
                    writeln!(out, "{branches}{branch}{label}{left_out}")?;
                    self.draw(node, level + 1, &format!("{branches}{next}"), out)?;
                }
            }
        }
        Ok(())
    }

    /// The node at the end of some tokens.
    fn find(&self, tokens: &[u8]) -> Option<usize> {
        router::tokens(tokens).try_fold(ROOT, |node, token| {
            if token == b"*" {
                return self.words.star(node);
            }
            self.words.literal(node, router::token_hash(token))
        })
    }

    fn targets_json(&self, places: &[u32]) -> String {
        let lines = places.iter().filter_map(|&place| self.line(place));
        array(lines.map(|line| {
            let object = Object::default().field("line", line.number);
            object.field("target", line.target).end()
        }))
    }

    /// A node as JSON, with what stands below it.
    fn json(&self, token: &[u8], node: usize, level: usize) -> String {
        let mut object = Object::default()
            .bytes("token", token)
            .field("node", node)
            .field("exact", self.targets_json(self.words.exact(node)))
            .field("tail", self.targets_json(self.words.tail(node)));
        if level < self.depth {
            let children = self.children(node).into_iter();
            let children = children.filter_map(|child| match child {
                Child::Tail(_) => None,
                Child::Literal(node) => Some(self.json(&self.name(node), node, level + 1)),
                Child::Star(node) => Some(self.json(b"*", node, level + 1)),
            });
            object = object.field("children", array(children));
        }
        object.end()
    }
}

/// The node below which the tree is drawn, and its name.
fn start<'o>(
    tree: &Tree<'_, '_>,
    list: &str,
    options: &'o Options,
) -> Result<(usize, &'o [u8]), Trouble> {
    let Some(tokens) = &options.under else {
        return Ok((ROOT, b""));
    };
    match tree.find(tokens) {
        Some(node) => Ok((node, tokens)),
        None => Err(Trouble::File {
            name: list.into(),
            reason: format!("no line goes on behind {}", shown(tokens)),
        }),
    }
}

fn write_json(
    out: &mut impl Write,
    file: &ListFile,
    tree: &Tree<'_, '_>,
    (node, name): (usize, &[u8]),
) -> io::Result<()> {
    let object = Object::default()
        .bytes("list", file.name.as_bytes())
        .field("nodes", tree.nodes)
        .field("root", tree.json(name, node, 0));
    writeln!(out, "{}", object.end())
}

fn write_text(
    out: &mut impl Write,
    file: &ListFile,
    tree: &Tree<'_, '_>,
    (node, name): (usize, &[u8]),
) -> io::Result<()> {
    let (nodes, lines) = (
        counted(tree.nodes, "node"),
        counted(tree.lines.len(), "line"),
    );
    writeln!(out, "{}: {nodes} for {lines}", file.name)?;
    let root = if name.is_empty() {
        "(root)".into()
    } else {
        shown(name)
    };
    let exact = tree.targets(tree.words.exact(node));
    writeln!(out, "{root}{exact}{}", tree.left_out(node, 0))?;
    tree.draw(node, 0, "", out)
}

pub fn run(list: &OsStr, options: &Options, out: &mut impl Write) -> Result<Status, Trouble> {
    let file = ListFile::read(list)?;
    let loaded = file.load();
    let Some(tables) = &loaded.tables else {
        loaded.tell_refusal(&file.name, options.json, out)?;
        return Ok(Status::Refused);
    };
    let tree = Tree::new(&loaded.lines, tables, options);
    let start = start(&tree, &file.name, options)?;
    if options.json {
        write_json(out, &file, &tree, start)?;
    } else {
        write_text(out, &file, &tree, start)?;
    }
    Ok(Status::Good)
}
