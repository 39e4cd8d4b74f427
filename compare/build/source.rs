//! One file of the original, and the cut of an item out of it.

use std::fs;
use std::ops::Range;
use std::path::Path;

use crate::code::code_mask;
use crate::items::KNOWN_DERIVES;

/// One file of the original.
pub struct Source {
    name: String,
    text: String,
    /// For each byte, whether it is code: outside comments, strings and characters.
    code: Vec<bool>,
}

impl Source {
    pub fn read(path: &Path) -> Self {
        println!("cargo::rerun-if-changed={}", path.display());
        let text = fs::read_to_string(path)
            .unwrap_or_else(|e| panic!("the original's {} can't be read: {e}", path.display()));
        let code = code_mask(&text);
        Self {
            name: path.display().to_string(),
            text,
            code,
        }
    }

    /// The items of these headers, made public, one after the other.
    pub fn items(&self, headers: &[&str]) -> String {
        let mut out = String::new();
        for header in headers {
            let range = self.find(header, 0..self.text.len(), "");
            out.push_str(&self.derive_above(range.start));
            out.push_str(&publish(&self.text[range], header));
            out.push('\n');
        }
        out
    }

    /// An enum with only some of its cases.
    pub fn cases(&self, header: &str, cases: &[&str]) -> String {
        let range = self.find(header, 0..self.text.len(), "");
        let mut out = self.derive_above(range.start);
        out.push_str(&format!("pub {header} {{\n"));
        for case in cases {
            let inner = self.find(case, range.clone(), "    ");
            out.push_str(&strip(&self.text[inner]));
        }
        out.push_str("}\n\n");
        out
    }

    /// An impl with only some of its constants.
    pub fn constants(&self, header: &str, constants: &[&str]) -> String {
        let range = self.find(header, 0..self.text.len(), "");
        let mut out = format!("{header} {{\n");
        for constant in constants {
            let inner = self.find(constant, range.clone(), "    ");
            out.push_str(&publish_line_starts(&strip(&self.text[inner])));
        }
        out.push_str("}\n\n");
        out
    }

    /// The whole lines of the one item, within `within` and at this indentation, that begins with
    /// `header` after its visibility.
    fn find(&self, header: &str, within: Range<usize>, indent: &str) -> Range<usize> {
        let mut found = Vec::new();
        let mut start = within.start;
        while start < within.end {
            let end = self.line_end(start);
            let line = &self.text[start..end];
            if let Some(rest) = line.strip_prefix(indent) {
                let rest = without_visibility(rest);
                let follows = rest.strip_prefix(header).and_then(|r| r.chars().next());
                let whole = follows.is_some_and(|c| !(c.is_alphanumeric() || c == '_'));
                if whole && self.code[start + indent.len()] {
                    found.push(start);
                }
            }
            start = end;
        }
        match found[..] {
            [start] => start..self.item_end(start, header),
            _ => panic!(
                "{}: {} items begin with `{header}`, not 1",
                self.name,
                found.len()
            ),
        }
    }

    /// Where the line that holds `at` ends, past its line feed.
    fn line_end(&self, at: usize) -> usize {
        self.text[at..]
            .find('\n')
            .map_or(self.text.len(), |n| at + n + 1)
    }

    /// The end of the item from `start`: a constant runs to its semicolon, a case to its comma, all
    /// else to the brace that closes its first one. The rest of that line goes with it.
    fn item_end(&self, start: usize, header: &str) -> usize {
        let bytes = self.text.as_bytes();
        let ends_in_brace = ["fn ", "enum ", "impl ", "struct ", "mod "]
            .iter()
            .any(|kind| header.starts_with(kind));
        let mut depth = 0i32;
        for at in start..bytes.len() {
            if !self.code[at] {
                continue;
            }
            match bytes[at] {
                b'(' | b'[' | b'{' => depth += 1,
                b')' | b']' => depth -= 1,
                b'}' => {
                    depth -= 1;
                    if depth == 0 && ends_in_brace {
                        return self.line_end(at);
                    }
                }
                b';' | b',' if depth == 0 && !ends_in_brace => return self.line_end(at),
                _ => {}
            }
        }
        panic!("{}: `{header}` has no end", self.name);
    }

    /// The derive above an item, if there is one, less the names that need a crate.
    fn derive_above(&self, start: usize) -> String {
        let above = self.text[..start].lines().rev();
        for line in above.take_while(|l| l.starts_with("#[") || l.starts_with("///")) {
            if let Some(names) = line
                .strip_prefix("#[derive(")
                .and_then(|l| l.strip_suffix(")]"))
            {
                let kept: Vec<&str> = names
                    .split(", ")
                    .filter(|name| KNOWN_DERIVES.contains(name))
                    .collect();
                return format!("#[derive({})]\n", kept.join(", "));
            }
        }
        String::new()
    }
}

/// A line without its leading `pub`, `pub(crate)` or `pub(super)`.
fn without_visibility(line: &str) -> &str {
    ["pub(crate) ", "pub(super) ", "pub "]
        .iter()
        .find_map(|visibility| line.strip_prefix(visibility))
        .unwrap_or(line)
}

/// An item's text without attributes and doc comments, which in this source have lines of their
/// own.
fn strip(text: &str) -> String {
    let mut out = String::new();
    for line in text.lines() {
        let bare = line.trim_start();
        if bare.starts_with("///") {
            continue;
        }
        if bare.starts_with("#[") {
            assert!(
                bare.ends_with(']'),
                "an attribute over several lines: {line}"
            );
            continue;
        }
        out.push_str(line);
        out.push('\n');
    }
    out
}

/// A whole item made public, with what it holds.
fn publish(text: &str, header: &str) -> String {
    let text = strip(text);
    let (first, rest) = text.split_once('\n').expect("an item is a line at least");
    let first = without_visibility(first);
    let mut out = String::new();
    if header.starts_with("impl ") {
        out.push_str(&format!("{first}\n{}", publish_line_starts(rest)));
    } else if header.starts_with("mod ") {
        out.push_str(&format!("pub {first}\n{}", publish_line_starts(rest)));
    } else if header.starts_with("struct ") {
        out.push_str(&format!("pub {first}\n"));
        for line in rest.lines() {
            match line.strip_prefix("    ") {
                Some(field) if !field.starts_with("pub ") => {
                    out.push_str(&format!("    pub {field}\n"));
                }
                _ => out.push_str(&format!("{line}\n")),
            }
        }
    } else {
        out.push_str(&format!("pub {first}\n{rest}"));
    }
    out
}

/// Functions and constants one level in made public.
fn publish_line_starts(text: &str) -> String {
    let mut out = String::new();
    for line in text.lines() {
        let inner = line.strip_prefix("    ").map(without_visibility);
        match inner {
            Some(inner) if inner.starts_with("fn ") || inner.starts_with("const ") => {
                out.push_str(&format!("    pub {inner}\n"));
            }
            _ => out.push_str(&format!("{line}\n")),
        }
    }
    out
}
