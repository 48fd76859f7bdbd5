// SPDX-License-Identifier: MIT OR Apache-2.0
//! What changes one listing of symbols to another.
use std::collections::BTreeMap;

/// The lines of each module, by what ends them. None if a line is no module's, or if those of one do
/// not lie side by side.
fn runs(lines: &[u8]) -> Option<BTreeMap<&[u8], &[u8]>> {
    let mut runs = BTreeMap::new();
    let (mut begin, mut at, mut last) = (0, 0, &lines[..0]);
    for line in lines.split_inclusive(|byte| *byte == b'\n') {
        let end = &line[line.iter().rposition(|byte| *byte == b'\t')?..];
        if !end.starts_with(b"\t[") || !end.ends_with(b"]\n") || end.len() < 5 {
            return None;
        }
        if end != last {
            begin = at;
            last = end;
            if runs.contains_key(end) {
                return None;
            }
        }
        at += line.len();
        runs.insert(end, &lines[begin..at]);
    }
    (at > 0).then_some(runs)
}

/// How many bytes of a listing are before its first line with a tab: those of the kernel itself.
fn kernel_of(text: &[u8]) -> usize {
    let tab = text.iter().position(|byte| *byte == b'\t').unwrap_or(text.len());
    text[..tab].iter().rposition(|byte| *byte == b'\n').map_or(0, |end| end + 1)
}

/// The change that makes the new listing of the old one, if modules alone differ.
pub(crate) fn change_of(old: &[u8], new: &[u8]) -> Option<Vec<u8>> {
    let kernel = kernel_of(new);
    if kernel != kernel_of(old) || old[..kernel] != new[..kernel] {
        return None;
    }
    let (was, runs) = (runs(&old[kernel..])?, runs(&new[kernel..])?);
    let mut change = Vec::new();
    for end in was.keys().filter(|end| !runs.contains_key(*end)) {
        change.extend_from_slice(b"gone ");
        change.extend_from_slice(&end[2..end.len() - 2]);
        change.push(b'\n');
    }
    for (_, lines) in runs.iter().filter(|(end, lines)| was.get(*end) != Some(*lines)) {
        change.extend_from_slice(lines);
    }
    Some(change)
}

#[cfg(test)]
mod tests {
    use super::*;

    const KERNEL: &str = "ffffffff81000000 T _stext\nffffffff81002000 T _end\n";

    /// The change between two listings with these lines of modules.
    fn change(old: &str, new: &str) -> Option<String> {
        let listing =
            |lines: &str| format!("{KERNEL}{}", lines.replace(' ', "\t[").replace(';', "]\n"));
        let change = change_of(listing(old).as_bytes(), listing(new).as_bytes());
        change.map(|it| String::from_utf8(it).unwrap().replace("\t[", " ").replace("]\n", ";"))
    }

    #[test]
    fn modules_that_differ_are_its_lines() {
        assert_eq!(change("a1 a;a2 a;b1 b;", "b1 b;a1 a;a2 a;").as_deref(), Some(""));
        assert_eq!(
            change("a1 a;b1 b;", "a1 a;b2 b;c1 c;c2 c;").as_deref(),
            Some("b2 b;c1 c;c2 c;")
        );
        assert_eq!(change("a1 a;b1 b;c1 c;", "b1 b;").as_deref(), Some("gone a\ngone c\n"));
    }

    #[test]
    fn other_listings_have_none() {
        assert_eq!(change("a1 a;", ""), None);
        assert_eq!(change("", "a1 a;"), None);
        assert_eq!(change("a1 a;", "a1 a;b1 b;a2 a;"), None);
        assert_eq!(change("a1 a;", "a1 a;no line\n"), None);
        assert_eq!(change("a1 a;", "a1 a;b1 b]"), None);
        assert_eq!(change("a1 a;", "a1 ;"), None);
        assert_eq!(change_of(b"1 T k\n1 t a\t[a]\n", b"1 T l\n1 t a\t[a]\n"), None);
        assert_eq!(change_of(b"1 T k\n2 T l\n1 t a\t[a]\n", b"1 T k\n1 t a\t[a]\n"), None);
    }
}
