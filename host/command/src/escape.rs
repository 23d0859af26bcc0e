//! The name of a card's file as a path in a folder, so that every name has one, no two have the same,
//! and none leads out of the folder. Percent-decoding, as for the path of a URL, gives the name back:
//! - a byte that a folder can't hold or a terminal does not show is `%` and two hexadecimal digits:
//!   the slash, control characters and what is no text; so are the names `.` and `..`; and, for a disk
//!   that does not take them, the signs `"*:<>?\|` and a dot or space at the end;
//! - `%` itself is `%25` where two hexadecimal digits or a `+` follow it, else it stays;
//! - a name that has more than 255 bytes then is cut; each part but the last has `%+` behind it and is
//!   a folder, in which the next part is. The parts are joined, without `%+`, before they are decoded.

use std::fmt::Write;
use std::path::PathBuf;

use crate::text::is_shown;

/// The longest name in a folder, in bytes.
const LONGEST: usize = 255;
/// Behind each part but the last.
const CONTINUED: &str = "%+";

/// What some disks, as those of memory sticks, do not take in a name.
pub const SIGNS: &str = "\"*:<>?\\|";

/// The path in a folder, or in one that does not take the `SIGNS`.
pub fn path(name: &[u8], is_strict: bool) -> PathBuf {
    let escaped = escaped(name, is_strict);
    let mut rest = &escaped[..];
    let mut path = PathBuf::new();
    // There is room for the escape of the last letter.
    let longest = if is_strict { LONGEST - 2 } else { LONGEST };
    while rest.len() > longest {
        let (part, more) = rest.split_at(rest.floor_char_boundary(LONGEST - CONTINUED.len()));
        path.push([part, CONTINUED].concat());
        rest = more;
    }
    // A last part may be dots only, as a whole name may.
    match rest {
        "." | ".." => path.push(rest.replace('.', "%2E")),
        _ => match rest.strip_suffix(['.', ' ']).filter(|_| is_strict) {
            Some(front) => {
                let last = rest.as_bytes()[front.len()];
                path.push(format!("{front}%{last:02X}"));
            }
            None => path.push(rest),
        },
    }
    path
}

fn escaped(name: &[u8], is_strict: bool) -> String {
    let mut text = String::new();
    let mut at = 0;
    for part in name.utf8_chunks() {
        for letter in part.valid().chars() {
            let bytes = &name[at..at + letter.len_utf8()];
            at += bytes.len();
            let is_kept = match letter {
                '/' => false,
                '%' => !is_escape(&name[at..]),
                _ if is_strict && SIGNS.contains(letter) => false,
                _ => is_shown(letter),
            };
            match is_kept {
                true => text.push(letter),
                false => escape(&mut text, bytes),
            }
        }
        escape(&mut text, part.invalid());
        at += part.invalid().len();
    }
    text
}

/// Whether a `%` before these bytes would be taken for an escape.
fn is_escape(behind: &[u8]) -> bool {
    match behind {
        [b'+', ..] => true,
        [one, other, ..] => one.is_ascii_hexdigit() && other.is_ascii_hexdigit(),
        _ => false,
    }
}

fn escape(text: &mut String, bytes: &[u8]) {
    for byte in bytes {
        let _ = write!(text, "%{byte:02X}");
    }
}

#[cfg(test)]
mod tests {
    use super::*;
    use std::collections::BTreeSet;

    fn digit(byte: u8) -> Option<u8> {
        (byte as char).to_digit(16).map(|digit| digit as u8)
    }

    /// As the first lines say.
    fn decoded(path: &str) -> Vec<u8> {
        let joined = path.replace("%+/", "").into_bytes();
        let (mut name, mut rest) = (Vec::new(), &joined[..]);
        while let [first, more @ ..] = rest {
            let pair = match (*first, more) {
                (b'%', [one, other, ..]) => digit(*one).zip(digit(*other)),
                _ => None,
            };
            match pair {
                Some((one, other)) => {
                    name.push(16 * one + other);
                    rest = &more[2..];
                }
                None => {
                    name.push(*first);
                    rest = more;
                }
            }
        }
        name
    }

    #[test]
    fn names_in_a_folder() {
        for (name, path_of_it) in [
            (&b"gain-1.cal"[..], "gain-1.cal"),
            (b"dark frame", "dark frame"),
            ("gr\u{f6}\u{df}e".as_bytes(), "gr\u{f6}\u{df}e"),
            (b"50%", "50%"),
            (b"50% of it", "50% of it"),
            (b"50%ab", "50%25ab"),
            (b"50%+", "50%25+"),
            (b"a/b", "a%2Fb"),
            (b"/etc/passwd", "%2Fetc%2Fpasswd"),
            (b"../../x", "..%2F..%2Fx"),
            (b".", "%2E"),
            (b"..", "%2E%2E"),
            (b"...", "..."),
            (b"\xff\n", "%FF%0A"),
            ("a\u{202e}b".as_bytes(), "a%E2%80%AEb"),
        ] {
            assert_eq!(path(name, false).to_str(), Some(path_of_it));
            assert_eq!(
                path(name, true).to_str(),
                Some(path_of_it)
                    .filter(|path| *path != "...")
                    .or(Some("..%2E"))
            );
        }
        for (name, strict) in [
            (
                &b"12:30 \"x\" <a|b>*?\\"[..],
                "12%3A30 %22x%22 %3Ca%7Cb%3E%2A%3F%5C",
            ),
            (b"end.", "end%2E"),
            (b"end ", "end%20"),
            (b"end. .", "end. %2E"),
            (b".", "%2E"),
        ] {
            assert_eq!(path(name, true).to_str(), Some(strict));
            assert_eq!(decoded(strict), name);
        }
        let long = |end: &str| ["n".repeat(253).as_str(), end].concat();
        for (name, path_of_it) in [
            (long("ab"), long("ab")),
            (long("abc"), long("%+/abc")),
            (long(".."), long("..")),
            (long("/."), long("%+/%2F.")),
        ] {
            assert_eq!(path(name.as_bytes(), false).to_str(), Some(&path_of_it[..]));
        }
        // Where the cut leaves dots alone, which would lead out of the folder.
        let name = ["\u{f6}", &"n".repeat(250), "\u{f6}", ".."].concat();
        let path = path(name.as_bytes(), false);
        let path = path.to_str().unwrap();
        assert_eq!(decoded(path), name.as_bytes());
        assert!(!path.ends_with("/.."), "{path}");
    }

    /// Names of all lengths, of bytes that come near the escapes: each path is one of its own, gives its
    /// name back, and has parts that a folder takes.
    #[test]
    fn every_name_comes_back() {
        const BYTES: &[u8] = b"%%%++2Ff./.a: ?\x01\xff\xc3\xb6\xe2\x80\xae";
        let mut state = 1_u64;
        let mut draw = |bound: usize| {
            state = state
                .wrapping_mul(6_364_136_223_846_793_005)
                .wrapping_add(1);
            (state >> 33) as usize % bound
        };
        let mut paths = [BTreeSet::new(), BTreeSet::new()];
        let mut names = BTreeSet::new();
        for round in 0..30_000 {
            let longest = if round % 4 == 0 { 476 } else { 12 };
            let name: Vec<u8> = (0..1 + draw(longest))
                .map(|_| BYTES[draw(BYTES.len())])
                .collect();
            for (paths, is_strict) in paths.iter_mut().zip([false, true]) {
                let path = path(&name, is_strict);
                let text = path.to_str().expect("a path of text");
                assert_eq!(decoded(text), name, "{text}");
                for part in text.split('/') {
                    assert!((1..=LONGEST).contains(&part.len()), "{text}");
                    assert!(part != "." && part != "..", "{text}");
                    let is_taken = !part.contains(|letter| SIGNS.contains(letter))
                        && !part.ends_with(['.', ' ']);
                    assert!(is_taken || !is_strict, "{text}");
                }
                paths.insert(path);
            }
            names.insert(name);
        }
        assert!(paths.iter().all(|paths| paths.len() == names.len()));
        assert!(names.len() > 20_000);
    }
}
