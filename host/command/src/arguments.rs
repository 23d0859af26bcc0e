//! The words after a command: places in order, options with a value, and flags. Names on a volume are
//! bytes, so words are kept as the system gave them.

use std::collections::{BTreeMap, BTreeSet};
use std::ffi::{OsStr, OsString};
use std::os::unix::ffi::OsStrExt;
use std::time::Duration;

use crate::failure::Failure;
use crate::text;

/// How many seconds to wait for a card that another program has open.
const WAIT: u64 = 5;
const LONGEST_WAIT: u64 = 86_400;

#[derive(Debug, Default)]
pub struct Arguments {
    places: Vec<OsString>,
    options: BTreeMap<String, OsString>,
    flags: BTreeSet<String>,
}

/// What a command takes besides its places. Every command takes `--wait` and `--help`.
#[derive(Clone, Copy)]
pub struct Known {
    /// These have a value.
    pub options: &'static [&'static str],
    pub flags: &'static [&'static str],
}

impl Arguments {
    /// `--` ends the options, so that a name may start with dashes.
    pub fn parse(words: &[OsString], known: Known) -> Result<Arguments, Failure> {
        let mut arguments = Arguments::default();
        let mut words = words.iter();
        while let Some(word) = words.next() {
            match word.as_bytes() {
                b"--" => arguments.places.extend(words.by_ref().cloned()),
                b"-h" => arguments.set("help"),
                b"-p" if known.flags.contains(&"preserve") => arguments.set("preserve"),
                [b'-', b'-', option @ ..] => {
                    let split = option.iter().position(|byte| *byte == b'=');
                    let (key, value) = match split {
                        Some(at) => (&option[..at], Some(OsStr::from_bytes(&option[at + 1..]))),
                        None => (option, None),
                    };
                    let is_flag = key == b"help" || is_among(key, known.flags);
                    let is_option = key == b"wait" || is_among(key, known.options);
                    if !is_flag && !is_option {
                        return no_option(word.as_bytes());
                    }
                    let key = &*String::from_utf8_lossy(key);
                    match value {
                        Some(_) if is_flag => return usage(format!("--{key} takes no value")),
                        None if is_flag => arguments.set(key),
                        _ => {
                            let value = match value {
                                Some(value) => value,
                                None => following(key, words.next())?,
                            };
                            let before = arguments.options.insert(key.into(), value.into());
                            if before.is_some() {
                                return usage(format!("--{key} is given twice"));
                            }
                        }
                    }
                }
                [b'-', _, ..] => return no_option(word.as_bytes()),
                _ => arguments.places.push(word.clone()),
            }
        }
        Ok(arguments)
    }

    fn set(&mut self, flag: &str) {
        self.flags.insert(flag.to_string());
    }

    pub fn flag(&self, flag: &str) -> bool {
        self.flags.contains(flag)
    }

    /// As many places as there are names.
    pub fn places(&self, names: &[&str]) -> Result<&[OsString], Failure> {
        match self.places_or_more(names)?.get(names.len()) {
            Some(surplus) => usage(format!(
                "there is one argument too many: {}",
                text::word(surplus.as_bytes())
            )),
            None => Ok(&self.places),
        }
    }

    /// The same, but the last of them may be given several times.
    pub fn places_or_more(&self, names: &[&str]) -> Result<&[OsString], Failure> {
        match names.get(self.places.len()) {
            Some(name) => usage(format!("{name} is missing")),
            None => Ok(&self.places),
        }
    }

    /// A number up to the largest. It is decimal, but with the radix 8 for a mode.
    pub fn number(&self, key: &str, radix: u32, largest: u64) -> Result<Option<u64>, Failure> {
        match self.word(key) {
            None => Ok(None),
            Some(word) => number(word, radix, largest)
                .map(Some)
                .map_err(|text| Failure::Usage(format!("--{key}: {text}"))),
        }
    }

    /// A size or count, which may be given as `64K` or `4M`.
    pub fn count(&self, key: &str) -> Result<Option<u64>, Failure> {
        let count = self.word(key).map(count).transpose();
        count.map_err(|text| Failure::Usage(format!("--{key}: {text}")))
    }

    /// An option's value as it was given.
    pub fn word(&self, key: &str) -> Option<&OsStr> {
        self.options.get(key).map(OsString::as_os_str)
    }

    /// How long to wait for a card that another program has open.
    pub fn wait(&self) -> Result<Duration, Failure> {
        let seconds = self.number("wait", 10, LONGEST_WAIT)?.unwrap_or(WAIT);
        Ok(Duration::from_secs(seconds))
    }
}

fn is_among(key: &[u8], names: &[&str]) -> bool {
    names.iter().any(|name| name.as_bytes() == key)
}

/// The word behind an option. One that looks like another option is taken for a forgotten value.
fn following<'w>(key: &str, word: Option<&'w OsString>) -> Result<&'w OsStr, Failure> {
    match word.map(|word| (word, word.as_bytes())) {
        None => usage(format!("--{key} needs a value")),
        Some((_, [b'-', _, ..])) => usage(format!(
            "--{key} needs a value; one that starts with a dash is given as --{key}=VALUE"
        )),
        Some((word, _)) => Ok(word),
    }
}

fn no_option<T>(word: &[u8]) -> Result<T, Failure> {
    usage(format!(
        "there is no option {} here; if it is a name, give it behind --",
        text::word(word)
    ))
}

fn usage<T>(text: String) -> Result<T, Failure> {
    Err(Failure::Usage(text))
}

/// A number in a word.
pub fn number(word: &OsStr, radix: u32, largest: u64) -> Result<u64, String> {
    let text = text::word(word.as_bytes());
    match word.to_str().map(|word| u64::from_str_radix(word, radix)) {
        Some(Ok(number)) if number <= largest => Ok(number),
        Some(Ok(_)) => Err(format!("{text} is too large; {largest} is the largest")),
        _ if radix == 8 => Err(format!("{text} is not an octal number")),
        _ => Err(format!(
            "{text} is not a whole number from 0 to {largest}, in digits only"
        )),
    }
}

/// A size or count in a word: digits, and `K`, `M`, `G` or `T` behind them for 1024 and its powers.
pub fn count(word: &OsStr) -> Result<u64, String> {
    let text = text::word(word.as_bytes());
    let Some((digits, shift)) = word.to_str().and_then(split_unit) else {
        return Err(format!(
            "{text} is not a whole number, in digits only or with K, M, G or T behind them, as in 64K"
        ));
    };
    let largest = u64::MAX >> shift;
    match digits.parse::<u64>() {
        Ok(count) if count <= largest => Ok(count << shift),
        _ => Err(format!("{text} is too large; {} is the largest", u64::MAX)),
    }
}

/// The digits, and the power of two that the unit behind them stands for.
fn split_unit(word: &str) -> Option<(&str, u32)> {
    let digits = word.trim_end_matches(|letter: char| letter.is_ascii_alphabetic());
    let shift = match &word[digits.len()..] {
        "" => 0,
        "K" | "k" => 10,
        "M" | "m" => 20,
        "G" | "g" => 30,
        "T" | "t" => 40,
        _ => return None,
    };
    let is_number = !digits.is_empty() && digits.bytes().all(|byte| byte.is_ascii_digit());
    is_number.then_some((digits, shift))
}

#[cfg(test)]
mod tests {
    use super::*;

    #[test]
    fn sizes_and_counts() {
        for (word, expected) in [
            ("0", Some(0)),
            ("65536", Some(65_536)),
            ("64K", Some(65_536)),
            ("64k", Some(65_536)),
            ("4M", Some(4 << 20)),
            ("2G", Some(2 << 30)),
            ("3T", Some(3 << 40)),
            ("0T", Some(0)),
            ("18446744073709551615", Some(u64::MAX)),
            ("18446744073709551616", None),
            ("16777215T", Some(0xff_ffff << 40)),
            ("16777216T", None),
            ("K", None),
            ("-1K", None),
            ("+1K", None),
            ("1.5M", None),
            ("4MB", None),
            ("4 M", None),
            ("4P", None),
            ("", None),
        ] {
            assert_eq!(count(OsStr::new(word)).ok(), expected, "{word}");
        }
    }
}
