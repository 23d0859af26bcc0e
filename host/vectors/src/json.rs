//! JSON, as much of it as the statements need: written in a fixed order, and read back.

use std::fmt::Write;

#[derive(Clone, Debug, PartialEq, Eq)]
pub enum Json {
    Null,
    Bool(bool),
    /// All numbers here are whole and below 2^64.
    Number(u64),
    Text(String),
    List(Vec<Json>),
    Object(Vec<(String, Json)>),
}

impl Json {
    pub fn text(text: &str) -> Json {
        Json::Text(text.to_string())
    }

    pub fn numbers(numbers: impl IntoIterator<Item = u64>) -> Json {
        Json::List(numbers.into_iter().map(Json::Number).collect())
    }

    pub fn object(members: Vec<(&str, Json)>) -> Json {
        let members = members.into_iter();
        Json::Object(
            members
                .map(|(name, value)| (name.to_string(), value))
                .collect(),
        )
    }

    /// A member that must be there.
    pub fn get(&self, name: &str) -> &Json {
        self.find(name)
            .unwrap_or_else(|| panic!("no member {name:?}"))
    }

    pub fn find(&self, name: &str) -> Option<&Json> {
        match self {
            Json::Object(members) => members
                .iter()
                .find(|(n, _)| n == name)
                .map(|(_, value)| value),
            other => panic!("{other:?} has no members"),
        }
    }

    pub fn number(&self) -> u64 {
        match self {
            Json::Number(number) => *number,
            other => panic!("{other:?} is no number"),
        }
    }

    pub fn str(&self) -> &str {
        match self {
            Json::Text(text) => text,
            other => panic!("{other:?} is no text"),
        }
    }

    pub fn list(&self) -> &[Json] {
        match self {
            Json::List(values) => values,
            other => panic!("{other:?} is no list"),
        }
    }

    /// As text. What holds only plain values stands in one line.
    pub fn written(&self) -> String {
        let mut text = String::new();
        self.write(&mut text, 0);
        text.push('\n');
        text
    }

    /// Numbers, texts and lists of numbers.
    fn is_plain(&self) -> bool {
        match self {
            Json::List(values) => values.iter().all(|value| matches!(value, Json::Number(_))),
            Json::Object(_) => false,
            _ => true,
        }
    }

    fn write(&self, text: &mut String, depth: usize) {
        match self {
            Json::Null => text.push_str("null"),
            Json::Bool(value) => text.push_str(if *value { "true" } else { "false" }),
            Json::Number(number) => write!(text, "{number}").expect("a string takes it"),
            Json::Text(string) => write_string(text, string),
            Json::List(values) => {
                let in_lines = !self.is_plain();
                text.push('[');
                for (i, value) in values.iter().enumerate() {
                    separate(text, i > 0, depth + 1, in_lines);
                    value.write(text, depth + 1);
                }
                end(text, depth, in_lines);
                text.push(']');
            }
            Json::Object(members) => {
                let in_lines = members.iter().any(|(_, value)| !value.is_plain());
                text.push('{');
                for (i, (name, value)) in members.iter().enumerate() {
                    separate(text, i > 0, depth + 1, in_lines);
                    write_string(text, name);
                    text.push_str(": ");
                    value.write(text, depth + 1);
                }
                end(text, depth, in_lines);
                text.push('}');
            }
        }
    }

    /// The value that a text holds, or the byte at which it is none. Numbers with a sign, a fraction or an
    /// exponent are not read, nor escapes of other characters than those that are written here.
    pub fn read(text: &str) -> Result<Json, usize> {
        let mut reader = Reader { text, at: 0 };
        let value = reader.value().ok_or(reader.at)?;
        reader.skip_spaces();
        if reader.at == text.len() {
            Ok(value)
        } else {
            Err(reader.at)
        }
    }
}

fn separate(text: &mut String, comma: bool, depth: usize, in_lines: bool) {
    if comma {
        text.push(',');
    }
    if in_lines {
        new_line(text, depth);
    } else if comma {
        text.push(' ');
    }
}

fn end(text: &mut String, depth: usize, in_lines: bool) {
    if in_lines {
        new_line(text, depth);
    }
}

fn new_line(text: &mut String, depth: usize) {
    text.push('\n');
    text.push_str(&"  ".repeat(depth));
}

fn write_string(text: &mut String, string: &str) {
    text.push('"');
    for letter in string.chars() {
        match letter {
            '"' | '\\' => {
                text.push('\\');
                text.push(letter);
            }
            ' '..='~' => text.push(letter),
            other => write!(text, "\\u{:04x}", other as u32).expect("a string takes it"),
        }
    }
    text.push('"');
}

struct Reader<'t> {
    text: &'t str,
    at: usize,
}

impl Reader<'_> {
    fn rest(&self) -> &str {
        &self.text[self.at..]
    }

    fn skip_spaces(&mut self) {
        let spaces = self.rest().len()
            - self
                .rest()
                .trim_start_matches([' ', '\n', '\t', '\r'])
                .len();
        self.at += spaces;
    }

    /// Passes over the word, after spaces, if it stands here.
    fn take(&mut self, word: &str) -> Option<()> {
        self.skip_spaces();
        self.rest().starts_with(word).then(|| self.at += word.len())
    }

    fn value(&mut self) -> Option<Json> {
        self.skip_spaces();
        match self.rest().bytes().next()? {
            b'{' => {
                let mut members: Vec<(String, Json)> = Vec::new();
                self.items('{', '}', &mut |reader| {
                    reader.skip_spaces();
                    let name = reader.string()?;
                    reader.take(":")?;
                    let value = reader.value()?;
                    // A name twice would say two things.
                    if members.iter().any(|(other, _)| *other == name) {
                        return None;
                    }
                    members.push((name, value));
                    Some(())
                })?;
                Some(Json::Object(members))
            }
            b'[' => {
                let mut values = Vec::new();
                self.items('[', ']', &mut |reader| {
                    values.push(reader.value()?);
                    Some(())
                })?;
                Some(Json::List(values))
            }
            b'"' => self.string().map(Json::Text),
            b't' => self.take("true").map(|()| Json::Bool(true)),
            b'f' => self.take("false").map(|()| Json::Bool(false)),
            b'n' => self.take("null").map(|()| Json::Null),
            _ => {
                let digits = self.rest().bytes().take_while(u8::is_ascii_digit).count();
                let number = self.rest()[..digits].parse().ok()?;
                self.at += digits;
                Some(Json::Number(number))
            }
        }
    }

    /// Items between two brackets, with commas between them.
    fn items(
        &mut self,
        open: char,
        close: char,
        item: &mut dyn FnMut(&mut Self) -> Option<()>,
    ) -> Option<()> {
        self.take(&open.to_string())?;
        if self.take(&close.to_string()).is_some() {
            return Some(());
        }
        loop {
            item(self)?;
            if self.take(",").is_none() {
                return self.take(&close.to_string());
            }
        }
    }

    fn string(&mut self) -> Option<String> {
        self.rest().strip_prefix('"')?;
        self.at += 1;
        let mut string = String::new();
        loop {
            let letter = self.rest().chars().next()?;
            self.at += letter.len_utf8();
            match letter {
                '"' => return Some(string),
                '\\' => {
                    let escape = self.rest().chars().next()?;
                    self.at += escape.len_utf8();
                    match escape {
                        '"' | '\\' => string.push(escape),
                        'u' => {
                            let digits = self.rest().get(..4)?;
                            string.push(char::from_u32(u32::from_str_radix(digits, 16).ok()?)?);
                            self.at += 4;
                        }
                        _ => return None,
                    }
                }
                _ => string.push(letter),
            }
        }
    }
}

#[cfg(test)]
mod tests {
    use super::*;

    fn example() -> Json {
        Json::object(vec![
            ("a", Json::numbers([0, u64::MAX])),
            (
                "\"b\"\\\n\u{e9}",
                Json::List(vec![
                    Json::object(vec![("c", Json::Null)]),
                    Json::object(vec![]),
                ]),
            ),
            ("d", Json::List(vec![])),
            (
                "e",
                Json::List(vec![Json::Bool(true), Json::Bool(false), Json::text("")]),
            ),
        ])
    }

    #[test]
    fn there_and_back() {
        assert_eq!(Json::read(&example().written()), Ok(example()));
    }

    #[test]
    fn how_it_is_laid_out() {
        assert_eq!(
            example().written(),
            "{\n  \"a\": [0, 18446744073709551615],\n  \"\\\"b\\\"\\\\\\u000a\\u00e9\": [\n    {\"c\": null},\n    {}\n  ],\n  \
             \"d\": [],\n  \"e\": [\n    true,\n    false,\n    \"\"\n  ]\n}\n"
        );
    }

    #[test]
    fn texts_that_are_refused() {
        for text in [
            "",
            "{",
            "[1,]",
            "[1 2]",
            "{\"a\" 1}",
            "{\"a\":1,\"a\":2}",
            "-1",
            "1.5",
            "18446744073709551616",
            "\"a",
            "\"\\x\"",
            "nul",
            "1 1",
            "{a:1}",
            "\"\\ud800\"",
        ] {
            assert!(Json::read(text).is_err(), "{text}");
        }
    }
}
