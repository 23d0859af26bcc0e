//! Names and times as they are printed.

use std::fmt::Write;

/// A name as a word for the shell, so that it can be given back as it is printed. Bytes that are no
/// text, and characters that a terminal does not show as themselves, are escaped.
pub fn word(name: &[u8]) -> String {
    match std::str::from_utf8(name) {
        Ok(text) if !text.is_empty() && text.chars().all(is_plain) => text.to_string(),
        Ok(text) if text.chars().all(is_shown) => format!("'{}'", text.replace('\'', r"'\''")),
        _ => escaped(name),
    }
}

/// Whether the shell takes it as it is.
fn is_plain(letter: char) -> bool {
    is_shown(letter) && (letter.is_alphanumeric() || "/._-+:,@%".contains(letter))
}

/// Not control characters, nor those that change the direction of the text or take no room.
pub fn is_shown(letter: char) -> bool {
    "'\"\\".contains(letter) || letter.escape_debug().len() == 1
}

/// In octal, as a hexadecimal number has no fixed length in some shells.
fn escaped(name: &[u8]) -> String {
    let mut text = "$'".to_string();
    let octal = |text: &mut String, bytes: &[u8]| {
        for byte in bytes {
            let _ = write!(text, "\\{byte:03o}");
        }
    };
    for part in name.utf8_chunks() {
        for letter in part.valid().chars() {
            match letter {
                '\'' | '\\' => text.extend(['\\', letter]),
                _ if is_shown(letter) => text.push(letter),
                _ => octal(&mut text, letter.encode_utf8(&mut [0; 4]).as_bytes()),
            }
        }
        octal(&mut text, part.invalid());
    }
    text.push('\'');
    text
}

/// Seconds since 1970 as day and time, in UTC: the volume has no time zone. A year of more than four
/// digits has a plus sign, as in ISO 8601.
pub fn time(seconds: u64) -> String {
    let (mut day, rest) = (seconds / 86_400, seconds % 86_400);
    // Every 400 years have the same number of days; the latest year has twelve digits.
    let mut year = 1970 + 400 * (day / DAYS_OF_400_YEARS);
    day %= DAYS_OF_400_YEARS;
    while day >= days_of_year(year) {
        day -= days_of_year(year);
        year += 1;
    }
    let february = days_of_year(year) - 337;
    let months = [31, february, 31, 30, 31, 30, 31, 31, 30, 31, 30, 31];
    let mut month = 0;
    while day >= months[month] {
        day -= months[month];
        month += 1;
    }
    let sign = match year {
        ..10_000 => "",
        _ => "+",
    };
    format!(
        "{sign}{year}-{:02}-{:02} {:02}:{:02}:{:02} UTC",
        month + 1,
        day + 1,
        rest / 3_600,
        rest / 60 % 60,
        rest % 60
    )
}

const DAYS_OF_400_YEARS: u64 = 146_097;

fn days_of_year(year: u64) -> u64 {
    match year.is_multiple_of(4) && (!year.is_multiple_of(100) || year.is_multiple_of(400)) {
        true => 366,
        false => 365,
    }
}

#[cfg(test)]
mod tests {
    use super::*;

    #[test]
    fn words_for_the_shell() {
        for (name, shown) in [
            (&b"/dev/sdb"[..], "/dev/sdb"),
            (b"card of today", "'card of today'"),
            (b"it's", r"'it'\''s'"),
            (b"a;b", "'a;b'"),
            (b"a\\b", r"'a\b'"),
            (b"", "''"),
            ("Tiefe_5m".as_bytes(), "Tiefe_5m"),
            ("größe".as_bytes(), "größe"),
            ("5 °C".as_bytes(), "'5 °C'"),
            (b"\xff\tname", r"$'\377\011name'"),
            (b"it's\\\n", r"$'it\'s\\\012'"),
            ("a\u{202e}b".as_bytes(), r"$'a\342\200\256b'"),
            (
                "a\u{200b}\u{2066}".as_bytes(),
                r"$'a\342\200\213\342\201\246'",
            ),
            (b"\x1b[2J", r"$'\033[2J'"),
            ("\u{9b}2J".as_bytes(), r"$'\302\2332J'"),
        ] {
            assert_eq!(word(name), shown);
        }
    }

    #[test]
    fn days_and_times() {
        for (seconds, text) in [
            (0, "1970-01-01 00:00:00 UTC"),
            (951_782_400, "2000-02-29 00:00:00 UTC"),
            (1_709_251_199, "2024-02-29 23:59:59 UTC"),
            (4_107_542_400, "2100-03-01 00:00:00 UTC"),
            (4_294_967_295, "2106-02-07 06:28:15 UTC"),
            (4_294_967_296, "2106-02-07 06:28:16 UTC"),
            (7_258_118_399, "2199-12-31 23:59:59 UTC"),
            (7_263_216_000, "2200-03-01 00:00:00 UTC"),
            (13_574_563_200, "2400-02-29 00:00:00 UTC"),
            (253_402_300_799, "9999-12-31 23:59:59 UTC"),
            (253_402_300_800, "+10000-01-01 00:00:00 UTC"),
            (u64::MAX, "+584554051223-11-09 07:00:15 UTC"),
        ] {
            assert_eq!(time(seconds), text);
        }
    }
}
