//! What answers are put together from: amounts, kinds, operations and refusals in words.

use std::path::Path;

use hondivole::{Date, Kind, Operation, Refusal};

use crate::json::{Json, number, object};

/// Cents as euros and cents.
pub fn amount(cents: u64) -> String {
    format!("{}.{:02}", cents / 100, cents % 100)
}

/// Cents that may be below zero.
pub fn balance(cents: i64) -> String {
    format!("{}{}", if cents < 0 { "-" } else { "" }, amount(cents.unsigned_abs()))
}

/// The cents of an amount as [`amount`] writes it, or of whole euros and cents without more ado: `12.50`.
pub fn cents(text: &str) -> Option<u64> {
    let (euros, cents) = text.split_once('.')?;
    let digits = |part: &str| !part.is_empty() && part.bytes().all(|byte| byte.is_ascii_digit());
    if !digits(euros) || !digits(cents) || cents.len() != 2 {
        return None;
    }
    euros.parse::<u64>().ok()?.checked_mul(100)?.checked_add(cents.parse().ok()?)
}

/// The kind's word.
pub fn kind(kind: Kind) -> &'static str {
    match kind {
        Kind::Mandato => "mandato",
        Kind::Reversale => "reversale",
    }
}

/// The kind of this word.
pub fn kind_of(word: &str) -> Option<Kind> {
    [Kind::Mandato, Kind::Reversale].into_iter().find(|each| kind(*each) == word)
}

/// The operation's word, as flows have it.
pub fn operation(operation: Operation) -> &'static str {
    match operation {
        Operation::Inserimento => "INSERIMENTO",
        Operation::Variazione => "VARIAZIONE",
        Operation::Annullo => "ANNULLO",
        Operation::Sostituzione => "SOSTITUZIONE",
    }
}

/// A date as YYYY-MM-DD.
pub fn date(date: Date) -> String {
    format!("{:04}-{:02}-{:02}", date.year, date.month, date.day)
}

/// The date of a text of three numbers with `-` between them. Whether there is such a date the library judges.
pub fn date_of(text: &str) -> Option<Date> {
    let mut parts = text.split('-').map(|part| part.parse().ok().filter(|_| part.bytes().all(|byte| byte.is_ascii_digit())));
    let date = Date { year: parts.next()??, month: parts.next()??, day: parts.next()?? };
    parts.next().is_none().then_some(date)
}

/// A number with its noun: `1 line`, `2 lines`.
pub fn count(number: usize, noun: &str) -> String {
    format!("{number} {noun}{}", if number == 1 { "" } else { "s" })
}

/// A text of a file's, as a terminal may be told it: control characters are escaped, so that they command nothing.
pub fn shown(text: &str) -> String {
    text.escape_debug().to_string().replace("\\'", "'").replace("\\\"", "\"")
}

/// A file's name, as a terminal may be told it.
pub fn path(path: &Path) -> String {
    shown(&path.display().to_string())
}

/// A refusal in words: its code, and the rule's sentence.
pub fn refused(refusal: Refusal, sentence: impl std::fmt::Display) -> String {
    format!("refused, {}: {sentence}", refusal.code())
}

/// An answer for programs: whether it was taken, and code and sentence of what refused it.
pub fn verdict(refusal: Option<(Refusal, String)>) -> Json {
    match refusal {
        None => object([("taken", true.into()), ("code", number(0))]),
        Some((refusal, sentence)) => {
            object([("taken", false.into()), ("code", number(refusal.code())), ("refusal", sentence.into())])
        }
    }
}

#[cfg(test)]
mod tests {
    use super::*;

    #[test]
    fn amounts_go_both_ways() {
        for (number, text) in [(0, "0.00"), (5, "0.05"), (15_000, "150.00"), (u64::MAX, "184467440737095516.15")] {
            assert_eq!(amount(number), text);
            assert_eq!(cents(text), Some(number));
        }
        for text in ["", "1", "1.", "1.5", "1.555", ".50", "+1.00", "-1.00", "1,00", "184467440737095516.16", "1.+5"] {
            assert_eq!(cents(text), None, "{text}");
        }
        assert_eq!(balance(-5), "-0.05");
        assert_eq!(balance(i64::MIN), "-92233720368547758.08");
    }

    #[test]
    fn nothing_shown_commands_the_terminal() {
        assert_eq!(shown("I.C. \"Pascoli\", l'Aquila, nicolò"), "I.C. \"Pascoli\", l'Aquila, nicolò");
        assert_eq!(shown("a\u{1b}[2J\n\u{9b}\\'\u{202e}"), r"a\u{1b}[2J\n\u{9b}\\'\u{202e}");
    }

    #[test]
    fn dates() {
        assert_eq!(date_of("2021-03-03"), Some(Date { year: 2021, month: 3, day: 3 }));
        for text in ["", "2021-03", "2021-03-03-1", "2021-03-+3", "2021/03/03", "2021-03-"] {
            assert_eq!(date_of(text), None, "{text}");
        }
        assert_eq!(date(Date { year: 2021, month: 3, day: 3 }), "2021-03-03");
    }
}
