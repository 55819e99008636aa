//! A call that changes a table, and its answer, as the log keeps them.
//!
//! A call is its words (the command's name first, then what the caller gave) and its bytes (a flow, or a table); that is all that the library
//! is asked with, so that the same call on the same table can be made again from the log alone.

use hondivole::Refusal;

use crate::commands;

/// A call: its words, the name first, and its bytes.
#[derive(Clone, Debug, PartialEq, Eq)]
pub struct Call {
    /// The name and what the caller gave.
    pub words: Vec<String>,
    /// The flow, or the table that is taken over; else none.
    pub bytes: Vec<u8>,
}

/// The library's answer: a code, numbers that depend on the call, and 16 bytes for each order of a flow.
#[derive(Clone, Debug, PartialEq, Eq, Default)]
pub struct Answer {
    /// 0, or the refusal's code.
    pub code: u64,
    /// What the call answers beside the code; place and cause with code 5.
    pub numbers: Vec<u64>,
    /// The outcome bytes.
    pub rows: Vec<[u8; 16]>,
}

/// What a call leaves.
pub struct Taken {
    /// The table after it; as before where it is refused.
    pub table: Vec<u8>,
    /// Its answer.
    pub answer: Answer,
}

/// Makes a call on a table. `None` where the words are none of that call; no bytes stand for no table.
pub type Apply = fn(&Call, &[u8]) -> Option<Taken>;

impl Call {
    /// A call without bytes.
    pub fn of(words: Vec<String>) -> Call {
        Call { words, bytes: Vec::new() }
    }

    /// The call's name.
    pub fn name(&self) -> &str {
        self.words.first().map_or("", String::as_str)
    }

    /// Makes the call.
    pub fn apply(&self, table: &[u8]) -> Option<Taken> {
        let (_, apply) = commands::CHANGES.iter().find(|change| change.0 == self.name())?;
        apply(self, table)
    }

    /// The words on one line.
    pub fn line(&self) -> String {
        let words: Vec<_> = self.words.iter().map(|word| escaped(word)).collect();
        words.join(" ")
    }

    /// The words of a line.
    pub fn words_of(line: &str) -> Option<Vec<String>> {
        line.split(' ').map(unescaped).collect()
    }
}

impl Answer {
    /// The answer of a call that is taken or refused; a refused one answers no numbers but with code 5.
    pub fn of<T>(result: &Result<T, Refusal>, numbers: impl FnOnce(&T) -> Vec<u64>) -> Answer {
        match result {
            Ok(value) => Answer { numbers: numbers(value), ..Answer::default() },
            Err(refusal) => {
                let numbers = match refusal {
                    Refusal::FieldBreaks { place, cause } => vec![*place as u64, cause.number().into()],
                    _ => Vec::new(),
                };
                Answer { code: refusal.code().into(), numbers, rows: Vec::new() }
            }
        }
    }

    /// Why the call is refused; `None` where it is taken.
    pub fn refusal(&self) -> Option<Refusal> {
        Refusal::from_code(self.code, self.number(0), self.number(1))
    }

    /// A number of the answer, 0 where it has none there.
    pub fn number(&self, at: usize) -> u64 {
        self.numbers.get(at).copied().unwrap_or(0)
    }
}

/// A word that a line can hold: other characters than these as `%` and two digits, and no character at all as `%`.
fn escaped(word: &str) -> String {
    if word.is_empty() {
        return "%".into();
    }
    let plain = |byte: u8| byte.is_ascii_alphanumeric() || b":-._".contains(&byte);
    word.bytes().map(|byte| if plain(byte) { char::from(byte).to_string() } else { format!("%{byte:02x}") }).collect()
}

fn unescaped(word: &str) -> Option<String> {
    if word == "%" {
        return Some(String::new());
    }
    let mut parts = word.split('%');
    let mut bytes = parts.next()?.as_bytes().to_vec();
    for part in parts {
        bytes.push(u8::from_str_radix(part.get(..2)?, 16).ok()?);
        bytes.extend(&part.as_bytes()[2..]);
    }
    String::from_utf8(bytes).ok()
}

#[cfg(test)]
mod tests {
    use super::*;

    #[test]
    fn words_go_both_ways() {
        let words = ["execute", "a b", "", "%", "\n", "nicolò", "000471:40", "é%"].map(String::from).to_vec();
        let line = Call::of(words.clone()).line();
        assert_eq!(line, "execute a%20b % %25 %0a nicol%c3%b2 000471:40 %c3%a9%25");
        assert_eq!(Call::words_of(&line), Some(words));
        assert_eq!(Call::words_of("a %2"), None);
    }
}
