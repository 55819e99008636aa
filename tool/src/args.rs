//! The command line: words, and options that may stand anywhere among them.

use std::collections::VecDeque;
use std::ffi::OsString;
use std::path::{Path, PathBuf};
use std::str::FromStr;

use crate::fault::Fault;
use crate::words;

/// What a command is called with, after its name.
pub struct Args {
    words: VecDeque<OsString>,
    options: Vec<(String, String)>,
    usage: String,
}

impl Args {
    /// Sorts words and options. `taking` are the options with a value behind them, `plain` those without.
    pub fn sort(given: Vec<OsString>, taking: &[&str], plain: &[&str], usage: String) -> Result<Args, Fault> {
        let mut args = Args { words: VecDeque::new(), options: Vec::new(), usage };
        let mut given = given.into_iter();
        while let Some(word) = given.next() {
            let text = word.to_str().unwrap_or_default();
            if text == "--" {
                args.words.extend(given);
                break;
            }
            if !text.starts_with("--") {
                args.words.push_back(word);
                continue;
            }
            let (name, value) = match text.split_once('=') {
                Some((name, value)) => (name, Some(value.to_string())),
                None => (text, None),
            };
            let value = match value {
                None if plain.contains(&name) => String::new(),
                Some(value) if taking.contains(&name) => value,
                None if taking.contains(&name) => {
                    let next = given.next().ok_or_else(|| args.wrong(&format!("{name} has no value")))?;
                    next.into_string().map_err(|_| args.wrong(&format!("the value of {name} is no text")))?
                }
                _ => return Err(args.wrong(&format!("there is no option {text}"))),
            };
            args.options.push((name.to_string(), value));
        }
        Ok(args)
    }

    /// Wrong use, and how it is right.
    pub fn wrong(&self, what: &str) -> Fault {
        Fault::Use(format!("{what}\nusage: hondivole {}", self.usage))
    }

    /// Whether an option is given.
    pub fn has(&self, name: &str) -> bool {
        self.options.iter().any(|option| option.0 == name)
    }

    /// An option's values, in the order given.
    pub fn all(&self, name: &str) -> impl Iterator<Item = &str> {
        self.options.iter().filter(move |option| option.0 == name).map(|option| option.1.as_str())
    }

    /// The value of an option that may be given once.
    pub fn one(&self, name: &str) -> Result<Option<&str>, Fault> {
        let mut values = self.all(name);
        let first = values.next();
        if values.next().is_some() {
            return Err(self.wrong(&format!("{name} is given twice")));
        }
        Ok(first)
    }

    /// The next word as a file's name.
    pub fn path(&mut self, name: &str) -> Result<PathBuf, Fault> {
        match self.words.pop_front() {
            Some(word) if !word.is_empty() => Ok(word.into()),
            _ => Err(self.wrong(&format!("there is no {name}"))),
        }
    }

    /// The next word as a text.
    pub fn text(&mut self, name: &str) -> Result<String, Fault> {
        let word = self.words.pop_front().ok_or_else(|| self.wrong(&format!("there is no {name}")))?;
        word.into_string().map_err(|_| self.wrong(&format!("{name} is no text")))
    }

    /// The next word as a number.
    pub fn number<N: FromStr>(&mut self, name: &str) -> Result<N, Fault> {
        let text = self.text(name)?;
        let digits = text.bytes().all(|byte| byte.is_ascii_digit());
        text.parse().ok().filter(|_| digits).ok_or_else(|| self.wrong(&format!("{name} '{text}' is no number that is served")))
    }

    /// Whether words are left.
    pub fn more(&self) -> bool {
        !self.words.is_empty()
    }

    /// Holds that no words are left.
    pub fn end(&self) -> Result<(), Fault> {
        match self.words.front() {
            None => Ok(()),
            Some(word) => Err(self.wrong(&format!("'{}' is one word too many", words::path(Path::new(word))))),
        }
    }
}

#[cfg(test)]
mod tests {
    use super::*;

    fn sort(words: &[&str]) -> Result<Args, Fault> {
        Args::sort(words.iter().map(OsString::from).collect(), &["--abi"], &["--json"], "open TABLE".into())
    }

    #[test]
    fn options_stand_anywhere() {
        let mut args = sort(&["a", "--abi", "01234", "--json", "7", "--", "--b"]).unwrap();
        assert_eq!((args.one("--abi").unwrap(), args.has("--json")), (Some("01234"), true));
        assert_eq!((args.text("A").unwrap(), args.number::<u8>("B").unwrap()), ("a".into(), 7));
        assert_eq!(args.path("C").unwrap(), PathBuf::from("--b"));
        assert!(args.end().is_ok());
        assert_eq!(sort(&["--abi=5"]).unwrap().one("--abi").unwrap(), Some("5"));
    }

    #[test]
    fn wrong_use() {
        for words in [&["--abi"][..], &["--other"], &["--json=1"]] {
            assert!(sort(words).is_err(), "{words:?}");
        }
        assert!(sort(&["--abi", "1", "--abi", "2"]).unwrap().one("--abi").is_err());
        assert!(sort(&["x"]).unwrap().end().is_err());
        for number in ["", "+1", "256", "-1", "1.0"] {
            assert!(sort(&[number]).unwrap().number::<u8>("N").is_err(), "{number}");
        }
    }
}
