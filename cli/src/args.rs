//! The arguments of a command: options, in any order, and operands.

use std::ffi::{OsStr, OsString};
use std::ops::RangeInclusive;
use std::os::unix::ffi::OsStrExt;

use crate::failure::Failure;

/// An option: its name, and whether a value follows it and whether it may come more than once.
pub struct Opt {
    name: &'static str,
    valued: bool,
    repeated: bool,
}

impl Opt {
    /// An option that stands for itself.
    pub const fn flag(name: &'static str) -> Opt {
        Opt {
            name,
            valued: false,
            repeated: false,
        }
    }

    /// One with a value.
    pub const fn valued(name: &'static str) -> Opt {
        Opt {
            name,
            valued: true,
            repeated: false,
        }
    }

    /// One with a value, which may come any number of times.
    pub const fn repeated(name: &'static str) -> Opt {
        Opt {
            name,
            valued: true,
            repeated: true,
        }
    }
}

/// What was given.
#[derive(Default)]
pub struct Args {
    options: Vec<(&'static str, OsString)>,
    operands: Vec<OsString>,
}

fn usage<T>(text: String) -> Result<T, Failure> {
    Err(Failure::Usage(text))
}

impl Args {
    /// Reads the arguments of a command that has these options; nothing where one of them asks for help.
    pub fn parse(given: &[OsString], known: &[Opt]) -> Result<Option<Args>, Failure> {
        let mut args = Args::default();
        let mut rest = given.iter();
        while let Some(word) = rest.next() {
            if word == "--" {
                args.operands.extend(rest.cloned());
                break;
            }
            if word == "--help" || word == "-h" {
                return Ok(None);
            }
            if word == "-" || !word.as_bytes().starts_with(b"-") {
                args.operands.push(word.clone());
                continue;
            }
            let (name, joined) = split(word);
            let found = known.iter().find(|option| name == option.name);
            let option = found.ok_or_else(|| {
                Failure::Usage(format!("there is no option {}", name.to_string_lossy()))
            })?;
            args.add(option, joined, || rest.next().cloned())?;
        }
        Ok(Some(args))
    }

    /// Takes an option, with the value that is joined to it or the argument after it.
    fn add(
        &mut self,
        option: &Opt,
        joined: Option<OsString>,
        next: impl FnOnce() -> Option<OsString>,
    ) -> Result<(), Failure> {
        let name = option.name;
        if !option.repeated && self.flag(name) {
            return usage(format!("the option {name} is given twice"));
        }
        if !option.valued && joined.is_some() {
            return usage(format!("the option {name} takes no value"));
        }
        let value = if option.valued {
            joined.or_else(next)
        } else {
            Some(OsString::new())
        };
        match value {
            Some(value) if !option.valued || !value.is_empty() => self.options.push((name, value)),
            _ => return usage(format!("the option {name} needs a value")),
        }
        Ok(())
    }

    /// Whether an option is given.
    pub fn flag(&self, name: &'static str) -> bool {
        self.all(name).next().is_some()
    }

    /// All values of an option.
    pub fn all(&self, name: &'static str) -> impl Iterator<Item = &OsStr> {
        let named = self.options.iter().filter(move |(own, _)| *own == name);
        named.map(|(_, value)| value.as_os_str())
    }

    /// The value of an option that must be given.
    pub fn needed(&self, name: &'static str) -> Result<&OsStr, Failure> {
        let missing = || Failure::Usage(format!("the option {name} is missing"));
        self.all(name).next().ok_or_else(missing)
    }

    /// The number that an option has, within bounds, in no more digits than the upper one has.
    pub fn number(
        &self,
        name: &'static str,
        bounds: RangeInclusive<u64>,
    ) -> Result<Option<u64>, Failure> {
        let value = match self.all(name).next() {
            Some(value) => value.to_string_lossy(),
            None => return Ok(None),
        };
        let most = bounds.end().to_string().len();
        match number(&value) {
            Some(number) if bounds.contains(&number) && value.len() <= most => Ok(Some(number)),
            _ => usage(format!(
                "{name} {value} is no number from {} to {}",
                bounds.start(),
                bounds.end()
            )),
        }
    }

    /// The operands, as many as there are names for, or fewer where the last may be left out.
    pub fn operands(&self, names: &[&str], needed: usize) -> Result<(), Failure> {
        if let Some(more) = self.operands.get(names.len()) {
            return usage(format!(
                "{} is one operand too many",
                more.to_string_lossy()
            ));
        }
        match names[..needed].get(self.operands.len()) {
            Some(missing) => usage(format!("{missing} is missing")),
            None => Ok(()),
        }
    }

    /// An operand.
    pub fn operand(&self, place: usize) -> Option<&OsStr> {
        self.operands.get(place).map(OsString::as_os_str)
    }
}

/// A number in digits alone.
pub fn number(text: &str) -> Option<u64> {
    let digits = text.bytes().all(|byte| byte.is_ascii_digit());
    if digits {
        text.parse().ok()
    } else {
        None
    }
}

/// `--name=value` in two; of any other option its name alone.
fn split(word: &OsStr) -> (&OsStr, Option<OsString>) {
    let bytes = word.as_bytes();
    match bytes.iter().position(|&byte| byte == b'=') {
        Some(at) if bytes.starts_with(b"--") => {
            let (name, value) = (&bytes[..at], &bytes[at + 1..]);
            (
                OsStr::from_bytes(name),
                Some(OsStr::from_bytes(value).to_owned()),
            )
        }
        _ => (word, None),
    }
}
