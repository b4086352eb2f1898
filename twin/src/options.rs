//! The options that arguments give, for the plain twin.

use std::ops::RangeInclusive;

/// Options, each with its value, which is empty where the option wants none.
pub struct Options<'a>(Vec<(&'a str, &'a str)>);

impl<'a> Options<'a> {
    /// Reads arguments that give these options, each at most once: some alone, and some with a
    /// value, which stands in the next argument, or after `=`. None where the arguments give
    /// anything else.
    pub fn read(arguments: &'a [String], alone: &[&str], valued: &[&str]) -> Option<Options<'a>> {
        let mut read: Vec<(&str, &str)> = Vec::new();
        let mut arguments = arguments.iter().map(String::as_str);
        while let Some(argument) = arguments.next() {
            let (name, value) = match argument.split_once('=') {
                _ if alone.contains(&argument) => (argument, ""),
                None if valued.contains(&argument) => (argument, arguments.next()?),
                Some((name, value)) if valued.contains(&name) => (name, value),
                _ => return None,
            };
            if read.iter().any(|(other, _)| *other == name) {
                return None;
            }
            read.push((name, value));
        }
        Some(Options(read))
    }

    /// The value of an option, if it is given.
    pub fn value(&self, name: &str) -> Option<&'a str> {
        let mut options = self.0.iter();
        options
            .find(|(other, _)| *other == name)
            .map(|(_, value)| *value)
    }

    pub fn has(&self, name: &str) -> bool {
        self.value(name).is_some()
    }

    /// How many of these options are given.
    pub fn count(&self, names: &[&str]) -> usize {
        names.iter().filter(|name| self.has(name)).count()
    }

    /// The number that an option gives, or else this one. None where it isn't in the range.
    pub fn number(&self, name: &str, range: RangeInclusive<u32>, default: u32) -> Option<u32> {
        match self.value(name) {
            None => Some(default),
            Some(value) => value.parse().ok().filter(|number| range.contains(number)),
        }
    }
}
