//! Cases: inputs as lines of text that can be read again.
//!
//! A line is the input's kind and its values, each a name, an equals sign and octets in hexadecimal
//! digits or decimal numbers with commas between them.

use std::fmt;

use crate::text::hex;

/// An input: its kind, and its values by their names.
#[derive(Clone, Debug, PartialEq, Eq)]
pub struct Case {
    kind: String,
    values: Vec<(String, String)>,
}

/// What is wrong with a line.
pub type Wrong = String;

impl Case {
    /// An input of a kind, as yet without values.
    pub fn new(kind: &str) -> Case {
        Case {
            kind: kind.into(),
            values: Vec::new(),
        }
    }

    fn with(mut self, name: &str, value: String) -> Case {
        self.values.push((name.into(), value));
        self
    }

    /// The input with these octets.
    pub fn octets(self, name: &str, octets: &[u8]) -> Case {
        self.with(name, hex(octets))
    }

    /// The input with this number.
    pub fn number(self, name: &str, number: impl TryInto<u64>) -> Case {
        self.numbers(name, [number.try_into().unwrap_or(u64::MAX)])
    }

    /// The input with these numbers.
    pub fn numbers<T: Into<u64>>(self, name: &str, numbers: impl IntoIterator<Item = T>) -> Case {
        let numbers = numbers.into_iter().map(|own| own.into().to_string());
        let numbers: Vec<String> = numbers.collect();
        self.with(name, numbers.join(","))
    }

    /// What kind of input it is.
    pub fn kind(&self) -> &str {
        &self.kind
    }

    /// The input of a line.
    pub fn read(line: &str) -> Result<Case, Wrong> {
        let mut words = line.split(' ');
        let mut case = Case::new(words.next().unwrap_or_default());
        for word in words {
            let (name, value) = word
                .split_once('=')
                .ok_or(format!("'{word}' is no NAME=VALUE"))?;
            case = case.with(name, value.into());
        }
        Ok(case)
    }

    /// The text of a value.
    fn value(&self, name: &str) -> Result<&str, Wrong> {
        let found = self.values.iter().find(|(own, _)| own == name);
        let missing = || format!("{} needs {name}=", self.kind);
        found.map(|(_, value)| value.as_str()).ok_or_else(missing)
    }

    /// The octets of this name.
    pub fn octets_of(&self, name: &str) -> Result<Vec<u8>, Wrong> {
        let digits = self.value(name)?;
        let octet = |two: &[u8]| {
            let two = std::str::from_utf8(two).ok().filter(|two| two.len() == 2)?;
            u8::from_str_radix(two, 16).ok()
        };
        let octets: Option<Vec<u8>> = digits.as_bytes().chunks(2).map(octet).collect();
        octets.ok_or_else(|| format!("{name}= takes pairs of hexadecimal digits"))
    }

    /// The numbers of this name, each as wide as is asked for.
    pub fn numbers_of<T: TryFrom<u64>>(&self, name: &str) -> Result<Vec<T>, Wrong> {
        let text = self.value(name)?;
        let texts = text.split(',').filter(|_| !text.is_empty());
        let number = |own: &str| own.parse().ok().and_then(|own: u64| own.try_into().ok());
        let numbers: Option<Vec<T>> = texts.map(number).collect();
        numbers.ok_or_else(|| format!("{name}= takes decimal numbers, not '{text}'"))
    }

    /// So many numbers of this name.
    pub fn array_of<T: TryFrom<u64>, const N: usize>(&self, name: &str) -> Result<[T; N], Wrong> {
        let numbers = self.numbers_of(name)?;
        let other = |own: Vec<T>| format!("{name}= takes {N} numbers, not {}", own.len());
        numbers.try_into().map_err(other)
    }

    /// The number of this name.
    pub fn number_of<T: TryFrom<u64>>(&self, name: &str) -> Result<T, Wrong> {
        let [number] = self.array_of(name)?;
        Ok(number)
    }
}

impl fmt::Display for Case {
    fn fmt(&self, out: &mut fmt::Formatter) -> fmt::Result {
        out.write_str(&self.kind)?;
        for (name, value) in &self.values {
            write!(out, " {name}={value}")?;
        }
        Ok(())
    }
}

#[cfg(test)]
mod tests {
    use super::*;

    fn case() -> Case {
        Case::new("some-kind")
            .octets("octets", &[0, 0x7f, 0xff])
            .octets("none", &[])
            .number("length", usize::MAX)
            .numbers("words", [1_u32, 0, u32::MAX])
            .numbers::<u64>("empty", [])
    }

    #[test]
    fn a_line_is_read_again() {
        let text = case().to_string();
        assert_eq!(
            text,
            "some-kind octets=007fff none= length=18446744073709551615 words=1,0,4294967295 empty="
        );
        let again = Case::read(&text).expect("a case");
        assert_eq!(again, case());
        assert_eq!(again.octets_of("octets"), Ok(vec![0, 0x7f, 0xff]));
        assert_eq!(again.octets_of("none"), Ok(Vec::new()));
        assert_eq!(again.number_of("length"), Ok(usize::MAX));
        assert_eq!(again.array_of("words"), Ok([1_u32, 0, u32::MAX]));
        assert_eq!(again.numbers_of::<u32>("empty"), Ok(Vec::new()));
    }

    #[test]
    fn what_is_no_value_is_refused() {
        assert!(Case::read("kind octets").is_err());
        let wrong = Case::read("kind odd=123 letters=0g word=4294967296 two=1,2").expect("a case");
        assert!(wrong.octets_of("odd").is_err());
        assert!(wrong.octets_of("letters").is_err());
        assert!(wrong.octets_of("missing").is_err());
        assert!(wrong.number_of::<u32>("word").is_err());
        assert!(wrong.number_of::<u64>("two").is_err());
        assert!(wrong.array_of::<u64, 3>("two").is_err());
    }
}
