//! Options with numbers as values.

use builder::ValueParser;
use plain_std::alloc::{AllocError, Global};
use plain_std::string::String as Text;

pub mod builder {
    /// The numbers that a value may be.
    #[derive(Clone, Copy)]
    pub struct ValueParser<'a> {
        pub(crate) least: u64,
        pub(crate) most: u64,
        pub(crate) text: std::marker::PhantomData<&'a str>,
    }

    impl ValueParser<'_> {
        /// All numbers.
        pub fn unsigned() -> Self {
            ValueParser { least: 0, most: u64::MAX, text: std::marker::PhantomData }
        }

        /// Those of a range.
        pub fn range(self, range: std::ops::RangeInclusive<i64>) -> Self {
            ValueParser { least: *range.start() as u64, most: *range.end() as u64, ..self }
        }
    }
}

pub mod error {
    #[derive(Clone, Copy, Debug, PartialEq, Eq)]
    pub enum ErrorKind {
        OutOfMemory,
        ValueValidation,
    }
}

#[macro_export]
macro_rules! value_parser {
    (u64) => {
        $crate::builder::ValueParser::unsigned()
    };
}

/// Why words were refused.
#[derive(Clone, Copy, Debug)]
pub struct Error(error::ErrorKind);

impl Error {
    pub fn kind(&self) -> error::ErrorKind {
        self.0
    }
}

impl From<AllocError> for Error {
    fn from(_: AllocError) -> Error {
        Error(error::ErrorKind::OutOfMemory)
    }
}

pub enum ArgAction {
    Set,
}

/// An option.
#[derive(Clone, Copy)]
pub struct Arg<'a> {
    name: &'a str,
    values: ValueParser<'a>,
    unless_given: Option<&'a str>,
}

impl<'a> Arg<'a> {
    pub fn new(_: Global, name: &'a str) -> Arg<'a> {
        Arg { name, values: ValueParser::unsigned(), unless_given: None }
    }

    pub fn long(self, name: &'a str) -> Arg<'a> {
        Arg { name, ..self }
    }

    pub fn action(self, _: ArgAction) -> Arg<'a> {
        self
    }

    pub fn value_parser(self, values: ValueParser<'a>) -> Arg<'a> {
        Arg { values, ..self }
    }

    pub fn default_value(self, text: &'a str) -> Arg<'a> {
        Arg { unless_given: Some(text), ..self }
    }

    /// The value that stands behind the option's word, or its default.
    fn value_in(&self, words: &[Text]) -> Result<Option<u64>, Error> {
        let place = words.iter().position(|word| word.as_str().strip_prefix("--") == Some(self.name));
        let given = place.and_then(|place| words.get(place + 1)).map(|word| word.as_str());
        let Some(text) = given.or(self.unless_given) else {
            return Ok(None);
        };
        match text.parse() {
            Ok(value) if self.values.least <= value && value <= self.values.most => Ok(Some(value)),
            _ => Err(Error(error::ErrorKind::ValueValidation)),
        }
    }
}

/// The options of a command.
pub struct Command<'a>(Vec<Arg<'a>>);

impl<'a> Command<'a> {
    pub fn new(_: Global, _: &'a str) -> Command<'a> {
        Command(Vec::new())
    }

    pub fn arg(mut self, arg: Arg<'a>) -> Result<Command<'a>, AllocError> {
        self.0.push(arg);
        Ok(self)
    }

    /// What the words behind the first one say.
    pub fn try_get_matches_from(self, words: &'a [Text]) -> Result<ArgMatches<'a>, Error> {
        let values = self.0.iter().map(|arg| Ok((arg.name, arg.value_in(&words[1..])?)));
        Ok(ArgMatches(values.collect::<Result<_, Error>>()?))
    }
}

/// The values of the options.
pub struct ArgMatches<'a>(Vec<(&'a str, Option<u64>)>);

impl ArgMatches<'_> {
    pub fn get_one<T>(&self, name: &str) -> Option<u64> {
        self.0.iter().find(|value| value.0 == name).and_then(|value| value.1)
    }
}
