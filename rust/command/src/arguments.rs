//! The arguments of a verb: options by name, and operands.
use crate::outcome::Failure;
use crate::verbs::Verb;

/// An option of a verb.
pub struct Choice {
    /// Its name, as `--length`.
    pub name: &'static str,
    /// What follows it, as `CM`; empty where nothing does.
    pub value: &'static str,
    pub about: &'static str,
}

/// Options and operands as they were given.
pub struct Arguments {
    pub verb: &'static Verb,
    options: Vec<(&'static str, String)>,
    pub operands: Vec<String>,
}

/// Names with a short form.
const SHORT: [(&str, &str); 2] = [("-o", "--output"), ("-h", "--help")];

impl Arguments {
    /// Reads the arguments after a verb's name: `--name value` or `--name=value`, in any order; after `--` all are operands.
    pub fn read(verb: &'static Verb, given: &[String]) -> Result<Arguments, Failure> {
        let mut read = Arguments { verb, options: Vec::new(), operands: Vec::new() };
        let mut left = given.iter();
        while let Some(word) = left.next() {
            if word == "--" {
                read.operands.extend(left.by_ref().cloned());
            } else if word.len() > 1 && word.starts_with('-') {
                read.option(word, &mut left)?;
            } else {
                read.operands.push(word.clone());
            }
        }
        Ok(read)
    }

    /// Takes an option and, if it has one, its value.
    fn option<'a>(&mut self, word: &str, left: &mut impl Iterator<Item = &'a String>) -> Result<(), Failure> {
        let (name, inside) = word.split_once('=').map_or((word, None), |(name, value)| (name, Some(value.to_string())));
        let name = SHORT.iter().find(|(short, _)| *short == name).map_or(name, |(_, long)| long);
        let choice = self.verb.choices().find(|choice| choice.name == name);
        let choice = choice.ok_or_else(|| self.usage(format!("there is no option {name}")))?;
        if self.has(choice.name) {
            return Err(self.usage(format!("{name} is given twice")));
        }
        let value = match (choice.value, inside) {
            ("", None) => String::new(),
            ("", Some(_)) => return Err(self.usage(format!("{name} takes no value"))),
            (_, Some(value)) => value,
            (_, None) => left.next().cloned().ok_or_else(|| self.usage(format!("{name} needs a value, {}", choice.value)))?,
        };
        self.options.push((choice.name, value));
        Ok(())
    }

    /// Refuses another count of operands than the verb takes.
    pub fn counted(self) -> Result<Arguments, Failure> {
        let (least, most) = self.verb.count;
        if (least..=most).contains(&self.operands.len()) {
            return Ok(self);
        }
        Err(self.usage(format!("{} operands are given, and these are needed: {}", self.operands.len(), self.verb.operands)))
    }

    pub fn has(&self, name: &str) -> bool {
        self.options.iter().any(|(given, _)| *given == name)
    }

    pub fn value(&self, name: &str) -> Option<&str> {
        self.options.iter().find(|(given, _)| *given == name).map(|(_, value)| &value[..])
    }

    /// Returns an option's number, if the option is given.
    pub fn number(&self, name: &str) -> Result<Option<u32>, Failure> {
        let wrong = |text: &str| self.usage(format!("{name} needs a number from 0 to {}, and not {text}", u32::MAX));
        self.value(name).map(|text| text.parse().map_err(|_| wrong(text))).transpose()
    }

    /// Returns the number of an option that must be given.
    pub fn needed(&self, name: &str) -> Result<u32, Failure> {
        self.number(name)?.ok_or_else(|| self.usage(format!("{name} is missing")))
    }

    /// Refuses more than one of some options.
    pub fn at_most_one(&self, names: &[&str]) -> Result<(), Failure> {
        match names.iter().filter(|name| self.has(name)).count() {
            0 | 1 => Ok(()),
            _ => Err(self.usage(format!("only one of {} can be given", names.join(", ")))),
        }
    }

    /// Makes a complaint about the arguments.
    pub fn usage(&self, what: String) -> Failure {
        Failure::Usage(format!("{what}; see 'seglink {} --help'", self.verb.name))
    }
}
