//! The words of the command line: options with a value, marks without one, and the rest in order.
use crate::trouble::Trouble;
use std::ffi::OsString;
use std::path::PathBuf;

/// Options that take a value.
pub const VALUED: [&str; 13] = [
    "out",
    "card",
    "fluid",
    "temperature",
    "density",
    "densities",
    "fractions",
    "non-additive",
    "chain",
    "stop-after",
    "to",
    "magnify",
    "of",
];
/// Options that take none.
pub const MARKS: [&str; 2] = ["json", "help"];

#[derive(Debug, Clone, Default)]
pub struct Args {
    pub words: Vec<OsString>,
    options: Vec<(&'static str, OsString)>,
    marks: Vec<&'static str>,
}

fn known(list: &'static [&'static str], name: &str) -> Option<&'static str> {
    list.iter().copied().find(|known| *known == name)
}

impl Args {
    pub fn read(words: Vec<OsString>) -> Result<Args, Trouble> {
        let mut args = Args::default();
        let mut rest = words.into_iter();
        while let Some(word) = rest.next() {
            match word.to_str().and_then(|w| w.strip_prefix("--")) {
                None => args.words.push(word),
                Some(option) => args.option(option, &mut rest)?,
            }
        }
        Ok(args)
    }
    fn option(&mut self, option: &str, rest: &mut impl Iterator<Item = OsString>) -> Result<(), Trouble> {
        if let Some(mark) = known(&MARKS, option) {
            self.marks.push(mark);
            return Ok(());
        }
        let (name, inline) = option.split_once('=').map_or((option, None), |(name, value)| (name, Some(value.into())));
        let Some(key) = known(&VALUED, name) else {
            return Err(Trouble::words(format!("no option is called --{name}: see 'domthelv --help'")));
        };
        let Some(value) = inline.or_else(|| rest.next()) else { return Err(Trouble::words(format!("--{key} wants a value"))) };
        if self.options.iter().any(|(held, _)| *held == key) {
            return Err(Trouble::words(format!("--{key} is given twice")));
        }
        self.options.push((key, value));
        Ok(())
    }
    pub fn has(&self, mark: &str) -> bool {
        self.marks.contains(&mark)
    }
    pub fn path(&self, key: &str) -> Option<PathBuf> {
        self.options.iter().find(|(held, _)| *held == key).map(|(_, value)| value.into())
    }
    /// An option's text.
    pub fn text(&self, key: &str) -> Result<Option<String>, Trouble> {
        let Some((_, value)) = self.options.iter().find(|(held, _)| *held == key) else { return Ok(None) };
        value.to_str().map(|v| Some(v.into())).ok_or_else(|| Trouble::words(format!("--{key}: not UTF-8 text")))
    }
    /// That no option but these is given.
    pub fn only(&self, command: &str, options: &[&str]) -> Result<(), Trouble> {
        let given = self.options.iter().map(|(key, _)| *key).chain(self.marks.iter().copied());
        match given.into_iter().find(|key| !options.contains(key)) {
            Some(key) => Err(Trouble::words(format!("{command} takes no --{key}: see 'domthelv {command} --help'"))),
            None => Ok(()),
        }
    }
    /// The single file of a command, which may be left out.
    pub fn file(&self, command: &str, skip: usize) -> Result<Option<PathBuf>, Trouble> {
        match self.words.get(skip..).unwrap_or_default() {
            [] => Ok(None),
            [file] => Ok(Some(file.into())),
            _ => Err(Trouble::words(format!("{command} takes one file, and {} are given", self.words.len() - skip))),
        }
    }
}
