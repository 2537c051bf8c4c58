//! A text file as sections of `key = value`, each with its line.
use crate::trouble::Trouble;

#[derive(Debug, Clone, PartialEq)]
pub struct Entry {
    pub line: usize,
    pub key: String,
    pub value: String,
}

/// What stands below a heading `[kind name ..]`.
#[derive(Debug, Clone, PartialEq)]
pub struct Section {
    pub line: usize,
    pub kind: String,
    pub names: Vec<String>,
    pub entries: Vec<Entry>,
}

#[derive(Debug, Clone, PartialEq)]
pub struct Document {
    pub file: String,
    /// What stands before the first heading.
    pub head: Section,
    pub sections: Vec<Section>,
}

impl Document {
    pub fn trouble(&self, line: usize, reason: impl std::fmt::Display) -> Trouble {
        Trouble::line(&self.file, line, reason)
    }
    pub fn of_kind<'a>(&'a self, kind: &'a str) -> impl Iterator<Item = &'a Section> {
        self.sections.iter().filter(move |s| s.kind == kind)
    }
}

impl Section {
    pub fn get(&self, key: &str) -> Option<&Entry> {
        self.entries.iter().find(|e| e.key == key)
    }
    /// The first entry whose key is none of these.
    pub fn stranger(&self, keys: &[&str]) -> Option<&Entry> {
        self.entries.iter().find(|e| !keys.contains(&e.key.as_str()))
    }
}

/// A word of a file as it is shown: short, and without control characters.
pub fn shown(word: &str) -> String {
    let kept: String = word.chars().take(40).map(|c| if c.is_control() { '?' } else { c }).collect();
    match word.chars().nth(40) {
        Some(_) => format!("'{kept}..'"),
        None => format!("'{kept}'"),
    }
}

fn heading(line: usize, inner: &str) -> Option<Section> {
    let mut words = inner.split_whitespace().map(str::to_string);
    Some(Section { line, kind: words.next()?, names: words.collect(), entries: vec![] })
}

fn entry(line: usize, text: &str) -> Option<Entry> {
    let (key, value) = text.split_once('=')?;
    let key = key.split_whitespace().collect::<Vec<_>>().join(" ");
    Some(Entry { line, key, value: value.trim().into() }).filter(|e| !e.key.is_empty())
}

/// Adds a line to the section in hand, or begins a section.
fn take(document: &mut Document, line: usize, text: &str) -> Result<(), Trouble> {
    if let Some(inner) = text.strip_prefix('[').and_then(|t| t.strip_suffix(']')) {
        let Some(section) = heading(line, inner) else { return Err(document.trouble(line, "a heading without a word")) };
        document.sections.push(section);
        return Ok(());
    }
    let Some(new) = entry(line, text) else {
        return Err(document.trouble(line, format!("neither a [heading] nor 'key = value': {}", shown(text))));
    };
    let section = document.sections.last().unwrap_or(&document.head);
    if let Some(old) = section.get(&new.key) {
        return Err(document.trouble(line, format!("{} stands already in line {}", shown(&new.key), old.line)));
    }
    if new.value.is_empty() {
        return Err(document.trouble(line, format!("{} has no value", shown(&new.key))));
    }
    document.sections.last_mut().unwrap_or(&mut document.head).entries.push(new);
    Ok(())
}

/// The sections of a text. What follows `#` on a line is a remark.
pub fn document(file: &str, text: &str) -> Result<Document, Trouble> {
    let head = Section { line: 1, kind: String::new(), names: vec![], entries: vec![] };
    let mut held = Document { file: file.into(), head, sections: vec![] };
    for (at, line) in text.trim_start_matches('\u{feff}').lines().enumerate() {
        let kept = line.split('#').next().unwrap_or_default().trim();
        if !kept.is_empty() {
            take(&mut held, at + 1, kept)?;
        }
    }
    Ok(held)
}
