//! A file's text or bytes, or why they cannot be had.
use crate::trouble::Trouble;
use std::fs::File;
use std::io::Read;
use std::path::Path;

/// The most bytes of a text file.
pub const MOST_TEXT: usize = 1 << 20;
/// The most bytes of a card that are looked at; the longest card of twelve components has far fewer.
pub const MOST_CARD: usize = 1 << 16;

/// A file's bytes, at most `most`. A pipe or a device is read no further than that.
pub fn bytes(path: &Path, most: usize) -> Result<Vec<u8>, Trouble> {
    let failed = |e: std::io::Error| Trouble::file(path, said(&e));
    let file = File::open(path).map_err(failed)?;
    if file.metadata().map_err(failed)?.is_dir() {
        return Err(Trouble::file(path, "is a folder, and a file is wanted"));
    }
    let mut held = Vec::new();
    file.take(most as u64 + 1).read_to_end(&mut held).map_err(failed)?;
    match held.len() > most {
        true => Err(Trouble::file(path, format!("is longer than {most} bytes, the most that is read"))),
        false => Ok(held),
    }
}

/// A file's text.
pub fn text(path: &Path) -> Result<String, Trouble> {
    String::from_utf8(bytes(path, MOST_TEXT)?).map_err(|e| {
        let whole = &e.as_bytes()[..e.utf8_error().valid_up_to()];
        let line = 1 + whole.iter().filter(|b| **b == b'\n').count();
        Trouble::line(&path.display().to_string(), line, "is not UTF-8 text")
    })
}

/// Why a file cannot be had, in a few words.
pub fn said(e: &std::io::Error) -> String {
    use std::io::ErrorKind::*;
    match e.kind() {
        NotFound => "there is no such file or folder".into(),
        PermissionDenied => "may not be read or written".into(),
        IsADirectory => "is a folder, and a file is wanted".into(),
        _ => e.to_string(),
    }
}
