//! Files that are whole or not there: written under another name beside, then renamed.
use crate::input::file::said;
use crate::trouble::Trouble;
use std::ffi::OsString;
use std::fs;
use std::io::Write;
use std::path::{Path, PathBuf};

/// A file's name with more behind it.
pub fn beside(path: &Path, more: &str) -> PathBuf {
    let mut name: OsString = path.as_os_str().into();
    name.push(more);
    name.into()
}

fn put(path: &Path, bytes: &[u8]) -> std::io::Result<()> {
    let mut file = fs::OpenOptions::new().write(true).create_new(true).open(path)?;
    file.write_all(bytes)?;
    file.sync_all()
}

/// That a file may stand here: no folder does.
pub fn no_folder(path: &Path) -> Result<(), Trouble> {
    if path.is_dir() { Err(Trouble::file(path, "is a folder, and a file is wanted")) } else { Ok(()) }
}

/// Writes a whole file; one that stood there is replaced at once, and stays as it was where the new one cannot be written.
pub fn write(path: &Path, bytes: &[u8]) -> Result<(), Trouble> {
    no_folder(path)?;
    let other = beside(path, &format!(".new-{}", std::process::id()));
    let written = put(&other, bytes).and_then(|()| fs::rename(&other, path));
    written.map_err(|e| {
        // the first reason is the one to tell
        let _ = fs::remove_file(&other);
        Trouble::file(path, format!("could not be written: {}", said(&e)))
    })
}

/// Writes to the standard output; whoever has closed it wants no more.
pub fn show(text: &str) -> Result<(), Trouble> {
    let mut out = std::io::stdout().lock();
    match out.write_all(text.as_bytes()).and_then(|()| out.flush()) {
        Err(e) if e.kind() != std::io::ErrorKind::BrokenPipe => Err(Trouble::words(format!("the output could not be written: {e}"))),
        Err(_) => Err(Trouble { status: crate::trouble::DONE, sentence: String::new() }),
        Ok(()) => Ok(()),
    }
}
