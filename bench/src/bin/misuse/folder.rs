//! A fresh folder for a case, and what is in it before and after.

use std::collections::BTreeMap;
use std::fs;
use std::io;
use std::os::unix::fs::symlink;
use std::path::{Path, PathBuf};
use std::process::Command;

/// What a name stands for.
#[derive(Clone, PartialEq, Eq)]
pub enum Item {
    File(Vec<u8>),
    Folder,
    Link(PathBuf),
    /// A FIFO, or anything else that is not looked into.
    Other,
}

/// All names in a folder and in those below it.
#[derive(Clone, Default, PartialEq, Eq)]
pub struct Files(BTreeMap<String, Item>);

impl Files {
    fn add(&mut self, folder: &Path, before: &str) -> io::Result<()> {
        for entry in fs::read_dir(folder)? {
            let entry = entry?;
            let name = format!("{before}{}", entry.file_name().to_string_lossy());
            let kind = entry.file_type()?;
            let item = match kind {
                _ if kind.is_file() => Item::File(fs::read(entry.path())?),
                _ if kind.is_symlink() => Item::Link(fs::read_link(entry.path())?),
                _ if kind.is_dir() => {
                    self.add(&entry.path(), &format!("{name}/"))?;
                    Item::Folder
                }
                _ => Item::Other,
            };
            self.0.insert(name, item);
        }
        Ok(())
    }

    /// The bytes of a file.
    pub fn file(&self, name: &str) -> Option<&[u8]> {
        match self.0.get(name) {
            Some(Item::File(bytes)) => Some(bytes),
            _ => None,
        }
    }

    /// The same with a file.
    pub fn with(&self, name: &str, bytes: &[u8]) -> Files {
        let mut files = self.clone();
        files.0.insert(name.to_string(), Item::File(bytes.to_vec()));
        files
    }

    /// What is another here than before, in words.
    pub fn changes(&self, before: &Files) -> String {
        let mut words = Vec::new();
        for name in before.0.keys().filter(|name| !self.0.contains_key(*name)) {
            words.push(format!("{name} gone"));
        }
        for (name, item) in &self.0 {
            match (item, before.0.get(name)) {
                (item, Some(old)) if item == old => {}
                (Item::File(new), Some(Item::File(old))) if new.len() == old.len() => {
                    words.push(format!("{name} changed"));
                }
                (Item::File(new), Some(_)) => words.push(format!("{name} now {} bytes", new.len())),
                (Item::File(new), None) => words.push(format!("{name} new, {} bytes", new.len())),
                (_, None) => words.push(format!("{name} new")),
                _ => words.push(format!("{name} another")),
            }
        }
        if words.is_empty() {
            "as before".to_string()
        } else {
            words.join("; ")
        }
    }
}

/// A folder in which a case is run, and where the programs are.
pub struct Folder {
    pub path: PathBuf,
    pub programs: PathBuf,
}

impl Folder {
    /// Writes a file.
    pub fn put(&self, name: &str, bytes: &[u8]) -> io::Result<()> {
        fs::write(self.path.join(name), bytes)
    }

    /// Makes a symbolic link.
    pub fn link(&self, target: &str, name: &str) -> io::Result<()> {
        symlink(target, self.path.join(name))
    }

    /// Runs a command of the system in the folder, and says whether it did what it should.
    pub fn does(&self, command: &str) -> bool {
        let done = Command::new("sh").args(["-c", command]).current_dir(&self.path).output();
        done.is_ok_and(|output| output.status.success())
    }

    /// What is in the folder.
    pub fn files(&self) -> io::Result<Files> {
        let mut files = Files::default();
        files.add(&self.path, "")?;
        Ok(files)
    }
}
