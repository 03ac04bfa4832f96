//! The files of a class: those named, and those of the folders named.

use crate::input::Trouble;
use std::fs::DirEntry;
use std::path::Path;

/// What a class has.
#[derive(Debug, Default)]
pub struct Files {
    /// The files, those of a folder in the order of their names.
    pub files: Vec<String>,
    /// Names in a folder that are left out, for they begin with a dot.
    pub hidden: usize,
    /// Folders in a folder that were not looked into.
    pub folders: usize,
    /// Links to folders that were not followed.
    pub links: usize,
    /// What in a folder is no plain file, such as a pipe, which might never end.
    pub odd: usize,
}

impl Files {
    /// Takes in a file or, if it is a folder, its files; with `deep` also those of the folders in it.
    pub fn add(&mut self, named: &str, deep: bool) -> Result<(), Trouble> {
        if named == "-" || !Path::new(named).is_dir() {
            self.files.push(named.to_string());
            return Ok(());
        }
        let before = self.files.len();
        self.folder(Path::new(named), deep)?;
        if self.files.len() == before {
            let inside = if self.folders > 0 { "; --deep looks into the folders in it" } else { "" };
            return Err(Trouble::new(format!("{named}: there is no file in this folder{inside}")));
        }
        Ok(())
    }

    fn folder(&mut self, folder: &Path, deep: bool) -> Result<(), Trouble> {
        let listed = std::fs::read_dir(folder).and_then(Iterator::collect::<Result<Vec<DirEntry>, _>>);
        let mut listed = listed.map_err(|error| Trouble::new(format!("{}: cannot be read: {error}", folder.display())))?;
        listed.sort_by_key(DirEntry::file_name);
        for entry in listed {
            let path = entry.path();
            let is_link = entry.file_type().is_ok_and(|kind| kind.is_symlink());
            if entry.file_name().as_encoded_bytes().starts_with(b".") {
                self.hidden += 1;
            } else if path.is_dir() {
                match (is_link, deep) {
                    (false, true) => self.folder(&path, deep)?,
                    // A link may lead back.
                    (true, true) => self.links += 1,
                    _ => self.folders += 1,
                }
            } else if path.metadata().is_ok_and(|about| !about.is_file()) {
                self.odd += 1;
            } else {
                self.files.push(path.to_string_lossy().into_owned());
            }
        }
        Ok(())
    }
}
