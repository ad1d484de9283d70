//! A temporary folder to run a program in, removed at the end.

use std::fs;
use std::io;
use std::path::{Path, PathBuf};

use independent::tools;

use crate::Stop;

pub struct Folder {
    pub path: PathBuf,
}

impl Folder {
    pub fn new(name: &str) -> Result<Folder, Stop> {
        let path = std::env::temp_dir().join(format!("compare-{name}-{}", std::process::id()));
        fs::create_dir(&path).map_err(|error| failed(&path, error))?;
        Ok(Folder { path })
    }

    /// Just these files, and no others.
    pub fn fill(&self, files: &tools::Folder) -> Result<(), Stop> {
        for name in self.files()?.keys() {
            let path = self.path.join(name);
            fs::remove_file(&path).map_err(|error| failed(&path, error))?;
        }
        for (name, bytes) in files {
            let path = self.path.join(name);
            fs::write(&path, bytes).map_err(|error| failed(&path, error))?;
        }
        Ok(())
    }

    /// The files as they stand.
    pub fn files(&self) -> Result<tools::Folder, Stop> {
        let mut files = tools::Folder::new();
        for entry in fs::read_dir(&self.path).map_err(|error| failed(&self.path, error))? {
            let path = entry.map_err(|error| failed(&self.path, error))?.path();
            let bytes = fs::read(&path).map_err(|error| failed(&path, error))?;
            let name = path.file_name().expect("a file of a folder has a name");
            files.insert(name.to_string_lossy().into_owned(), bytes);
        }
        Ok(files)
    }
}

impl Drop for Folder {
    fn drop(&mut self) {
        // Nothing is lost if it stays: it is a temporary folder.
        let _ = fs::remove_dir_all(&self.path);
    }
}

fn failed(path: &Path, error: io::Error) -> Stop {
    Stop::Failed(format!("{}: {error}", path.display()))
}
