use std::fs::{create_dir_all, remove_file, File};
use std::os::unix::fs::FileExt;
use std::path::{Path, PathBuf};

/// A file with the number of the case under way. Should a call end the whole process, or never come back, the case is known.
pub struct Mark {
    seed: u64,
    file: File,
    path: PathBuf,
}

impl Mark {
    pub fn new(folder: &Path, seed: u64) -> Result<Mark, String> {
        let path = folder.join(format!("running-{seed}.txt"));
        let made = create_dir_all(folder).and_then(|()| File::create(&path));
        let file = made.map_err(|error| format!("{}: {error}", path.display()))?;
        Ok(Mark { seed, file, path })
    }

    /// The options that print the case. Numbers grow, so that nothing of an earlier one is left.
    pub fn set(&self, number: u64) {
        let text = format!("--seed {} --case {number}\n", self.seed);
        // a search without its mark is still a search
        let _ = self.file.write_all_at(text.as_bytes(), 0);
    }
}

impl Drop for Mark {
    fn drop(&mut self) {
        let _ = remove_file(&self.path);
    }
}
