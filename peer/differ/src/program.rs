//! A `simulate` program, run in a folder of its own.

use std::fs;
use std::path::{Path, PathBuf};
use std::process::{Command, Stdio};

use cases::{Outcome, Texts};
use model::File;

pub struct Program {
    path: PathBuf,
    folder: PathBuf,
}

impl Program {
    pub fn new(path: &Path) -> Result<Program, String> {
        let path = fs::canonicalize(path).map_err(|error| format!("{}: {error}", path.display()))?;
        let folder = std::env::temp_dir().join(format!("figwimple-differ-{}", std::process::id()));
        fs::create_dir_all(&folder).map_err(|error| format!("{}: {error}", folder.display()))?;
        Ok(Program { path, folder })
    }

    /// What the program writes to standard output for the texts.
    pub fn outcome(&self, texts: &Texts) -> Outcome {
        for (file, text) in File::ALL.iter().zip(&texts.0) {
            let path = self.folder.join(file.name());
            match text {
                Some(text) => fs::write(&path, text).expect("a text can be written"),
                None => drop(fs::remove_file(&path)),
            }
        }
        let output = Command::new(&self.path)
            .current_dir(&self.folder)
            .stdin(Stdio::null())
            .stderr(Stdio::inherit())
            .output()
            .expect("the program can be run");
        Outcome::Output(output.stdout)
    }
}

impl Drop for Program {
    fn drop(&mut self) {
        let _ = fs::remove_dir_all(&self.folder);
    }
}
