//! The folder of kept cases: inputs that once showed a difference, or were picked by hand. Every run
//! compares them before all others.

use std::collections::BTreeSet;
use std::fs::{self, OpenOptions};
use std::io::{self, Write};
use std::path::{Path, PathBuf};
use std::sync::{Mutex, PoisonError};

use crate::case::Case;

/// The cases of a folder, and where new ones go.
pub struct Kept {
    folder: PathBuf,
    /// The name of the file for new ones.
    file: String,
    lines: Mutex<Lines>,
}

/// Cases as they stand in the files.
#[derive(Clone, Default)]
struct Lines {
    /// Those that were there before.
    old: BTreeSet<String>,
    /// Those of this run.
    new: BTreeSet<String>,
}

/// The folder beside this program's sources.
pub fn own_folder() -> &'static Path {
    Path::new(concat!(env!("CARGO_MANIFEST_DIR"), "/cases"))
}

impl Kept {
    /// The cases of a folder: the lines of its texts that are not empty and do not begin with #.
    pub fn read(folder: &Path, file: String) -> io::Result<Kept> {
        let mut old = BTreeSet::new();
        for entry in fs::read_dir(folder)? {
            let path = entry?.path();
            if path.extension().is_some_and(|own| own == "txt") {
                let text = fs::read_to_string(path)?;
                let lines = text.lines().map(str::trim_end);
                let cases = lines.filter(|line| !line.is_empty() && !line.starts_with('#'));
                old.extend(cases.map(String::from));
            }
        }
        let new = BTreeSet::new();
        Ok(Kept {
            folder: folder.into(),
            file,
            lines: Mutex::new(Lines { old, new }),
        })
    }

    fn lines(&self) -> std::sync::MutexGuard<'_, Lines> {
        self.lines.lock().unwrap_or_else(PoisonError::into_inner)
    }

    /// The cases that were there before this run.
    pub fn old_lines(&self) -> BTreeSet<String> {
        self.lines().old.clone()
    }

    /// The cases that this run has kept.
    pub fn new_lines(&self) -> BTreeSet<String> {
        self.lines().new.clone()
    }

    /// Keeps a case that is not kept yet. Says what was done.
    pub fn keep(&self, case: &Case) -> String {
        let line = case.to_string();
        let mut lines = self.lines();
        if lines.old.contains(&line) || !lines.new.insert(line.clone()) {
            return "a case that is kept".into();
        }
        let path = self.folder.join(&self.file);
        let options = OpenOptions::new().append(true).create(true).open(&path);
        match options.and_then(|mut file| writeln!(file, "{line}")) {
            Ok(()) => format!(
                "kept as a case in differential/cases/{}: with that file committed every run compares it first",
                self.file
            ),
            Err(wrong) => format!("NOT kept as a case in {}: {wrong}", path.display()),
        }
    }
}

#[cfg(test)]
mod tests {
    use super::*;

    #[test]
    fn a_kept_case_is_read_by_the_next_run() {
        let folder = std::env::temp_dir().join(format!("kept-cases-{}", std::process::id()));
        fs::create_dir_all(&folder).expect("a folder");
        fs::write(folder.join("by-hand.txt"), "# meaning\n\nrule-set set=00\n").expect("a file");
        let read = || Kept::read(&folder, "seed-7.txt".into()).expect("cases");
        let (own, other) = (Case::new("rule-set"), Case::new("rule-set"));
        let (own, other) = (own.octets("set", &[0]), other.octets("set", &[1]));
        let kept = read();
        assert_eq!(kept.keep(&own), "a case that is kept");
        assert!(kept.keep(&other).starts_with("kept as a case"));
        assert_eq!(kept.keep(&other), "a case that is kept");
        let both = BTreeSet::from([own.to_string(), other.to_string()]);
        assert_eq!(read().old_lines(), both);
        fs::remove_dir_all(&folder).expect("no folder");
    }
}
