//! The kept run files: named after what they show.

use crate::kinds::Case;
use std::fs;
use std::io::Result;
use std::path::{Path, PathBuf};

/// Every NAME.csv of the folder by name, with the bytes of NAME.out where it stands beside it. A folder with one such
/// pair has one for every file.
pub fn kept(folder: &Path) -> Result<Vec<Case>> {
    let mut paths = Vec::new();
    for entry in fs::read_dir(folder)? {
        paths.push(entry?.path());
    }
    let ending =
        |path: &PathBuf, wanted: &str| path.extension().is_some_and(|ending| ending == wanted);
    let outs = paths.iter().filter(|path| ending(path, "out")).count();
    let files = paths.iter().filter(|path| ending(path, "csv")).count();
    if files == 0 || (outs > 0 && outs != files) {
        let words = format!(
            "{}: {files} run files and {outs} of their outputs",
            folder.display()
        );
        return Err(std::io::Error::other(words));
    }
    paths.retain(|path| ending(path, "csv"));
    paths.sort();
    paths.iter().map(case).collect()
}

fn case(path: &PathBuf) -> Result<Case> {
    let name = path.file_stem().unwrap_or_default().to_string_lossy();
    let out = path.with_extension("out");
    let expected = if out.exists() {
        Some(fs::read(out)?)
    } else {
        None
    };
    Ok(Case {
        kind: name.to_string(),
        text: fs::read(path)?,
        expected,
        kept: true,
    })
}
