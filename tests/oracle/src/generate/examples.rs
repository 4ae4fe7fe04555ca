//! The project's example packages, which other programs made.

use crate::generate::draft::Draft;
use crate::package::read;
use std::fs;

/// Every `.pkg` file of a directory, by name, as a draft. A file that does not read is an error.
pub fn examples(directory: &str) -> Result<Vec<Draft>, String> {
    let entries = fs::read_dir(directory).map_err(|error| format!("{directory}: {error}"))?;
    let mut paths: Vec<_> = entries.filter_map(|entry| entry.ok().map(|entry| entry.path())).collect();
    paths.retain(|path| path.extension().is_some_and(|extension| extension == "pkg"));
    paths.sort();
    if paths.is_empty() {
        return Err(format!("{directory}: no packages"));
    }
    let draft = |path: &std::path::PathBuf| {
        let bytes = fs::read(path).map_err(|error| format!("{}: {error}", path.display()))?;
        let package = read(&bytes).map_err(|refusal| format!("{}: {refusal:?}", path.display()))?;
        let draft = Draft::of_package(&package);
        if draft.text() == bytes {
            Ok(draft)
        } else {
            Err(format!("{}: written again it differs", path.display()))
        }
    };
    paths.iter().map(draft).collect()
}
