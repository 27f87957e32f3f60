//! The command `expected`: what the program prints for each example of a folder.

use crate::program::program;
use crate::text::assemble;
use std::fs;
use std::path::{Path, PathBuf};

/// Writes NAME.out for each NAME.txt; answers how many.
pub fn write_expected(examples: &Path, out: &Path) -> Result<usize, String> {
    let said = |path: &Path| {
        let shown = path.display().to_string();
        move |error: std::io::Error| format!("{shown}: {error}")
    };
    let mut texts: Vec<PathBuf> = Vec::new();
    for entry in fs::read_dir(examples).map_err(said(examples))? {
        let path = entry.map_err(said(examples))?.path();
        if path.extension().is_some_and(|extension| extension == "txt") {
            texts.push(path);
        }
    }
    texts.sort();
    fs::create_dir_all(out).map_err(said(out))?;
    for path in &texts {
        let text = fs::read(path).map_err(said(path))?;
        let file = assemble(&String::from_utf8_lossy(&text));
        let file = file.map_err(|error| format!("{}: {error}", path.display()))?;
        let name = path.file_stem().unwrap_or_default();
        let target = out.join(name).with_extension("out");
        fs::write(&target, program(&file)).map_err(said(&target))?;
    }
    Ok(texts.len())
}
