//! `lessons`: each lesson's script through the desk, beside its transcript and its page.

use crate::child::Program;
use crate::page::Page;
use crate::pointers;
use crate::sitting::{sittings, Sitting};
use std::fs;
use std::io::Result;
use std::path::{Path, PathBuf};

/// Every fault is printed. Where asked, transcripts and the answers that the pages show are first written anew.
pub fn lessons(desk: Program, directory: &Path, writes: bool) -> Result<bool> {
    let entries =
        fs::read_dir(directory)?.map(|entry| Ok(entry?.path())).collect::<Result<Vec<PathBuf>>>()?;
    let mut lessons: Vec<PathBuf> = entries.into_iter().filter(|path| path.is_dir()).collect();
    lessons.sort();
    let mut faults = Vec::new();
    for path in &lessons {
        let found = lesson_faults(&desk, path, &directory.join(".."), writes)?;
        faults.extend(found.into_iter().map(|fault| format!("{}: {fault}", path.display())));
    }
    faults.extend(index_faults(directory, &lessons)?);
    faults.iter().for_each(|fault| println!("{fault}"));
    println!("lessons: {} lessons, {} faults", lessons.len(), faults.len());
    Ok(faults.is_empty() && !lessons.is_empty())
}

/// The README at the root: its blocks that begin with a typed line are of the lesson `readme`.
fn lesson_faults(desk: &Program, path: &Path, root: &Path, writes: bool) -> Result<Vec<String>> {
    let sittings = sittings(desk, path, writes)?;
    let mut faults: Vec<String> = sittings.iter().flat_map(Sitting::faults).collect();
    let page = path.join("lesson.md");
    faults.extend(Page::beside(&page, &sittings, |_| true)?.faults(writes)?);
    faults.extend(pointers::faults(&page, root)?);
    if path.ends_with("readme") {
        let opens = |line: &str| sittings.iter().any(|sitting| line.starts_with(&sitting.prompt));
        faults.extend(Page::beside(&root.join("README.md"), &sittings, opens)?.faults(writes)?);
    }
    Ok(faults)
}

/// The index has to name every lesson.
fn index_faults(directory: &Path, lessons: &[PathBuf]) -> Result<Vec<String>> {
    let index = fs::read_to_string(directory.join("README.md"))?;
    let names = lessons.iter().filter_map(|path| path.file_name()?.to_str());
    let missing = names.filter(|name| !index.contains(&format!("`{name}`")));
    Ok(missing.map(|name| format!("lessons/README.md does not name {name}")).collect())
}
