//! Where a lesson's page says to look: at its end, `names` in `file`, and the file has to define each of the names.

use std::fs;
use std::io::Result;
use std::path::Path;

const HEADING: &str = "**Where to look.**";
/// Words that may stand before the name that a line defines.
const BEFORE: [&str; 8] = ["unfoldable", "abbrev", "pub", "data", "record", "const", "extern", "fn"];

pub fn faults(page: &Path, root: &Path) -> Result<Vec<String>> {
    let text = fs::read_to_string(page)?;
    let Some((_, end)) = text.split_once(HEADING) else {
        return Ok(vec![format!("{} does not say where to look", page.display())]);
    };
    let mut faults: Vec<String> =
        end.split("\n- ").skip(1).flat_map(|item| item_faults(item, root)).collect();
    if !end.contains("/must-fail/") {
        faults.push(format!("{} names no edit that must fail", page.display()));
    }
    Ok(faults)
}

/// Of the words in backquotes one with a slash is a file; those before it are names, and stand in it.
fn item_faults(item: &str, root: &Path) -> Vec<String> {
    let (mut faults, mut names) = (Vec::new(), Vec::new());
    for word in item.split('`').skip(1).step_by(2) {
        if !word.contains('/') {
            names.push(word);
            continue;
        }
        match fs::read_to_string(root.join(word)) {
            Ok(text) => {
                let missing = names.iter().filter(|name| !text.lines().any(|line| defines(line, name)));
                faults.extend(missing.map(|name| format!("{word} does not define {name}")));
            }
            Err(_) => faults.push(format!("there is no {word}")),
        }
        names.clear();
    }
    faults.extend(names.iter().map(|name| format!("{name} is named in no file")));
    faults
}

fn defines(line: &str, name: &str) -> bool {
    line.split_whitespace().find(|word| !BEFORE.contains(word)).is_some_and(|word| {
        word.strip_prefix(name).is_some_and(|rest| rest.is_empty() || rest.starts_with(['(', ':', '<']))
    })
}
