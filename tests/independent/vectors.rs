//! The files of vectors/: writes them anew, and checks that they are what the implementation makes.

use crate::{cases, listings, sheets};
use std::fs;
use std::path::{Path, PathBuf};

/// A folder's files as they should be, and what they have.
struct Folder {
    files: Vec<(PathBuf, String)>,
    has: String,
}

/// The files have the calls, inputs and runs, and get the answers.
fn folders(root: &Path) -> Result<[Folder; 3], String> {
    let mut places = cases::Places::new();
    let case = |file: &str, text: &str| cases::anew(file, text, &mut places);
    Ok([
        made(&root.join("host"), "calls", (7780, "calls"), |_, text| sheets::anew(text))?,
        made(&root.join("program"), "cases", (280, "cases"), case)?,
        made(&root.join("paper"), "run", (1597, "outputs"), |_, text| listings::anew(text))?,
    ])
}

/// The files of a folder with an extension, from their names and texts. What they have is counted,
/// so that nothing gets lost unseen: fewer than so many is an error.
fn made(
    folder: &Path,
    extension: &str,
    (fewest, what): (usize, &str),
    mut anew: impl FnMut(&str, &str) -> Result<(String, usize), String>,
) -> Result<Folder, String> {
    let entries = fs::read_dir(folder).map_err(|error| told(folder, error))?;
    let mut paths = entries.filter_map(|entry| Some(entry.ok()?.path())).collect::<Vec<PathBuf>>();
    paths.retain(|path| path.extension().is_some_and(|of| of == extension));
    paths.sort();
    let (mut files, mut count) = (Vec::new(), 0);
    for path in paths {
        let text = read(&path)?;
        let file = path.file_name().unwrap_or_default().to_string_lossy();
        let (text, more) = anew(&file, &text).map_err(|what| told(&path, what))?;
        files.push((path, text));
        count += more;
    }
    let has = format!("{} files with {count} {what}", files.len());
    match count < fewest {
        true => Err(told(folder, format!("{has}, fewer than {fewest}"))),
        false => Ok(Folder { files, has: told(folder, has) }),
    }
}

fn told(path: &Path, what: impl std::fmt::Display) -> String {
    format!("{}: {what}", path.display())
}

fn read(path: &Path) -> Result<String, String> {
    fs::read_to_string(path).map_err(|error| told(path, error))
}

pub fn write(root: &str) -> Result<(), String> {
    for Folder { files, has } in folders(Path::new(root))? {
        for (path, text) in files {
            fs::write(&path, text).map_err(|error| told(&path, error))?;
        }
        println!("wrote {has}");
    }
    Ok(())
}

pub fn check(root: &str) -> Result<(), String> {
    for Folder { files, has } in folders(Path::new(root))? {
        for (path, made) in files {
            let text = read(&path)?;
            if text != made {
                let lines = text.split('\n').zip(made.split('\n'));
                let place = lines.take_while(|(line, made)| line == made).count();
                let made = made.split('\n').nth(place).unwrap_or("no more lines");
                let line = format!("{}:{}", path.display(), place + 1);
                return Err(format!("{line}: the implementation makes {made}"));
            }
        }
        println!("checked {has}");
    }
    Ok(())
}
