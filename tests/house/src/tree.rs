//! The text of the repository: its crates with their files, and its documents.

use std::collections::BTreeMap;
use std::fs;
use std::io;
use std::path::{Path, PathBuf};

/// A file: its path from the root, and its text.
pub struct File {
    pub path: String,
    pub text: String,
}

impl File {
    /// Its name without folders and ending.
    pub fn stem(&self) -> &str {
        let name = self.path.rsplit('/').next().unwrap_or_default();
        name.split_once('.').map_or(name, |(stem, _)| stem)
    }
}

/// A crate: its folder's files by path within the crate.
pub struct Crate {
    pub name: String,
    pub files: BTreeMap<String, File>,
}

impl Crate {
    /// The files in one of its folders with this ending.
    pub fn within<'a>(&'a self, folder: &'a str, ending: &'a str) -> impl Iterator<Item = &'a File> {
        let inside = move |path: &&String| path.starts_with(folder) && path.ends_with(ending);
        self.files.iter().filter(move |(path, _)| inside(path)).map(|(_, file)| file)
    }

    pub fn is_library(&self) -> bool {
        self.files.contains_key("src/lib.rt")
    }
}

pub struct Tree {
    pub root: PathBuf,
    pub crates: Vec<Crate>,
    pub documents: Vec<File>,
    /// Names of the edits of tests/wrong, and of the files of tests/ and examples/.
    pub others: Vec<String>,
}

impl Tree {
    pub fn read(root: &Path) -> io::Result<Tree> {
        let mut crates = Vec::new();
        for line in fs::read_to_string(root.join("crates.txt"))?.lines() {
            let Some((name, _)) = line.split('#').next().unwrap_or_default().split_once(':') else {
                continue;
            };
            // Behind a name may stand what kind of crate it is.
            let name = name.split_whitespace().next().unwrap_or_default();
            let folder = root.join("crates").join(name);
            let mut files = BTreeMap::new();
            for path in paths(&folder)? {
                let within = relative(&folder, &path);
                let text = fs::read_to_string(&path).unwrap_or_default();
                files.insert(within, File { path: relative(root, &path), text });
            }
            crates.push(Crate { name: name.into(), files });
        }
        let mut documents = Vec::new();
        for path in paths(&root.join("docs"))? {
            documents.push(File { path: relative(root, &path), text: fs::read_to_string(&path)? });
        }
        let mut others = Vec::new();
        for folder in ["tests", "examples"] {
            for path in paths(&root.join(folder))? {
                others.push(relative(root, &path));
            }
        }
        Ok(Tree { root: root.into(), crates, documents, others })
    }
}

/// Every file below a folder but what the toolchains make.
fn paths(folder: &Path) -> io::Result<Vec<PathBuf>> {
    let mut found = Vec::new();
    for entry in fs::read_dir(folder)? {
        let path = entry?.path();
        if path.is_dir() {
            if !path.ends_with("target") && !path.ends_with("out") {
                found.extend(paths(&path)?);
            }
        } else {
            found.push(path);
        }
    }
    found.sort();
    Ok(found)
}

fn relative(root: &Path, path: &Path) -> String {
    path.strip_prefix(root).unwrap_or(path).to_string_lossy().into_owned()
}
