//! The cases: files NAME.in and NAME.out in the folders `cases`, `host-cases`, `print-cases` and `stat-cases`.

use crate::runner::Form;
use std::fs;
use std::io;
use std::path::Path;

pub struct Case {
    pub name: String,
    pub form: Form,
    pub input: Vec<u8>,
    pub expected: Vec<u8>,
}

/// Every case of the folders, by name.
pub fn all() -> io::Result<Vec<Case>> {
    let home = Path::new(env!("CARGO_MANIFEST_DIR"));
    let mut cases = folder(&home.join("cases"), Form::Synrun)?;
    cases.extend(folder(&home.join("host-cases"), Form::Host)?);
    cases.extend(folder(&home.join("print-cases"), Form::Print)?);
    cases.extend(folder(&home.join("stat-cases"), Form::Stat)?);
    Ok(cases)
}

fn folder(folder: &Path, form: Form) -> io::Result<Vec<Case>> {
    let mut cases = Vec::new();
    for entry in fs::read_dir(folder)? {
        let path = entry?.path();
        if path.extension().is_some_and(|extension| extension == "in") {
            let name = path.file_stem().unwrap_or_default().to_string_lossy().into_owned();
            let expected = fs::read(path.with_extension("out"))?;
            cases.push(Case { name, form, input: fs::read(&path)?, expected });
        }
    }
    cases.sort_by(|left, right| left.name.cmp(&right.name));
    Ok(cases)
}
