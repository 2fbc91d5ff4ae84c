//! The kept cases: scripts with the answers that the paper gives.
//!
//! `NAME.txt` is a script and `NAME.out` its answers, one a line and written
//! by hand from the documents. In the answers a line that begins with `#` says
//! why they are so and is not compared.

use std::io;
use std::path::{Path, PathBuf};

use crate::coverage::Coverage;
use crate::script::Script;

pub struct Case {
    pub name: String,
    pub script: Script,
    /// Each answer with the place of its line in the script.
    pub answers: Vec<(usize, Vec<u8>)>,
}

/// Where the cases lie unless another place is named.
pub fn default_place() -> PathBuf {
    Path::new(env!("CARGO_MANIFEST_DIR")).join("cases")
}

/// All cases of a folder, by name.
pub fn load(folder: &Path) -> io::Result<Vec<Case>> {
    let mut scripts = Vec::new();
    for entry in std::fs::read_dir(folder)? {
        let path = entry?.path();
        if path.extension().is_some_and(|extension| extension == "txt") {
            scripts.push(path);
        }
    }
    scripts.sort();
    scripts.iter().map(|path| load_one(path)).collect()
}

fn load_one(path: &Path) -> io::Result<Case> {
    let name = path.file_stem().unwrap_or_default().to_string_lossy().into_owned();
    let script = Script::from_bytes(&std::fs::read(path)?);
    let out = std::fs::read(path.with_extension("out"))?;
    let answers: Vec<Vec<u8>> = Script::from_bytes(&out)
        .lines
        .into_iter()
        .filter(|line| !line.is_empty() && line[0] != b'#')
        .collect();
    // Which lines are answered at all follows from the lines alone.
    let answered: Vec<usize> = script
        .lines
        .iter()
        .enumerate()
        .filter(|(_, line)| !line.is_empty() && line[0] != b'#')
        .map(|(place, _)| place)
        .collect();
    if answered.len() != answers.len() {
        return Err(io::Error::other(format!(
            "case {name}: {} lines to be answered, {} answers",
            answered.len(),
            answers.len()
        )));
    }
    Ok(Case { name, script, answers: answered.into_iter().zip(answers).collect() })
}

impl Case {
    /// The first line on which the reference differs from the kept answer:
    /// line, kept answer, reference's answer.
    pub fn reference_differs(&self, coverage: &mut Coverage) -> Option<(usize, String, String)> {
        let answers = coverage.answer(&self.script);
        let text = |bytes: &[u8]| String::from_utf8_lossy(bytes).into_owned();
        self.answers
            .iter()
            .zip(&answers)
            .find(|(kept, found)| kept != found)
            .map(|(kept, found)| (kept.0, text(&kept.1), text(&found.1)))
    }
}
