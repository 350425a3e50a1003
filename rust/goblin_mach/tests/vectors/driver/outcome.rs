//! What comes of vectors: how many have the wanted answer, and each difference.
use super::calls::{Answer, answer};
use super::vector::{self, Vector, Want, parse};
use std::collections::BTreeSet;
use std::fmt::{self, Display, Formatter};
use std::path::{Path, PathBuf};
use std::{fs, io};

/// What came of the vectors of some files.
#[derive(Default)]
pub struct Outcome {
    pub vectors: usize,
    pub expected: usize,
    pub left_out: usize,
    /// The calls of the vectors that are left out.
    pub calls_left_out: BTreeSet<String>,
    /// Each difference, with its file and its vector.
    pub differences: Vec<String>,
}

impl Outcome {
    /// Tries the vectors of some files.
    pub fn of(files: &[PathBuf]) -> io::Result<Outcome> {
        let mut outcome = Outcome::default();
        for path in files {
            let name = path.file_name().unwrap_or(path.as_os_str());
            outcome.add(&name.to_string_lossy(), &fs::read_to_string(path)?);
        }
        Ok(outcome)
    }

    /// Tries the vectors of a file's text.
    pub fn add(&mut self, file: &str, text: &str) {
        match parse(text) {
            Ok(vectors) => vectors.iter().for_each(|vector| self.try_one(file, vector)),
            Err(fault) => self
                .differences
                .push(format!("{file}:{}: {}", fault.line, fault.what)),
        }
    }

    fn try_one(&mut self, file: &str, vector: &Vector) {
        self.vectors += 1;
        let difference = match answer(vector) {
            Answer::LeftOut => {
                self.left_out += 1;
                self.calls_left_out.insert(vector.call.clone());
                return;
            }
            Answer::UnknownCall => Some(format!("unknown call '{}'", vector.call)),
            Answer::Lines(lines) => difference(&vector.want, &lines),
        };
        match difference {
            None => self.expected += 1,
            Some(what) => {
                let (line, name) = (vector.line, &vector.name);
                self.differences
                    .push(format!("{file}:{line}: {name}: {what}"));
            }
        }
    }
}

impl Display for Outcome {
    fn fmt(&self, f: &mut Formatter<'_>) -> fmt::Result {
        for difference in &self.differences {
            writeln!(f, "{difference}")?;
        }
        write!(f, "{} vectors, {} as expected", self.vectors, self.expected)?;
        if self.left_out > 0 {
            let calls: Vec<_> = self.calls_left_out.iter().map(String::as_str).collect();
            write!(f, ", {} left out: {}", self.left_out, calls.join(" "))?;
        }
        Ok(())
    }
}

/// The first line that differs, from line `before + 1` on.
fn first_difference(before: usize, want: &[String], got: &[String]) -> Option<String> {
    let index = (0..want.len().max(got.len())).find(|&n| want.get(n) != got.get(n))?;
    let shown = |lines: &[String]| lines.get(index).cloned().unwrap_or("no line".to_string());
    let line = before + index + 1;
    Some(format!(
        "line {line}\n  want {}\n  got  {}",
        shown(want),
        shown(got)
    ))
}

fn difference(want: &Want, got: &[String]) -> Option<String> {
    match want {
        Want::Missing => Some("neither want nor count".to_string()),
        Want::Lines(want) => first_difference(0, want, got),
        Want::Counted { count, first, last } => {
            if got.len() != *count {
                return Some(format!("\n  want {count} lines\n  got  {}", got.len()));
            }
            let start = count - last.len();
            first_difference(0, first, &got[..first.len()])
                .or_else(|| first_difference(start, last, &got[start..]))
        }
    }
}

/// Prints each vector with its answer, for tools/vectors: a line `vector NAME`, and then a line `want LINE` for each line, or
/// `left-out`.
pub fn print_answers(text: &str, out: &mut impl io::Write) -> io::Result<vector::Result<()>> {
    let vectors = match parse(text) {
        Ok(vectors) => vectors,
        Err(fault) => return Ok(Err(fault)),
    };
    for vector in &vectors {
        writeln!(out, "vector {}", vector.name)?;
        match answer(vector) {
            Answer::Lines(lines) => {
                for line in lines {
                    writeln!(out, "want {line}")?;
                }
            }
            Answer::LeftOut => writeln!(out, "left-out")?,
            Answer::UnknownCall => {
                let what = format!("unknown call '{}'", vector.call);
                return Ok(Err(vector::Fault {
                    line: vector.line,
                    what,
                }));
            }
        }
    }
    Ok(Ok(()))
}

/// The files of vectors of the repository, in order; None if the crate isn't in its repository.
pub fn all_files() -> io::Result<Option<Vec<PathBuf>>> {
    let folder = Path::new(env!("CARGO_MANIFEST_DIR")).join("../../vectors");
    if !folder.is_dir() {
        return Ok(None);
    }
    let paths = fs::read_dir(folder)?.map(|entry| Ok(entry?.path()));
    let mut files = paths.collect::<io::Result<Vec<_>>>()?;
    files.retain(|path| path.extension().is_some_and(|end| end == "txt"));
    files.sort();
    Ok(Some(files))
}
