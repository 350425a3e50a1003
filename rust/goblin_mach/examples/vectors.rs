//! Tries files of vectors on this crate, or answers their vectors.
//!
//! - `cargo run --example vectors -- FILE..` prints each difference, and how many vectors are as expected; without a file,
//!   those of all files of the repository.
//! - `cargo run --example vectors -- --answer FILE..` prints each vector with its answer: a line `vector NAME`, and then a
//!   line `want LINE` for each line, or `left-out`.
#[path = "../tests/vectors/driver/mod.rs"]
mod driver;

use driver::{Outcome, all_files, print_answers};
use std::io::{self, BufWriter, Write};
use std::path::PathBuf;
use std::process::ExitCode;
use std::{env, fs};

fn check(files: &[PathBuf]) -> io::Result<ExitCode> {
    let outcome = Outcome::of(files)?;
    println!("{outcome}");
    Ok(if outcome.differences.is_empty() {
        ExitCode::SUCCESS
    } else {
        ExitCode::FAILURE
    })
}

fn answer(files: &[PathBuf]) -> io::Result<ExitCode> {
    let mut out = BufWriter::new(io::stdout().lock());
    for file in files {
        let Err(fault) = print_answers(&fs::read_to_string(file)?, &mut out)? else {
            continue;
        };
        eprintln!("{}:{}: {}", file.display(), fault.line, fault.what);
        return Ok(ExitCode::FAILURE);
    }
    out.flush()?;
    Ok(ExitCode::SUCCESS)
}

fn main() -> io::Result<ExitCode> {
    let mut files: Vec<PathBuf> = env::args_os().skip(1).map(PathBuf::from).collect();
    if files.is_empty() {
        return check(&all_files()?.unwrap_or_default());
    }
    if files[0].as_os_str() == "--answer" {
        return answer(&files.split_off(1));
    }
    check(&files)
}
