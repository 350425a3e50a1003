//! Where the bound names of a program are found.
use super::image::place_of;
use super::lines::{Lines, ended, error, quoted, word_if};
use super::vector::Vector;
use goblin_mach::resolve::{
    Answer, Given, NamePlace, Note, ResolveFailure, Resolved, all_settled, resolve, resolve_first,
};

/// Where a name is found, or why it isn't, with the libraries that this is about in brackets.
fn place(it: NamePlace) -> String {
    let named = |word: &str, library: &str| format!("{word} ({})", quoted(library));
    match it {
        NamePlace::Found {
            number,
            address,
            is_absolute,
            ..
        } => {
            let how = if is_absolute { "absolute" } else { "at" };
            format!("found in {number} {how} {address:#x}")
        }
        NamePlace::LeadsBack { library } => named("leads-back", library),
        NamePlace::NoLibrary { library } => named("no-library", library),
        NamePlace::Missing { library } => named("missing", library),
        NamePlace::NotGiven {
            library,
            reexported,
        } => format!("not-given ({} {})", quoted(library), quoted(reexported)),
        NamePlace::NotFound => "not-found".to_string(),
        NamePlace::NoMain => "no-main".to_string(),
        _ => panic!("the vectors have no such variant"),
    }
}

fn answer(it: &Answer) -> String {
    format!(
        "answer {} of {} {}{}{}",
        quoted(it.name),
        place_of(it.provider),
        place(it.place),
        word_if(it.is_weak, "weak"),
        word_if(!it.is_settled(), "open")
    )
}

fn unused(it: &Note) -> String {
    match it {
        Note::GivenBefore { library, name } => {
            format!("unused {library} given-before ({})", quoted(name))
        }
        Note::NothingFor { library, cputype } => {
            format!("unused {library} nothing-for {cputype:#x}")
        }
        _ => panic!("the vectors have no such variant"),
    }
}

fn lines(it: &Resolved) -> Lines {
    let mut lines: Lines = it.answers.iter().map(answer).collect();
    if all_settled(&it.answers) == lines.iter().any(|line| line.ends_with(" open")) {
        lines.push("another call differs".to_string());
    }
    lines.extend(it.more.then(|| "limited".to_string()));
    lines.extend(it.notes.iter().map(unused));
    ended(lines)
}

/// The answers for the bindings of a program, as many as a number says, and the files that aren't used.
pub fn resolved(vector: &Vector) -> Lines {
    let given = |path, bytes| Given { path, bytes };
    let libraries: Vec<_> = vector
        .libraries
        .iter()
        .map(|it| given(&*it.0, &*it.1))
        .collect();
    let program = given(&*vector.wanted_name, &*vector.bytes);
    let found = match vector.numbers.first() {
        Some(limit) => resolve_first(limit[0] as usize, program, &libraries),
        None => resolve(program, &libraries),
    };
    match found {
        Ok(found) => lines(&found),
        Err(ResolveFailure::Refused { file, error: why }) => {
            vec![format!("refused {file}"), error(&why)]
        }
        Err(_) => vec!["error no-memory".to_string()],
    }
}
