//! Where the bound names of a program are found. The images are those of the stored run of machresolve, and the answers are its lines.
#![cfg(feature = "resolve")]

use goblin_mach::resolve::{
    Answer, Given, NamePlace, Note, ResolveFailure, all_settled, resolve, resolve_first,
};
use goblin_mach::{Error, Provider};

const P: &[u8] = include_bytes!("data/p.macho");
const L: &[u8] = include_bytes!("data/l.macho");
const M: &[u8] = include_bytes!("data/m.macho");
const SELF: &[u8] = include_bytes!("data/self.macho");

/// What machresolve prints for these images, below its heading.
const LINES: &str = "\
_direct L 0x1234
_absolute L absolute 0x99
_thread L 0x50
_renamed L 0x20 in M
_missing L missing
_missing L weak, missing
_round L leads back
_round L leads back
_stub M 0x40
_far N no library
_far N weak, no library
_lost L no library N
_lost_weak L no library W
_gone W weak, no library
_here self 0x7
_direct L.debug no library
_own this-image 0x70
_again this-image 0x1234 in L
_none this-image missing in p.macho
";

fn given<'a>(path: &'a str, bytes: &'a [u8]) -> Given<'a> {
    Given { path, bytes }
}

fn libraries() -> [Given<'static>; 3] {
    [
        given("l.macho", L),
        given("m.macho", M),
        given("self.macho", SELF),
    ]
}

/// Some words and a file, unless it is the provider.
fn other(is_provider: bool, words: &str, file: &str) -> String {
    if is_provider {
        String::new()
    } else {
        format!("{words}{file}")
    }
}

/// The place of a name as machresolve prints it after its provider.
fn place(provider: Provider<'_>, place: NamePlace<'_>) -> String {
    let is_library =
        |library: &str| matches!(provider, Provider::Library { name, .. } if name == library);
    match place {
        NamePlace::Found {
            number,
            file,
            address,
            is_absolute,
        } => {
            let is_own = provider == Provider::Itself && number == 0;
            let absolute = if is_absolute { "absolute " } else { "" };
            let other = other(is_own || is_library(file), " in ", file);
            format!("{absolute}{address:#x}{other}")
        }
        NamePlace::LeadsBack { library } => {
            format!("leads back{}", other(is_library(library), " to ", library))
        }
        NamePlace::NoLibrary { library } => {
            format!("no library{}", other(is_library(library), " ", library))
        }
        NamePlace::Missing { library } => {
            format!("missing{}", other(is_library(library), " in ", library))
        }
        other => format!("{other:?}"),
    }
}

/// An answer as machresolve prints it.
fn line(answer: &Answer<'_>) -> String {
    let provider = match answer.provider {
        Provider::Library { name, .. } => name,
        Provider::Itself => "this-image",
        other => panic!("{other:?}"),
    };
    let is_found = matches!(
        answer.place,
        NamePlace::Found { .. } | NamePlace::LeadsBack { .. }
    );
    let weak = if answer.is_weak && !is_found {
        "weak, "
    } else {
        ""
    };
    let place = place(answer.provider, answer.place);
    format!("{} {provider} {weak}{place}\n", answer.name)
}

#[test]
fn answers_are_those_of_the_program() {
    let resolved = resolve(given("p.macho", P), &libraries()).unwrap();
    let lines: String = resolved.answers.iter().map(line).collect();
    assert_eq!(lines, LINES);
    assert!(!resolved.more);
    assert!(resolved.notes.is_empty());
    assert!(!all_settled(&resolved.answers));
    assert!(resolved.answers[0].is_settled());
    assert_eq!(resolved, resolved.clone());
}

#[test]
fn limit_cuts_the_answers() {
    let all = resolve(given("p.macho", P), &libraries()).unwrap();
    let some = resolve_first(4, given("p.macho", P), &libraries()).unwrap();
    assert_eq!(some.answers, all.answers[..4]);
    assert!(some.more);
    assert!(all_settled(&some.answers));
}

#[test]
fn library_is_used_once() {
    let twice = [given("l.macho", L), given("l.macho", L)];
    let resolved = resolve(given("p.macho", P), &twice).unwrap();
    assert_eq!(
        resolved.notes,
        [Note::GivenBefore {
            library: 2,
            name: "L"
        }]
    );
}

#[test]
fn file_is_refused_by_its_number() {
    let failure = resolve(
        given("p.macho", P),
        &[given("l.macho", L), given("x", b"x")],
    );
    assert!(matches!(
        failure,
        Err(ResolveFailure::Refused { file: 2, .. })
    ));
    let failure = failure.unwrap_err();
    assert!(failure.to_string().starts_with("library 2: "));
    let Err(ResolveFailure::Refused { file: 0, error }) = resolve(given("x", b"!<arch>\n"), &[])
    else {
        panic!("no refusal of the program");
    };
    assert!(!matches!(error, Error::Memory(_)));
}
