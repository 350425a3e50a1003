//! Tries the vectors of the repository on this crate, and the driver on vectors that are wrong.
mod driver;

use driver::vector::{Vector, parse};
use driver::{Outcome, all_files, print_answers};
use goblin_mach::{Error, MachO, Result};

#[test]
fn all_as_expected() {
    let Some(files) = all_files().unwrap() else {
        println!("no vectors here");
        return;
    };
    let outcome = Outcome::of(&files).unwrap();
    println!("{outcome}");
    assert!(outcome.vectors > 0);
    assert!(outcome.differences.is_empty(), "\n{outcome}");
}

// Vectors of chained fixups that end with `error malformed`, which says no more, and the reason that this crate gives.
const REASONS: &[(&str, &str)] = &[
    (
        "fixups of chains, starts too short for the second",
        "the starts of a page are past those of its segment",
    ),
    (
        "fixups of chains, a start in an earlier pointer",
        "a chain starts before the end of an earlier one",
    ),
    (
        "fixups of chains, starts over each other",
        "starts of a segment begin before the end of earlier ones",
    ),
    (
        "fixups of chains, segments over each other",
        "a segment with chains begins before the end of an earlier one",
    ),
    (
        "fixups of chains, addresses past 64 bits",
        "a fixup's address does not fit in 64 bits",
    ),
    (
        "bindings of chains, a sum of addends past 64 bits",
        "a bind's addend does not fit in 64 bits",
    ),
];

/// Returns the reason that ends the fixups, or the bindings, of a vector.
fn reason(vector: &Vector) -> Option<&'static str> {
    fn last<T>(items: impl Iterator<Item = Result<T>>) -> Option<&'static str> {
        match items.last()? {
            Err(Error::Malformed(reason)) => Some(reason),
            _ => None,
        }
    }
    let image = MachO::parse(&vector.bytes, vector.offset).ok()?;
    match vector.call.as_str() {
        "fixups" => last(image.fixups()),
        _ => last(image.bindings()),
    }
}

#[test]
fn reasons_of_chained_fixups() {
    let files = all_files().unwrap().unwrap_or_default();
    let Some(file) = files.iter().find(|file| file.ends_with("fixups.txt")) else {
        println!("no vectors here");
        return;
    };
    let vectors = parse(&std::fs::read_to_string(file).unwrap()).unwrap_or_default();
    for (name, want) in REASONS {
        let vector = vectors.iter().find(|vector| vector.name == *name);
        assert_eq!(vector.and_then(reason), Some(*want), "{name}");
    }
}

/// An image of 64 bits without commands.
const BYTES: &str = "bytes cffaedfe 07000001 03000000 02000000 00*16";

fn tried(text: &str) -> Outcome {
    let mut outcome = Outcome::default();
    outcome.add("f", text);
    outcome
}

/// Tries a vector of the image that has these lines, after another vector and an empty line, which take five lines.
fn differences(lines: &str) -> Vec<String> {
    let good = format!("vector good\ncall mach\n{BYTES}\nwant image\n");
    let outcome = tried(&format!("{good}\nvector v\n{BYTES}\n{lines}"));
    outcome.differences
}

#[test]
fn an_answer_as_expected() {
    let lines = "call commands\nwant end\n";
    assert_eq!(differences(lines), [""; 0]);
    let outcome = tried(&format!("vector v\n{BYTES}\n{lines}"));
    assert_eq!(outcome.to_string(), "1 vectors, 1 as expected");
    assert_eq!(
        differences("call commands\ncount 1\nfirst end\nlast end\n"),
        [""; 0]
    );
}

#[test]
fn a_wrong_want() {
    for (lines, difference) in [
        (
            "call mach\nwant archive\n",
            "line 1\n  want archive\n  got  image",
        ),
        (
            "call mach\nwant image\nwant end\n",
            "line 2\n  want end\n  got  no line",
        ),
        (
            "call commands\nwant error malformed\n",
            "line 1\n  want error malformed\n  got  end",
        ),
        ("call commands\ncount 2\n", "\n  want 2 lines\n  got  1"),
        (
            "call commands\ncount 1\nlast image\n",
            "line 1\n  want image\n  got  end",
        ),
        ("call mach\n", "neither want nor count"),
        ("call machs\nwant image\n", "unknown call 'machs'"),
    ] {
        assert_eq!(differences(lines), [format!("f:6: v: {difference}")]);
    }
}

#[test]
fn a_call_that_the_crate_has_not() {
    let outcome = tried("vector v\ncall platform-names\nnumber 1\nwant 0x1 MACOS\nwant end\n");
    assert_eq!(
        outcome.to_string(),
        "1 vectors, 0 as expected, 1 left out: platform-names"
    );
}

#[test]
fn what_the_format_does_not_allow() {
    for (line, difference) in [
        ("wants image", "9: unknown key 'wants'"),
        ("want image\ncount 1", "10: both want and count"),
        ("first image", "6: no count"),
        (
            "count 1\nfirst image\nfirst end",
            "9: fewer lines than first or last ones",
        ),
        ("bytes 012", "9: '012' isn't pairs of digits"),
        ("bytes 0g", "9: '0g' isn't pairs of digits"),
        ("bytes 00*-1", "9: '-1' is no number"),
        ("change 0 12", "9: a change outside of the bytes"),
        ("cut 1", "9: a cut after the end of the image"),
        ("image a", "9: no image 'a'"),
        ("mode loose", "9: unknown mode 'loose'"),
        ("offset +1", "9: '+1' is no number"),
        ("part 1 2 3 4", "9: not 5 numbers"),
        ("library a", "9: no image ''"),
        ("library a b", "9: no image 'b'"),
        ("name \\x4", "9: a backslash without x and two digits"),
        ("name \\xff", "9: a name that isn't UTF-8"),
        ("number 1 2", "9: not 1 numbers"),
        ("call walk", "9: a second call"),
        ("want \u{e9}", "9: a line that isn't ASCII, or ends with CR"),
        (
            "want image\r",
            "9: a line that isn't ASCII, or ends with CR",
        ),
        ("\nwant image", "10: a block begins with 'want'"),
        ("\nimage i\nwant image", "11: an image has no want"),
        ("\nimage i\n\nimage i", "12: a second image 'i'"),
        ("\nvector w", "10: no call"),
        ("\nvector w\ncall find", "10: no name"),
        ("\nvector w\ncall requirement", "10: no number"),
        ("\nvector w\ncall cpu-names\nnumber 1", "12: not 2 numbers"),
    ] {
        let found = differences(&format!("call mach\n{line}\n"));
        assert_eq!(found, [format!("f:{difference}")], "{line}");
    }
    assert_eq!(
        differences("call mach\nwant image"),
        ["f:9: a last line without LF"]
    );
}

#[test]
fn answers_as_they_are_printed() {
    let text = format!("vector a\ncall mach\n{BYTES}\n\nvector b\ncall cpu-names\nnumber 7 3\n");
    let mut out = Vec::new();
    print_answers(&text, &mut out).unwrap().unwrap();
    assert_eq!(
        String::from_utf8(out).unwrap(),
        "vector a\nwant image\nvector b\nleft-out\n"
    );
    let fault = print_answers("vector a\ncall machs\n", &mut Vec::new())
        .unwrap()
        .unwrap_err();
    assert_eq!(
        (fault.line, fault.what.as_str()),
        (1, "unknown call 'machs'")
    );
}
