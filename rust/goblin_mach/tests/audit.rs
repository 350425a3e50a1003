//! How images are hardened: each verdict with its words, and on small images yes and no. The images are those of the rows of machinfo.
#![cfg(feature = "signature")]
#[path = "common/words.rs"]
mod words;

use goblin_mach::audit::Verdict::{self, *};
use goblin_mach::audit::security;
use goblin_mach::{Error, MachO};
use words::bytes;

/// A header for x86-64 alone, and one for x86.
const BARE: &str = "cffaedfe 07000001 03000000 02000000 00000000*4";
const BARE_32: &str = "cefaedfe 07000000 03000000 02000000 00000000*4";

/// One segment, with its maximum protection at 88, and its initial one at 92.
const SEGMENT: &str = "
    cffaedfe 07000001 03000000 02000000 01000000 48000000 00000000*2
    19000000 48000000 00000000*16";

/// The segment `__RESTRICT` with a section `__restrict`, whose name begins at 104.
const RESTRICT: &str = "
    cffaedfe 07000001 03000000 02000000 01000000 98000000 00000000*2
    19000000 98000000 5f5f5245535452494354 00*46 01000000 00000000
    5f5f7265737472696374 00*70";

/// A table of one symbol, `___stack_chk_fail`. Its type is at 60, and its name at 73.
const CANARY: &str = "
    cffaedfe 07000001 03000000 02000000 01000000 18000000 00000000*2
    02000000 18000000 38000000 01000000 48000000 00000000
    01000000 01000000 00000000*2 00 5f5f5f737461636b5f63686b5f6661696c 00*2";

const CHAINED: &str = "
    cffaedfe 07000001 03000000 02000000 01000000 10000000 00000000*2
    34000080 10000000 00000000*2";

/// The run paths `/a`, which begins at 44, and `@loader_path`.
const PATHS: &str = "
    cffaedfe 07000001 03000000 02000000 02000000 38000000 00000000*2
    1c000080 18000000 0c000000 2f6100 00*9
    1c000080 20000000 0c000000 406c6f616465725f70617468 00*8";

const ENCRYPTED: &str = "
    cffaedfe 07000001 03000000 02000000 01000000 18000000 00000000*2
    2c000000 18000000 00000000*2 01000000 00000000";

/// A signature: a code directory with its flags at 96, entitlements in XML without keys, and a CMS message of a byte. The slot of the
/// entitlements is at 68; the length of their blob is at 132, and that of the message at 162.
const SIGNED: &str = "
    cffaedfe 0c000001 00000000 02000000 01000000 10000000 00000000*2
    1d000000 10000000 30000000 77000000
    fade0cc0 00000077 00000003 00000000 00000024 00000005 00000050 00010000 0000006e
    fade0c02 0000002c 00020001 00000000 0000002c 00000000*4 14010000 00000000
    fade7171 0000001e 3c706c6973743e3c646963742f3e3c2f706c6973743e
    fade0b01 00000009 30";

/// A code directory, and entitlements in XML: `get-task-allow` is true.
const DEBUGGED: &str = "
    cffaedfe 0c000001 00000000 02000000 01000000 10000000 00000000*2
    1d000000 10000000 30000000 8c000000
    fade0cc0 0000008c 00000002 00000000 0000001c 00000005 00000048
    fade0c02 0000002c 00020001 00000000 0000002c 00000000*4 14010000 00000000
    fade7171 00000044 3c706c6973743e3c646963743e3c6b65793e6765742d7461736b2d616c6c6f773c2f6b65793e
    3c747275652f3e3c2f646963743e3c2f706c6973743e";

/// Bytes of an image with others at some places.
fn changed(image: &str, changes: &[(usize, &str)]) -> Vec<u8> {
    let mut all = bytes(image);
    for (place, change) in changes {
        let change = bytes(change);
        all[*place..place + change.len()].copy_from_slice(&change);
    }
    all
}

/// The answer to a question about an image, which has it once.
fn answer(image: &[u8], verdict: Verdict) -> Result<bool, Error> {
    let image = MachO::parse(image, 0).unwrap();
    let all = if image.is_64 { 18 } else { 19 };
    assert_eq!(security(&image).len(), all);
    let place = security(&MachO::parse(&bytes(BARE_32), 0).unwrap())
        .position(|it| it.unwrap().verdict == verdict)
        .unwrap();
    let finding = security(&image).nth(place - (19 - all)).unwrap()?;
    assert_eq!(finding.verdict, verdict);
    Ok(finding.is_so)
}

#[test]
fn each_has_a_name_and_a_meaning() {
    let image = bytes(BARE_32);
    let image = MachO::parse(&image, 0).unwrap();
    let lines: Vec<String> = security(&image)
        .map(|it| it.unwrap())
        .map(|it| format!("{} {} {}", it.name(), it.is_so, it.meaning()))
        .collect();
    let expected = [
        "no-heap-execution false execution refused on the heap",
        "pie false loaded at a random address",
        "stack-execution false execution allowed on the stack",
        "pointer-authentication false for arm64e, which signs pointers",
        "stack-canary false code that checks its stack by canaries",
        "writable-code false a segment both writable and executable",
        "writable-code-allowed false a segment that may become both",
        "restricted false dyld is to ignore environment variables",
        "chained-fixups false pointers in chains of fixups",
        "relative-run-paths false a run path that begins with neither / nor @",
        "encrypted false a part is encrypted",
        "stripped true no local symbols",
        "signed false a code directory",
        "ad-hoc false signed without an identity",
        "cms false a CMS message, which says who signed",
        "hardened-runtime false started in the hardened runtime",
        "library-validation false only libraries of its team or of the system",
        "entitlements false entitlements in the signature",
        "get-task-allow false debuggers may attach to it",
    ];
    assert_eq!(lines, expected);
}

#[test]
fn header_and_segments() {
    let rows: &[(&str, &[(usize, &str)], Verdict, bool)] = &[
        (BARE, &[], Pie, false),
        (BARE, &[(24, "00002000")], Pie, true),
        (BARE_32, &[(24, "00000001")], NoHeapExecution, true),
        (BARE, &[(24, "00000200")], StackExecution, true),
        (
            BARE,
            &[(4, "0c00000102000080")],
            PointerAuthentication,
            true,
        ),
        (
            BARE,
            &[(4, "0c00000100000080")],
            PointerAuthentication,
            false,
        ),
        (BARE, &[(8, "02")], PointerAuthentication, false),
        (SEGMENT, &[(92, "06")], WritableCode, true),
        (SEGMENT, &[(92, "06")], WritableCodeAllowed, false),
        (SEGMENT, &[(92, "03")], WritableCode, false),
        (SEGMENT, &[(92, "05")], WritableCode, false),
        (SEGMENT, &[(88, "07"), (92, "05")], WritableCode, false),
        (
            SEGMENT,
            &[(88, "07"), (92, "05")],
            WritableCodeAllowed,
            true,
        ),
        (RESTRICT, &[], Restricted, true),
        (RESTRICT, &[(96, "00")], Restricted, false),
        (RESTRICT, &[(40, "5f5f54455854000000")], Restricted, false),
        (RESTRICT, &[(114, "73")], Restricted, false),
    ];
    for (image, changes, verdict, is_so) in rows {
        let image = changed(image, changes);
        assert_eq!(answer(&image, *verdict).unwrap(), *is_so, "{verdict:?}");
    }
}

#[test]
fn symbols_and_commands() {
    let rows: &[(&str, &[(usize, &str)], Verdict, bool)] = &[
        (CANARY, &[], StackCanary, true),
        (CANARY, &[(86, "6775617264 00")], StackCanary, true),
        (CANARY, &[(60, "0d")], StackCanary, true),
        (CANARY, &[(60, "0f01")], StackCanary, false),
        (CANARY, &[(60, "21")], StackCanary, false),
        (CANARY, &[], Stripped, true),
        (CANARY, &[(60, "0e01")], Stripped, false),
        (CHAINED, &[], ChainedFixups, true),
        (PATHS, &[], ChainedFixups, false),
        (PATHS, &[], RelativeRunPaths, false),
        (PATHS, &[(68, "2e")], RelativeRunPaths, true),
        (PATHS, &[(44, "2e"), (68, "2f")], RelativeRunPaths, true),
        (PATHS, &[(68, "2f")], RelativeRunPaths, false),
        (ENCRYPTED, &[], Encrypted, true),
        (ENCRYPTED, &[(48, "00")], Encrypted, false),
    ];
    for (image, changes, verdict, is_so) in rows {
        let image = changed(image, changes);
        assert_eq!(answer(&image, *verdict).unwrap(), *is_so, "{verdict:?}");
    }
}

#[test]
fn signatures() {
    let rows: &[(&str, &[(usize, &str)], Verdict, bool)] = &[
        (BARE, &[], Signed, false),
        (SIGNED, &[], Signed, true),
        (SIGNED, &[], AdHoc, false),
        (SIGNED, &[], Cms, true),
        (SIGNED, &[], HardenedRuntime, false),
        (SIGNED, &[], LibraryValidation, false),
        (SIGNED, &[], Entitlements, true),
        (SIGNED, &[], GetTaskAllow, false),
        (SIGNED, &[(99, "02"), (162, "00000008")], AdHoc, true),
        (SIGNED, &[(99, "02"), (162, "00000008")], Cms, false),
        (SIGNED, &[(97, "01")], HardenedRuntime, true),
        (SIGNED, &[(98, "20")], LibraryValidation, true),
        (SIGNED, &[(71, "06")], Entitlements, false),
        (SIGNED, &[(132, "00000008")], Entitlements, false),
        (SIGNED, &[(76, "00010001")], Cms, false),
        (DEBUGGED, &[], GetTaskAllow, true),
    ];
    for (image, changes, verdict, is_so) in rows {
        let image = changed(image, changes);
        assert_eq!(answer(&image, *verdict).unwrap(), *is_so, "{verdict:?}");
    }
}

#[test]
fn what_cannot_be_read_is_an_error_in_its_place() {
    let image = changed(SIGNED, &[(162, "ffffffff")]);
    let error = answer(&image, Cms).unwrap_err();
    assert_eq!(
        error.to_string(),
        "4294967295 bytes are needed and 9 are left"
    );
    assert!(answer(&image, Entitlements).unwrap());
    let image = changed(SIGNED, &[(48, "00")]);
    let image = MachO::parse(&image, 0).unwrap();
    let refused: Vec<bool> = security(&image).map(|it| it.is_err()).collect();
    assert_eq!(refused, [vec![false; 11], vec![true; 7]].concat());
}
