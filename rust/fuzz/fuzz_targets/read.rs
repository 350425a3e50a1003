//! A target for libFuzzer. It reads an input in all ways, and compares those that must agree. It has libFuzzer's entry itself and needs no
//! package. tools/rust-fuzz links clang's libFuzzer.
#![no_main]

use goblin_mach::archive::Archive;
use goblin_mach::signature::image::{code_signature, signature_faults};
use goblin_mach::write::{Form, create, fat_entries};
use goblin_mach::{Error, LinkView, Mach, MachO, SingleArch, describe, layout, link_view};

/// Returns a result as a text, so that two can be compared.
fn told<T: std::fmt::Debug>(result: Result<T, Error>) -> String {
    match result {
        Ok(item) => format!("{item:?}"),
        Err(error) => format!("refused: {}", describe(&error)),
    }
}

/// How many imports of an input are read, since some bytes may say that there are millions.
const IMPORTS: usize = 50_000;

/// Reads all of an image. Of its symbols it reads some, since a header may say that they are billions. `left` is how many imports may be
/// read. Lists are not built if there are as many or more.
fn image(bytes: &[u8], image: &MachO, left: &mut usize) {
    *left -= image.iter_imports().take(*left).count();
    if *left == 0 {
        return;
    }
    for segment in &image.segments {
        for section in segment.sections().into_iter().flatten() {
            std::hint::black_box(section);
        }
    }
    if let Some(symbols) = &image.symbols {
        for symbol in symbols.iter().take(10_000) {
            let _ = std::hint::black_box(symbol);
        }
    }
    let _ = std::hint::black_box(image.relocations());
    let _ = std::hint::black_box(told(image.imports()));
    let listed = image.exports();
    let walked: Result<Vec<_>, Error> = image.walk_exports().unwrap().into_iter().collect();
    match (&listed, &walked) {
        (Ok(listed), Ok(walked)) => {
            assert_eq!(listed.len(), walked.len());
            for (one, (name, _)) in listed.iter().zip(walked) {
                assert_eq!(one.name, *name);
            }
            if let Some(one) = listed.first() {
                assert!(matches!(image.find_export(&one.name), Ok(Some(_))));
            }
        }
        (Err(one), Err(other)) => {
            assert_eq!(describe(one).to_string(), describe(other).to_string())
        }
        _ => panic!("one way to read exports refuses, and the other doesn't"),
    }
    for fault in &layout::layout_faults(image).unwrap() {
        std::hint::black_box(format!("{fault:?}"));
    }
    if let Ok(Some(signature)) = code_signature(image) {
        std::hint::black_box(&signature);
    }
    if let Ok(Some(faults)) = signature_faults(image) {
        std::hint::black_box(faults.take(1000).count());
    }
    assert_eq!(told(MachO::parse(bytes, 0)), format!("{image:?}"));
}

/// Reads an input.
fn read(bytes: &[u8]) {
    let mut left = IMPORTS;
    match Mach::parse(bytes) {
        Ok(Mach::Binary(one)) => image(bytes, &one, &mut left),
        // A header may say that it has billions of entries, and each is an error or an image.
        Ok(Mach::Fat(file)) => {
            for entry in file.into_iter().take(1000) {
                if let Ok(SingleArch::MachO(one)) = entry {
                    image(one.bytes(), &one, &mut left);
                }
            }
        }
        Err(error) => assert!(!describe(&error).to_string().is_empty()),
    }
    if left == 0 {
        return;
    }
    if let Ok(views) = link_view(bytes) {
        for view in views.into_iter().flatten() {
            if let LinkView::Image { exports, imports } = view {
                std::hint::black_box((exports.len(), imports.len()));
            }
        }
    }
    if let Ok(archive) = Archive::parse(bytes) {
        for member in archive.members().take(1000).flatten() {
            std::hint::black_box(member.bytes);
        }
    }
    // A fat file of an image ends with it, and has one entry.
    if let Ok(made) = create(Form::Bits32, &[bytes]) {
        assert!(fat_entries(Form::Bits32, &made).is_ok());
        if let Ok(Mach::Binary(_)) = Mach::parse(bytes) {
            assert!(made.ends_with(bytes));
        }
    }
}

/// Takes each input of libFuzzer.
#[unsafe(no_mangle)]
extern "C" fn LLVMFuzzerTestOneInput(bytes: *const u8, len: usize) -> i32 {
    // SAFETY: libFuzzer passes an array and its length. The address of no bytes may be anything.
    read(if len == 0 {
        &[]
    } else {
        unsafe { std::slice::from_raw_parts(bytes, len) }
    });
    0
}
