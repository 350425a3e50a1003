//! What dyld does with an image: exports, imports, bindings, rebases and fixups.
use super::image::place_of;
use super::lines::{Lines, error, found, list, quoted, whole, word_if};
use super::vector::Vector;
use goblin_mach::chained_fixups::{Fixup, FixupKind, PointerAuth};
use goblin_mach::exports::ExportInfo;
use goblin_mach::imports::Import;
use goblin_mach::{Binding, MachO, Rebase, RebaseKind, WeakBind};

fn export(name: &str, info: &ExportInfo) -> String {
    let what = match info {
        ExportInfo::Regular { address, flags } => format!("at {address:#x} flags {flags:#x}"),
        ExportInfo::Reexport {
            lib,
            lib_symbol_name,
            flags,
        } => {
            let other = lib_symbol_name.map_or(String::new(), |it| format!(" as {}", quoted(it)));
            format!("of {}{other} flags {flags:#x}", quoted(lib))
        }
        ExportInfo::Stub {
            stub_offset,
            resolver_offset,
            flags,
        } => {
            let [stub, resolver] = [*stub_offset, *resolver_offset].map(u64::from);
            format!("stub {stub:#x} resolver {resolver:#x} flags {flags:#x}")
        }
    };
    format!("export {} {what}", quoted(name))
}

pub fn exports(image: &MachO) -> Lines {
    whole(image.exports(), |it| export(&it.name, &it.info))
}

pub fn walk(image: &MachO) -> Lines {
    match image.walk_exports() {
        Ok(walk) => list(walk.into_iter(), |(name, info)| export(&name, &info)),
        Err(why) => vec![error(&why)],
    }
}

pub fn find(image: &MachO, vector: &Vector) -> Lines {
    let name = &vector.wanted_name;
    found(image.find_export(name), |info| export(name, &info))
}

fn import(it: Import) -> String {
    format!(
        "import {} of {} at {:#x} {:#x} size {} addend {} start {}{}{}",
        quoted(it.name),
        quoted(it.dylib),
        it.address,
        it.offset,
        it.size,
        it.addend,
        it.start_of_sequence_offset,
        word_if(it.is_weak, "weak"),
        word_if(it.is_lazy, "lazy")
    )
}

pub fn imports(image: &MachO) -> Lines {
    whole(image.imports(), import)
}

pub fn iter_imports(image: &MachO) -> Lines {
    list(image.iter_imports(), import)
}

fn binding(it: Binding) -> String {
    format!(
        "binding {} of {} at {:#x} {:#x} addend {}{}{}",
        quoted(it.name),
        place_of(it.provider),
        it.address,
        it.offset,
        it.addend,
        word_if(it.is_weak, "weak"),
        word_if(it.is_lazy, "lazy")
    )
}

pub fn bindings(image: &MachO) -> Lines {
    list(image.bindings(), binding)
}

pub fn weak_binds(image: &MachO) -> Lines {
    list(image.weak_binds(), |it| match it {
        WeakBind::Strong { name } => format!("strong {}", quoted(name)),
        WeakBind::Bind(it) => binding(it),
    })
}

/// How a pointer is signed, if it is.
fn signed(auth: Option<PointerAuth>) -> String {
    auth.map_or(String::new(), |it| {
        let by_address = word_if(it.is_address_diverse, "by-address");
        format!(" key {} diversity {}{by_address}", it.key, it.diversity)
    })
}

fn rebase(it: Rebase) -> String {
    let kind = match it.kind {
        RebaseKind::Pointer => "pointer",
        RebaseKind::TextAbsolute32 => "absolute32",
        RebaseKind::TextRelative32 => "relative32",
    };
    format!(
        "rebase {kind} at {:#x} segment {} offset {:#x} target {:#x}{}",
        it.address,
        it.segment,
        it.offset,
        it.target,
        signed(it.auth)
    )
}

pub fn rebases(image: &MachO) -> Lines {
    list(image.rebases(), rebase)
}

fn fixup(it: Fixup) -> String {
    let what = match it.kind {
        FixupKind::Rebase { target } => format!("rebase {target:#x}"),
        FixupKind::Bind { import, addend } => format!("bind {import} addend {addend}"),
        FixupKind::Value { value } => format!("value {value:#x}"),
        _ => panic!("the vectors have no such variant"),
    };
    let (address, segment, offset) = (it.address, it.segment, it.offset);
    format!(
        "{what} at {address:#x} segment {segment} offset {offset:#x}{}",
        signed(it.auth)
    )
}

pub fn fixups(image: &MachO) -> Lines {
    list(image.fixups(), fixup)
}
