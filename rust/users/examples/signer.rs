//! What a signer does: it reads and writes load commands in place by scroll, and looks into the signature.
use goblin::container::{Container, Ctx, Endian};
use goblin::mach::header::Header;
use goblin::mach::load_command::*;
use goblin::mach::MachO;
use scroll::ctx::SizeWith;
use scroll::{Pread, Pwrite, BE};
use std::{env, fs};

type Any = Box<dyn std::error::Error>;

const SUPER_BLOB: u32 = 0xfade_0cc0;

fn context(image: &MachO) -> Ctx {
    let container = if image.is_64 { Container::Big } else { Container::Little };
    Ctx::new(container, Endian::from(image.little_endian))
}

fn signature(image: &MachO) -> Option<LinkeditDataCommand> {
    image.load_commands.iter().find_map(|command| match command.command {
        CommandVariant::CodeSignature(found) => Some(found),
        _ => None,
    })
}

fn show_blobs(image: &MachO, place: &LinkeditDataCommand) -> Result<(), Any> {
    let Some(linkedit) = image.segments.iter().find(|segment| matches!(segment.name(), Ok("__LINKEDIT"))) else {
        return Ok(println!("no __LINKEDIT"));
    };
    let start = place.dataoff as usize - linkedit.fileoff as usize;
    let signed = &linkedit.data[start..start + place.datasize as usize];
    let mut at = 0;
    let magic: u32 = signed.gread_with(&mut at, BE)?;
    let length: u32 = signed.gread_with(&mut at, BE)?;
    let count: u32 = signed.gread_with(&mut at, BE)?;
    println!("super blob {} length {length} count {count}", magic == SUPER_BLOB);
    for _ in 0..count.min(100) {
        let slot: u32 = signed.gread_with(&mut at, BE)?;
        let offset: u32 = signed.gread_with(&mut at, BE)?;
        println!("slot {slot:#x} magic {:#x}", signed.pread_with::<u32>(offset as usize, BE)?);
    }
    Ok(())
}

// Grows __LINKEDIT by 16 pages, and moves the command's end of the signature, as a signer does before it writes one.
fn grow(image: &MachO, bytes: &mut [u8]) -> Result<usize, Any> {
    let (ctx, mut written) = (context(image), 0);
    for command in &image.load_commands {
        match command.command {
            CommandVariant::Segment64(mut segment) if segment.name()? == "__LINKEDIT" => {
                segment.vmsize += 0x10000;
                segment.filesize += 0x10000;
                written += bytes.pwrite_with(segment, command.offset, ctx.le)?;
            }
            CommandVariant::Segment32(mut segment) if segment.name()? == "__LINKEDIT" => {
                segment.vmsize += 0x10000;
                written += bytes.pwrite_with(&segment, command.offset, ctx.le)?;
            }
            CommandVariant::CodeSignature(_) => {
                let mut place: LinkeditDataCommand = bytes.pread_with(command.offset, ctx.le)?;
                place.datasize += 0x10000;
                bytes.pwrite_with(place, command.offset, ctx.le)?;
                let size_field = command.offset + LinkeditDataCommand::size_with(&ctx.le) - 4;
                assert_eq!(bytes.pread_with::<u32>(size_field, ctx.le)?, place.datasize);
                written += 4;
            }
            _ => {}
        }
    }
    Ok(written)
}

// A command more in the header: its count, and the size of all commands.
fn count_up(image: &MachO, bytes: &mut [u8]) -> Result<(), Any> {
    let ctx = context(image);
    let mut header: Header = bytes.pread_with(0, ctx)?;
    header.ncmds += 1;
    header.sizeofcmds += LinkeditDataCommand::size_with(&ctx.le) as u32;
    let end = Header::size_with(&ctx) + image.header.sizeofcmds as usize;
    let command = LinkeditDataCommand { cmd: LC_CODE_SIGNATURE, cmdsize: 16, dataoff: 0x1000, datasize: 0x100 };
    if bytes.pwrite_with(command, end, ctx.le).is_ok() {
        bytes.pwrite_with(header, 0, ctx)?;
    }
    let prefix: LoadCommandHeader = bytes.pread_with(Header::size_with(&ctx), ctx.le)?;
    println!("first command {:#x} of {} bytes", prefix.cmd, prefix.cmdsize);
    Ok(())
}

fn main() -> Result<(), Any> {
    let bytes = fs::read(env::args().nth(1).ok_or("usage: signer FILE")?)?;
    let image = MachO::parse(&bytes, 0)?;
    match signature(&image) {
        Some(place) => show_blobs(&image, &place)?,
        None => println!("not signed"),
    }
    let mut changed = bytes.clone();
    println!("{} bytes written", grow(&image, &mut changed)?);
    count_up(&image, &mut changed)?;
    for (at, (old, new)) in bytes.iter().zip(&changed).enumerate() {
        if old != new {
            println!("{at:#x}: {old:02x} {new:02x}");
        }
    }
    let native: u16 = changed.pread(0)?;
    println!("{native:#x}");
    Ok(())
}
