//! A small viewer: loads a slide and shows what it holds.
//!
//!     cargo run --example view [SHEET [LINKS]]
//!
//! SHEET has lines as the program `sheet` reads them, LINKS a line for each
//! relationship: source, id, mode (internal or external), target, type. The
//! slide in `samples/` is shown if none is given.

use std::error::Error;
use std::io::Read;
use std::path::Path;
use std::{env, fs};
use zombirels::package::{Mode, Package, PackageBuf, Part};
use zombirels::Refusal;

const CAPACITY: u64 = 30_000;

/// Where this slide is kept.
const BASE: &str = "http://slides.example.org/teaching/ovary-17.opc";

fn main() -> Result<(), Box<dyn Error>> {
    let mut files = env::args().skip(1);
    let mut read = |sample: &str| {
        let samples = Path::new(env!("CARGO_MANIFEST_DIR")).join("../samples");
        fs::read(files.next().map_or(samples.join(sample), Into::into))
    };
    let (sheet, links) = (read("slide.sheet")?, read("slide.links")?);

    let mut slide = PackageBuf::start(CAPACITY)?;
    println!("Loading");
    lines(&sheet).for_each(|line| put(&mut slide, line));
    lines(&links).for_each(|line| put_link(&mut slide, line));

    show_parts(&slide)?;
    show_links(&slide)?;
    show_streams(&slide)?;
    Ok(())
}

/// Puts what a line says; tells if it is refused.
fn put(slide: &mut Package, line: &[u8]) {
    let mut fields = line.splitn(3, |&byte| byte == b' ');
    let mut next = || fields.next().unwrap_or_default();
    let (command, name, rest) = (next(), next(), next());
    let answer = match command {
        b"P" => slide.put_item(name, rest),
        b"X" => slide.drop_item(name),
        b"D" => slide.put_default(name, rest),
        b"O" => slide.put_override(name, rest),
        b"L" => Ok(()),
        _ => Err(Refusal::UnreadableLine),
    };
    if let Err(refusal) = answer {
        println!("  {} {}: {refusal}", text(command), text(name));
    }
}

/// Puts a relationship; tells if it is refused.
fn put_link(slide: &mut Package, line: &[u8]) {
    let fields: Vec<&[u8]> = line.split(|&byte| byte == b' ').collect();
    let (source, id, mode, target, kind) = match fields[..] {
        [source, id, b"internal", target, kind] => (source, id, Mode::Internal, target, kind),
        [source, id, b"external", target, kind] => (source, id, Mode::External, target, kind),
        _ => return println!("  {}: no link", text(line)),
    };
    if let Err(refusal) = slide.put_relationship(source, id, kind, mode, target) {
        println!("  {} {}: {refusal}", text(source), text(id));
    }
}

/// The parts with their media types, sizes, pieces and first bytes.
fn show_parts(slide: &Package) -> Result<(), Box<dyn Error>> {
    let totals = slide.totals()?;
    let (parts, items, charge) = (totals.parts, totals.items, totals.charge);
    println!("\n{parts} parts of {items} items, {charge} of {CAPACITY} bytes");
    for part in slide.parts()? {
        let sizes: Vec<String> = part
            .items()
            .map(|item| item.bytes.len().to_string())
            .collect();
        let pieces = match sizes.len() {
            1 => String::new(),
            _ => format!(", pieces of {}", sizes.join(", ")),
        };
        let (media_type, bytes) = (media_type(&part), part.len());
        println!("  {part} ({media_type}): {bytes} bytes{pieces}");
        let mut begin = Vec::new();
        part.reader().take(48).read_to_end(&mut begin)?;
        println!("    {}", begin.escape_ascii());
    }
    Ok(())
}

/// The media type of a part, and the entry that it comes from.
fn media_type(part: &Part) -> String {
    match part.media_type() {
        Some(media_type) => format!("{media_type} by {}", part.type_origin()),
        None => "no type".to_string(),
    }
}

/// Where each link leads, and whether the part is there.
fn show_links(slide: &Package) -> Result<(), Refusal> {
    let links = slide.relationships()?;
    println!("\n{} links", links.len());
    for link in links {
        let (source, id) = (link.source, link.id);
        let target = slide.resolve_relationship_to_string(&source, &id, BASE)?;
        let note = match (target.mode, target.held) {
            (Mode::External, _) => "outside",
            (Mode::Internal, true) => "held",
            (Mode::Internal, false) => "not held",
        };
        println!("  {source} {id} -> {} ({note})", target.iri);
    }
    Ok(())
}

/// The types, and the relationships of each source, as they are stored.
fn show_streams(slide: &Package) -> Result<(), Refusal> {
    println!("\nTypes\n{}", slide.write_types_to_string()?);
    let mut sources: Vec<String> = slide.relationships()?.map(|link| link.source).collect();
    sources.dedup_by(|a, b| a.eq_ignore_ascii_case(b));
    for source in sources {
        let stream = slide.write_relationships_to_string(&source)?;
        println!("Relationships of {source}\n{stream}");
    }
    Ok(())
}

fn lines(file: &[u8]) -> impl Iterator<Item = &[u8]> {
    let lines = file.split(|&byte| byte == b'\n');
    lines.filter(|line| !line.is_empty())
}

fn text(bytes: &[u8]) -> String {
    String::from_utf8_lossy(bytes).into_owned()
}
