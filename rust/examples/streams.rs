//! Writes the XML streams of a fixed package to files: `cargo run --example
//! streams -- FOLDER`. `scripts/xml-check` reads them with an XML parser.
//!
//! The fields that were put stand in FOLDER/put, a line for each entry, parted
//! by tabs: an element's name, the source of a relationship, the attributes.

use std::error::Error;
use std::path::PathBuf;
use std::{env, fs};
use zombirels::package::{Mode, Package, PackageBuf};
use zombirels::Refusal;

const CAPACITY: u64 = 30_000;

/// Extensions and media types, with what XML could mistake.
const DEFAULTS: &[[&str; 2]] = &[
    ["xml", "application/xml"],
    ["TIFF", "image/tiff"],
    ["a&b", "x/y&z"],
    ["amp;", "x/&amp"],
    ["it's", "x/it's"],
    ["\u{e9}", "x/!#$&'*+-.^_`|~"],
    ["%22%3C", "x/1"],
    ["tif", "image/tiff;page=2"],
    ["lt", "x/&lt;&#38=&lt;&amp='"],
    [
        "Rels",
        "application/vnd.openxmlformats-package.relationships+xml",
    ],
];

/// Part names and media types.
const OVERRIDES: &[[&str; 2]] = &[
    ["/slide/counts.xml", "application/vnd.example.counts+xml"],
    ["/Slide/a&b;c", "x/y&z"],
    ["/slide/&amp;", "x/&lt"],
    ["/slide/it's='x'", "x/'"],
    ["/slide/\u{20ac}\u{10000}.tif", "image/tiff"],
    ["/slide/%20%3E", "x/2"],
    ["/slide/&gt", "x/y;a=&;&=b;c=&amp"],
];

/// Sources, ids, types, targets and modes.
const RELATIONSHIPS: &[([&str; 4], Mode)] = &[
    (
        ["/", "r1", "http://e.org/slide", "slide/counts.xml"],
        Mode::Internal,
    ),
    (["/", "R1", "http://e.org/slide?a&b", "a&b"], Mode::Internal),
    (
        ["/", "_", "http://e.org/#it's", "?a=1&b=2&amp;c#d&e"],
        Mode::External,
    ),
    (
        ["/", "a.b-c", "urn:x", "http://e.org/\u{e9}?q='&'"],
        Mode::External,
    ),
    (["/slide/A&B", "t10", "a:tile", "c&&d"], Mode::Internal),
    (
        ["/slide/a&b", "t9", "a:tile", "../&/\u{10000}"],
        Mode::Internal,
    ),
    (
        ["/slide/a&b", "t1", "a:tile&", "//h/p?&lt;&#38;"],
        Mode::External,
    ),
];

/// The sources whose streams are written, and their files.
const STREAMS: &[[&str; 2]] = &[
    ["/", "root.rels"],
    ["/slide/a&b", "part.rels"],
    ["/slide/none", "none.rels"],
];

fn main() -> Result<(), Box<dyn Error>> {
    let folder = PathBuf::from(env::args().nth(1).ok_or("which folder?")?);
    let mut package = PackageBuf::start(CAPACITY)?;
    fs::write(folder.join("put"), put(&mut package)?)?;

    fs::write(folder.join("types.xml"), package.write_types_to_string()?)?;
    for [source, file] in STREAMS {
        let stream = package.write_relationships_to_string(source)?;
        fs::write(folder.join(file), stream)?;
    }
    Ok(())
}

/// Puts all entries, and tells them in lines.
fn put(package: &mut Package) -> Result<String, Refusal> {
    let mut lines = String::new();
    for [extension, kind] in DEFAULTS {
        package.put_default(extension, kind)?;
        lines += &format!("Default\t{extension}\t{kind}\n");
    }
    for [name, kind] in OVERRIDES {
        package.put_override(name, kind)?;
        lines += &format!("Override\t{name}\t{kind}\n");
    }
    for (fields, mode) in RELATIONSHIPS {
        let [source, id, kind, target] = fields;
        package.put_relationship(source, id, kind, *mode, target)?;
        let mark = match mode {
            Mode::Internal => "",
            Mode::External => "\tExternal",
        };
        lines += &format!("Relationship\t{}{mark}\n", fields.join("\t"));
    }
    Ok(lines)
}
