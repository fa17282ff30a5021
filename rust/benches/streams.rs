//! Streams read: the archive beside the reference, whose reader keeps all
//! entries in a list and puts them one by one. A stream with entries is read
//! into a package that is started anew each time, on both sides; one that has
//! none, a megabyte of elements or comments that are passed over, leaves the
//! package as it is.

mod support;

use reference::examples::streams::{Kind, DECLARATION, DEFAULT, RELATIONSHIP};
use reference::ledger::Ledger;
use support::package::{buffer, tile, Pair};
use zombirels::package::Package;

const MEGABYTE: usize = 1_000_000;
const CAPACITY: u64 = 100_000;
const SOURCE: &[u8] = b"/slides/2026/ovary-17/counts.xml";
const TYPE: &str = "image/vnd.example.tile+tiff";
const KIND: &str = "http://example.com/2026/relationships/tile";

/// A stream and its kind.
struct Stream {
    what: &'static str,
    kind: Kind,
    bytes: Vec<u8>,
}

impl Stream {
    /// A stream whose root has this content.
    fn new(what: &'static str, kind: Kind, content: &str) -> Stream {
        let marked = format!("{DECLARATION}\n$<\n{content}$>\n");
        let bytes = kind.stream(marked.as_bytes());
        Stream { what, kind, bytes }
    }

    /// The number that the archive answers.
    fn by_archive(&self, package: &mut Package) -> usize {
        let answer = match self.kind == DEFAULT {
            true => package.read_types(&self.bytes),
            false => package.read_relationships(SOURCE, &self.bytes),
        };
        answer.map_or_else(|refusal| usize::from(refusal.number()), |()| 0)
    }

    fn by_reference(&self, ledger: &mut Ledger) -> usize {
        let answer = match self.kind == DEFAULT {
            true => ledger.read_types(&self.bytes),
            false => ledger.read_relationships(SOURCE, &self.bytes),
        };
        answer.map_or_else(|refusal| refusal.number() as usize, |()| 0)
    }

    /// Reads the stream on both sides, started anew before if that is asked,
    /// and prints a line: the ratio.
    fn compare(&self, anew: bool) -> f64 {
        let mut buffer = buffer();
        let length = buffer.len() as u64;
        let Pair { package, ledger } = &mut Pair::new(&mut buffer);
        let mut archive = |_| {
            if anew {
                package.restart(CAPACITY).expect("room");
            }
            self.by_archive(package)
        };
        let mut reference = |_| {
            if anew {
                ledger.start(length, CAPACITY).expect("room");
            }
            self.by_reference(ledger)
        };
        assert_eq!(archive(0), reference(0), "{}", self.what);
        let passes = 1 + MEGABYTE / self.bytes.len();
        let [a, b] = support::in_turn(passes, 1, [&mut archive, &mut reference]);
        let rate = |seconds: f64| self.bytes.len() as f64 * 1e-6 / seconds;
        println!(
            "{:34} {:10} {:10.1} {:10.1} {:10.1} {:8.2}",
            self.what,
            self.bytes.len(),
            a * 1e6,
            rate(a),
            rate(b),
            a / b
        );
        a / b
    }
}

fn overrides(count: usize) -> String {
    let entry = |i| {
        let name = String::from_utf8(tile(i)).expect("a text");
        format!("<Override PartName=\"{name}\" ContentType=\"{TYPE}\"/>\n")
    };
    (0..count).map(entry).collect()
}

fn defaults(count: usize) -> String {
    let entry = |i: usize| format!("<Default Extension=\"ext{i}\" ContentType=\"{TYPE}\"/>\n");
    (0..count).map(entry).collect()
}

fn links(count: usize, mode: &str) -> String {
    let entry = |i: usize| {
        let target = format!("tiles/L3/r{i:03}c044.tiff");
        format!("<Relationship Id=\"rId{i}\" Type=\"{KIND}\" Target=\"{target}\"{mode}/>\n")
    };
    (0..count).map(entry).collect()
}

/// The same entries as tag pairs, with blanks, comments and prefixed attributes.
fn in_other_forms(entries: &str) -> String {
    let lines = entries.lines().map(|line| {
        let element = line[1..].split(' ').next().expect("a name");
        let tag = line.trim_end_matches("/>").replace(" ", "\n    ");
        let tag = tag.replace('=', " = ").replace('"', "'");
        format!("<!-- {element} -->\n  {tag}\n    xml:space='preserve' >\n  </{element}>\n")
    });
    lines.collect()
}

fn with_entries() {
    let mode = " TargetMode=\"External\"";
    let (types, related) = (overrides(64), links(256, ""));
    let refused = format!("{related}<Relationship Id=\"\" Type=\"a:\" Target=\"a\"/>");
    let short: String = (0..256)
        .map(|i| format!("<Relationship Id=\"r{i}\" Type=\"a:\" Target=\"a\"/>\n"))
        .collect();
    for stream in [
        Stream::new("64 Overrides", DEFAULT, &types),
        Stream::new("64 Defaults", DEFAULT, &defaults(64)),
        Stream::new("64 of each", DEFAULT, &(defaults(64) + &types)),
        Stream::new(
            "64 Overrides, other forms",
            DEFAULT,
            &in_other_forms(&types),
        ),
        Stream::new("4 Overrides", DEFAULT, &overrides(4)),
        Stream::new("256 relationships", RELATIONSHIP, &related),
        Stream::new("256, TargetMode", RELATIONSHIP, &links(256, mode)),
        Stream::new("256, short fields", RELATIONSHIP, &short),
        Stream::new("256, other forms", RELATIONSHIP, &in_other_forms(&related)),
        Stream::new("256 and one refused", RELATIONSHIP, &refused),
        Stream::new("4 relationships", RELATIONSHIP, &links(4, "")),
    ] {
        stream.compare(true);
    }
}

/// As many of a text as make a megabyte.
fn megabyte(text: &str) -> String {
    text.repeat(MEGABYTE / text.len())
}

/// A text of so many bytes.
fn text(length: usize) -> String {
    "lorem ipsum dolor sit amet, "
        .chars()
        .cycle()
        .take(length)
        .collect()
}

/// A megabyte of elements in many shapes.
fn elements() -> Vec<(&'static str, String)> {
    let nested = |levels: usize, middle: &str| {
        let (open, close) = ("<x:level>".repeat(levels), "</x:level>".repeat(levels));
        format!("{open}{middle}{close}")
    };
    let within = |text: String| format!("<x:all>{text}</x:all>");
    let pair = |text: &str| format!("<x:a>{text}</x:a>\n");
    let valued = |value: &str| format!("<x:a b='{value}'/>");
    let properties = "<x:p name=\"left\" value='17' xml:space=\"preserve\" x:id=\"a&amp;b\"/>\n";
    let indented = properties.replace(' ', "\n        ");
    let (long, word, blanks) = (text(4000), "x".repeat(60), " \n\t  ".repeat(20));
    let named = format!("<{word}:a></{word}:a>");
    vec![
        ("empty tags", megabyte("<x:a/>")),
        ("tag pairs", megabyte(&pair(""))),
        ("tag pairs, names of 62", megabyte(&named)),
        ("tag pairs, text of 30", megabyte(&pair(&text(30)))),
        ("tag pairs, text of 4,000", megabyte(&pair(&long))),
        ("four attributes", megabyte(properties)),
        ("four attributes, indented", megabyte(&indented)),
        ("value of 60", megabyte(&valued(&word))),
        ("value of 4,000", megabyte(&valued(&long))),
        (
            "value of 100 entities",
            megabyte(&valued(&"&quot;".repeat(100))),
        ),
        (
            "100 blanks in each tag",
            megabyte(&format!("<x:a{blanks}/>")),
        ),
        (
            "100 blanks between tags",
            megabyte(&format!("<x:a/>{blanks}")),
        ),
        ("depth 16", megabyte(&nested(15, ""))),
        ("depth 16, text", megabyte(&nested(15, &text(200)))),
        ("plain names within", within(megabyte("<a b='c'><d/>e</a>"))),
        ("one text", within(text(MEGABYTE))),
        ("one text of `>` and `&`", within(megabyte(">&"))),
        ("one value", valued(&text(MEGABYTE))),
        ("one name", format!("<x:{}/>", megabyte("a"))),
    ]
}

/// A megabyte of comments, beside elements and in them.
fn comments() -> Vec<(&'static str, String)> {
    let comment = |text: &str| format!("<!--{text}-->");
    vec![
        ("comments of 30", megabyte(&comment(&text(30)))),
        ("comments of 4,000", megabyte(&comment(&text(4000)))),
        (
            "in elements, of 30",
            megabyte(&format!("<x:a>{}</x:a>", comment(&text(30)))),
        ),
        ("one comment", comment(&text(MEGABYTE))),
        ("one comment of `- `", comment(&megabyte("- "))),
    ]
}

/// Compares all shapes, and tells the greatest ratio.
fn passed_over(what: &str, shapes: Vec<(&'static str, String)>) {
    println!("1 MB of {what}:");
    let mut greatest: (f64, &str) = (0.0, "");
    for (shape, content) in shapes {
        let ratio = Stream::new(shape, DEFAULT, &content).compare(false);
        if ratio > greatest.0 {
            greatest = (ratio, shape);
        }
    }
    let (ratio, shape) = greatest;
    println!("1 MB of {what}: at most {ratio:.2}, {shape}");
}

/// One tag with many attributes, whose names differ at the start, in length or
/// at the end alone.
fn attributes() {
    let stem = "x".repeat(60);
    for count in [100, 1000, 10_000] {
        let all = |name: &dyn Fn(usize) -> String| -> String {
            let attributes = (0..count).map(|i| format!(" {}=''", name(i)));
            format!("<x:a{}/>", attributes.collect::<String>())
        };
        println!("one tag of {count} attributes:");
        for (what, content) in [
            ("differ at the start", all(&|i| format!("a{i}:b"))),
            ("differ at the end", all(&|i| format!("a:{stem}{i}"))),
            (
                "digits of one length",
                all(&|i| format!("a:{i:05}b").replace(":0", ":_")),
            ),
        ] {
            Stream::new(what, DEFAULT, &content).compare(false);
        }
    }
}

fn main() {
    println!("ratio: archive time / reference time");
    println!(
        "{:34} {:>10} {:>10} {:>10} {:>10} {:>8}",
        "", "bytes", "us", "MB/s", "reference", "ratio"
    );
    with_entries();
    passed_over("elements that are passed over", elements());
    passed_over("comments", comments());
    attributes();
}
