//! The lengths that suffice: the longest of everything has just these, or is
//! within them.

use zombirels::iri::{self, IRI_MAX, PACK_IRI_MAX, RELATIONSHIPS_PART_MAX};
use zombirels::iri::{
    RESOLVED_PACK_IRI_MAX, RESOLVED_REFERENCE_MAX, RESOLVED_TARGET_MAX, SOURCE_MAX,
};
use zombirels::names::{self, EXTENSION_MAX, ID_MAX, ITEM_NAME_MAX, MEDIA_TYPE_MAX, PART_NAME_MAX};
use zombirels::package::{
    Mode, PackageBuf, CAPACITY_MAX, RELATIONSHIPS_STREAM_MAX, TYPES_STREAM_MAX,
};
use zombirels::package::{DEFAULTS_MAX, OVERRIDES_MAX, RELATIONSHIPS_MAX};
use zombirels::Refusal;

/// So many bytes: the start, and `&` behind it.
fn long(start: &str, length: usize) -> String {
    format!("{start:&<length$}")
}

/// The numbers of `include/opc.h` and of the paper.
#[test]
fn numbers() {
    assert_eq!(PART_NAME_MAX, 255);
    assert_eq!(ITEM_NAME_MAX, 273);
    assert_eq!(
        (MEDIA_TYPE_MAX, EXTENSION_MAX, ID_MAX, IRI_MAX),
        (127, 31, 63, 255)
    );
    assert_eq!((RESOLVED_REFERENCE_MAX, RESOLVED_TARGET_MAX), (511, 255));
    assert_eq!((PACK_IRI_MAX, RESOLVED_PACK_IRI_MAX), (1027, 510));
    assert_eq!((RELATIONSHIPS_PART_MAX, SOURCE_MAX), (266, 255));
}

/// A text of the greatest length is one, and with a byte more it is none.
#[test]
fn judgements() {
    let judged = |judge: fn(&str) -> bool, start: &str, max: usize| {
        assert!(judge(&long(start, max)), "{start} {max}");
        assert!(!judge(&long(start, max + 1)), "{start} {max}");
    };
    judged(|text| names::is_part_name(text), "/", PART_NAME_MAX);
    judged(|text| names::is_media_type(text), "a/", MEDIA_TYPE_MAX);
    judged(|text| names::is_extension(text), "", EXTENSION_MAX);
    judged(|text| names::is_id(text.replace('&', "_")), "a", ID_MAX);
    judged(|text| iri::is_iri(text), "", IRI_MAX);
    judged(|text| iri::is_package_iri(text), "a:", IRI_MAX);
}

#[test]
fn longest_item_name() {
    let mut slide = PackageBuf::start(1000).expect("a capacity");
    let name = long("/", PART_NAME_MAX) + "/[9999].last.piece";
    assert_eq!(name.len(), ITEM_NAME_MAX);
    slide.put_item(&name, "x").expect("room");
    let longer = long("/b", PART_NAME_MAX) + "/[10000].last.piece";
    assert_eq!(slide.put_item(&longer, "x"), Err(Refusal::BadSuffix));
    let item = slide.items().expect("a package").next().expect("an item");
    assert_eq!((item.name, item.bytes), (name, &b"x"[..]));
}

#[test]
fn longest_iris() {
    // three bytes for each of the package IRI's but the first
    let base = long("", IRI_MAX - 2).replace('&', ",");
    let (base, name) = (format!("a:{base}"), long("/", PART_NAME_MAX));
    let iri = iri::compose_pack_iri_to_string(&base, &name).expect("an IRI");
    assert_eq!(iri.len(), PACK_IRI_MAX - 2);
    let address = iri::resolve_pack_iri_to_string(&iri).expect("a pack IRI");
    let part = address.part.expect("a part name");
    assert_eq!(address.package.len() + part.len(), RESOLVED_PACK_IRI_MAX);
    assert_eq!((address.package, part), (base, name));

    let base = format!("a://{}", "h".repeat(IRI_MAX - 4));
    let reference = long("", IRI_MAX);
    let iri = iri::resolve_reference_to_string(&base, &reference).expect("an IRI");
    assert_eq!(iri.len(), RESOLVED_REFERENCE_MAX);

    let target = long("/", PART_NAME_MAX);
    let name = iri::resolve_target_to_string("/", &target).expect("a part name");
    assert_eq!(name.len(), RESOLVED_TARGET_MAX);
    let part = iri::relationships_part_to_string(&target).expect("a part name");
    assert_eq!(part.len(), RELATIONSHIPS_PART_MAX);
}

/// A stream whose values are the longest, in `&` but for `others` bytes in all
/// of them, has all the bytes of the constant but for four each.
fn is_longest(stream: &str, max: usize, others: usize) {
    assert_eq!(stream.len(), max - 4 * others);
}

#[test]
fn longest_types() {
    let mut slide = PackageBuf::start(CAPACITY_MAX).expect("a capacity");
    let media_type = long("a/", MEDIA_TYPE_MAX);
    for i in 0..DEFAULTS_MAX {
        let extension = long(&format!("{i:02}"), EXTENSION_MAX);
        slide.put_default(extension, &media_type).expect("room");
    }
    for i in 0..OVERRIDES_MAX {
        let name = long(&format!("/{i:02}"), PART_NAME_MAX);
        slide.put_override(name, &media_type).expect("room");
    }
    let stream = slide.write_types_to_string().expect("a package");
    let others = DEFAULTS_MAX * (2 + 2) + OVERRIDES_MAX * (3 + 2);
    is_longest(&stream, TYPES_STREAM_MAX, others);
}

#[test]
fn longest_relationships() {
    let mut slide = PackageBuf::start(CAPACITY_MAX).expect("a capacity");
    let (kind, target) = (long("a:", IRI_MAX), long("", IRI_MAX));
    for i in 0..RELATIONSHIPS_MAX {
        let id = format!("r{i:0>width$}", width = ID_MAX - 1);
        let put = slide.put_relationship("/", id, &kind, Mode::External, &target);
        put.expect("room");
    }
    let stream = slide.write_relationships_to_string("/").expect("a package");
    is_longest(&stream, RELATIONSHIPS_STREAM_MAX, RELATIONSHIPS_MAX * 2);
}
