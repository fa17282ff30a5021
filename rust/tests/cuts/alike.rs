//! What is read, the media types and the positions are alike before and after
//! a cut, and before and after a join. Both together restore every entry.

use crate::support::pieces::piece;
use crate::support::{numbers, Random};
use crate::{buffer, Pair};
use zombirels::package::{Mode, Package, Totals};

/// The length of what a call wrote, or its refusal.
type Answer = Result<usize, (u64, usize)>;

/// All that stays alike: each answer, and what the output then holds.
#[derive(PartialEq, Eq)]
struct Told(Vec<(Answer, Vec<u8>)>);

impl Told {
    fn new(package: &Package, names: &[Vec<u8>]) -> Told {
        let mut told = Told(Vec::new());
        for position in 0..names.len() as u64 + 1 {
            for lent in [0, 1, 255] {
                told.ask(lent, |out| package.part_at(position, out).map_err(numbers));
            }
        }
        for name in names {
            for offset in (0..14).chain([50, 1 << 32, u64::MAX]) {
                for lent in [0, 1, 5, 13, 400] {
                    told.ask(lent, |out| {
                        package.read_part(name, offset, out).map_err(numbers)
                    });
                }
            }
            for lent in [0, 3, 127] {
                told.ask(lent, |out| package.media_type(name, out).map_err(numbers));
            }
        }
        told.ask(2000, |out| package.write_types(out).map_err(numbers));
        let base = b"http://h/p.opc";
        told.ask(200, |out| {
            let resolved = package.resolve_relationship(b"/", b"r1", base, out);
            resolved.map(|r| usize::from(r.held)).map_err(numbers)
        });
        told
    }

    fn ask(&mut self, lent: usize, call: impl Fn(&mut [u8]) -> Answer) {
        let mut out = vec![b'.'; lent];
        let answer = call(&mut out);
        self.0.push((answer, out));
    }
}

/// The totals and the bytes of these items, in pieces or whole.
fn entries(package: &Package, names: &[Vec<u8>]) -> (Totals, Vec<Option<Vec<u8>>>) {
    let totals = package.totals().expect("a package");
    let items = names.iter().flat_map(|name| {
        let pieces = (0..3).flat_map(|k| [piece(name, k, k + 1), piece(name, k, 9)]);
        pieces.chain([name.clone()])
    });
    let views = items.map(|name| package.view_item(&name).map(<[u8]>::to_vec));
    (totals, views.collect())
}

/// Whole parts and parts in pieces, with types, and a relationship.
fn filled<'a>(random: &mut Random, buffer: &'a mut [u8]) -> (Pair<'a>, Vec<Vec<u8>>) {
    let mut pair = Pair::start(buffer);
    let mut names = Vec::new();
    for i in 0..2 + random.below(6) {
        let name = random.flip_case(format!("/Tiles/t{i}.{}", ["tif", "xml"][i % 2]).as_bytes());
        let size = random.pick(&[0, 1, 3, 12, 40]);
        match random.below(3) {
            0 => {
                let count = 1 + random.below(3);
                for k in 0..count {
                    let name = random.flip_case(&piece(&name, count - 1 - k, count));
                    pair.put(&name, &random.bytes(size));
                }
            }
            _ => pair.put(&name, &random.bytes(size)),
        }
        names.push(name);
    }
    let put = pair.package.put_default(b"tif", b"image/tiff;page=2");
    put.expect("room");
    let put = pair.package.put_override(&names[0], b"a/b");
    put.expect("room");
    let target = &names[1];
    let put = pair
        .package
        .put_relationship(b"/", b"r1", b"a:", Mode::Internal, target);
    put.expect("room");
    (pair, names)
}

#[test]
fn before_and_after() {
    let mut random = Random::new("before and after");
    let (mut cuts, mut joins) = (0, 0);
    for _ in 0..300 {
        let mut buffer = buffer(6000);
        let (pair, names) = filled(&mut random, &mut buffer);
        let told = Told::new(pair.package, &names);
        for name in &names {
            let asked = random.flip_case(name);
            let before = entries(pair.package, &names);
            let count = random.pick(&[1, 2, 3, 7, 13, 41, 100]);
            if pair.package.join_part(&asked).is_ok() {
                joins += 1;
                assert!(Told::new(pair.package, &names) == told);
                continue;
            }
            pair.package.cut_part(&asked, count).expect("whole");
            cuts += 1;
            assert!(Told::new(pair.package, &names) == told);
            assert!(entries(pair.package, &names) != before);
            pair.package.join_part(&asked).expect("in pieces");
            assert!(Told::new(pair.package, &names) == told);
            assert!(entries(pair.package, &names) == before);
        }
    }
    println!("before and after: {cuts} cuts, {joins} joins of other pieces");
    assert!(cuts > 0 && joins > 0);
}

/// Every length up to 40 in every number of pieces up to 45: each piece has
/// its bytes.
#[test]
fn every_small_cut() {
    let mut buffer = buffer(3000);
    for length in 0..=40 {
        let content: Vec<u8> = (1..=length as u8).collect();
        let mut pair = Pair::start(&mut buffer);
        pair.put(b"/before", b"1234567");
        pair.put(b"/A", &content);
        pair.put(b"/behind", b"89");
        let whole = (
            pair.charge(),
            pair.package.view_item(b"/a").map(<[u8]>::to_vec),
        );
        for count in 1..=45 {
            let (size, longer) = (length / count, length % count);
            assert_eq!(pair.cut(b"/a", count as u64), Ok((size, longer)));
            let mut rest = &content[..];
            for k in 0..count {
                let (bytes, behind) = rest.split_at(size + usize::from(k < longer));
                let name = piece(b"/a", k, count);
                assert_eq!(pair.package.find_item(&name), Ok(bytes.len()));
                assert_eq!(pair.package.view_item(&name), Some(bytes));
                rest = behind;
            }
            assert!(rest.is_empty());
            pair.check();
            assert_eq!(pair.join(b"/A"), Ok((0, 0)));
            let again = (
                pair.charge(),
                pair.package.view_item(b"/a").map(<[u8]>::to_vec),
            );
            assert_eq!(again, whole);
        }
        pair.check();
    }
}
