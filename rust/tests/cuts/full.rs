//! Packages without a byte to spare: the charge after a cut is the capacity,
//! and the buffer has the capacity and 32,768 bytes.

use crate::support::pieces::{cost, piece};
use crate::support::Random;
use crate::{buffer, Pair};
use zombirels::package::{Mode, CAPACITY_MAX, OVERHEAD};

/// A plan for a full package: items before the tile and behind it, some of
/// which are dropped and leave gaps, and the pieces that it is cut into.
struct Plan {
    before: Vec<Vec<u8>>,
    behind: Vec<Vec<u8>>,
    gaps: usize,
    /// Before which of the items all room for the pieces lies, as a gap; if
    /// none is told, it lies behind all.
    room_at: Option<usize>,
    tile: Vec<u8>,
    pieces: usize,
    relationships: usize,
}

const TILE: &[u8] = b"/Slide/Tile.tiff";

impl Plan {
    fn new(random: &mut Random) -> Plan {
        let most = random.pick(&[0, 1, 5, 60]);
        let items = |random: &mut Random| {
            let sizes = (0..random.below(most + 1)).map(|_| random.pick(&[0, 1, 30, 700]));
            let sizes: Vec<usize> = sizes.collect();
            sizes.into_iter().map(|size| random.bytes(size)).collect()
        };
        let (before, behind): (Vec<_>, Vec<_>) = (items(random), items(random));
        let others = before.len() + behind.len();
        let size = random.pick(&[0, 1, 3, 100, 5000, 20_000]);
        Plan {
            gaps: random.below(others + 1),
            room_at: random.once_in(2).then(|| random.below(others + 1)),
            tile: random.bytes(size),
            pieces: random.pick(&[1, 2, 3, 16, 100, 256 - others]),
            relationships: random.pick(&[0, 0, 3, 100]),
            before,
            behind,
        }
    }

    /// The charge of all that is put, but for the tile.
    fn others(&self) -> usize {
        let items = self.before.iter().chain(&self.behind);
        let items: usize = items.map(|bytes| name(0).len() + bytes.len()).sum();
        items + 10 * self.relationships
    }

    fn capacity(&self) -> usize {
        self.others() + TILE.len() + self.tile.len() + cost(TILE.len(), self.pieces)
    }

    /// Puts all. What is dropped is put again, so that the gaps lie amid the
    /// others and their bytes behind them; but for the last gap.
    fn fill(&self, random: &mut Random, pair: &mut Pair) {
        let items: Vec<&Vec<u8>> = self.before.iter().chain(&self.behind).collect();
        let capacity = pair.package.as_bytes().len() - OVERHEAD;
        let room = capacity - self.others() - TILE.len() - self.tile.len();
        for i in 0..=items.len() {
            if self.room_at == Some(i) {
                pair.put(b"/f", &vec![7; room - 2]);
            }
            if i == self.before.len() {
                pair.put(TILE, &self.tile);
            }
            if let Some(bytes) = items.get(i) {
                pair.put(&name(i), bytes);
            }
        }
        for i in 0..self.relationships {
            let id = format!("r{i:03}");
            let put =
                pair.package
                    .put_relationship(b"/", id.as_bytes(), b"a:", Mode::External, b"b:c");
            put.expect("room");
            let put = pair
                .ledger
                .put_relationship(b"/", id.as_bytes(), b"a:", 1, b"b:c");
            put.expect("room");
        }
        for _ in 0..self.gaps {
            let i = random.below(items.len());
            pair.drop(&name(i));
            pair.put(&name(i), items[i]);
        }
        if self.room_at.is_some() {
            pair.drop(b"/f");
        }
    }
}

fn name(i: usize) -> Vec<u8> {
    format!("/item{i:03}").into_bytes()
}

/// Random plans: the cut is refused where a byte is lacking, and else leaves
/// no room; every byte of every item is compared after it and after the join.
#[test]
fn random_packages() {
    let mut random = Random::new("full packages");
    for _ in 0..400 {
        let plan = Plan::new(&mut random);
        let mut short = buffer(plan.capacity() - 1);
        let mut pair = Pair::start(&mut short);
        plan.fill(&mut random, &mut pair);
        assert_eq!(pair.cut(TILE, plan.pieces as u64), Err(15));
        pair.check();

        let mut exact = buffer(plan.capacity());
        let mut pair = Pair::start(&mut exact);
        plan.fill(&mut random, &mut pair);
        for _ in 0..3 {
            let answer = pair.cut(&random.flip_case(TILE), plan.pieces as u64);
            let size = plan.tile.len();
            assert_eq!(answer, Ok((size / plan.pieces, size % plan.pieces)));
            assert_eq!(pair.charge(), plan.capacity());
            pair.check();
            assert_eq!(pair.join(&random.flip_case(TILE)), Ok((0, 0)));
            assert_eq!(pair.package.view_item(TILE), Some(&plan.tile[..]));
            pair.check();
        }
    }
}

/// Pieces put at the capacity, in any order and amid other parts' pieces, then
/// joined: a join needs no room.
#[test]
fn joins_without_room() {
    let mut random = Random::new("joins without room");
    for _ in 0..200 {
        let parts = 1 + random.below(6);
        let most = random.pick(&[1, 3, 256 / parts]);
        let mut items = Vec::new();
        for part in 0..parts {
            let count = 1 + random.below(most);
            for k in 0..count {
                let name = piece(&name(part), k, count);
                let size = random.pick(&[0, 1, 10, 100, 1000]);
                items.push((random.flip_case(&name), random.bytes(size)));
            }
        }
        for i in (1..items.len()).rev() {
            items.swap(i, random.below(i + 1));
        }
        let charge = items.iter().map(|(name, bytes)| name.len() + bytes.len());
        let mut buffer = buffer(charge.sum());
        let mut pair = Pair::start(&mut buffer);
        for (name, bytes) in &items {
            pair.put(name, bytes);
        }
        for part in 0..parts {
            assert_eq!(pair.join(&name(part)), Ok((0, 0)));
            pair.check();
        }
    }
}

/// The greatest package: one part of nearly a million bytes, which is cut into
/// 256 pieces that just find room. With one byte more it is not.
#[test]
fn the_greatest_part() {
    let mut random = Random::new("the greatest part");
    let capacity = CAPACITY_MAX as usize;
    let size = capacity - TILE.len() - cost(TILE.len(), 256);
    let tile = random.bytes(size + 1);
    let mut buffer = buffer(capacity);
    let mut pair = Pair::start(&mut buffer);
    pair.put(TILE, &tile);
    assert_eq!(pair.cut(TILE, 256), Err(15));
    assert_eq!(
        pair.cut(TILE, 255),
        Ok(((size + 1) / 255, (size + 1) % 255))
    );
    pair.check();
    pair.join(TILE).expect("in pieces");
    pair.drop(TILE);
    pair.put(TILE, &tile[..size]);
    for _ in 0..2 {
        assert_eq!(pair.cut(TILE, 256), Ok((size / 256, size % 256)));
        assert_eq!(pair.charge(), capacity);
        pair.check();
        assert_eq!(pair.join(TILE), Ok((0, 0)));
        assert!(pair.package.view_item(TILE) == Some(&tile[..size]));
    }
}

/// Four parts of a quarter of a million bytes: their pieces alternate and were
/// put from the last to the first, in a package that they fill.
#[test]
fn great_parts_that_alternate() {
    let mut random = Random::new("great parts that alternate");
    let (parts, pieces) = (4, 64);
    let capacity = CAPACITY_MAX as usize;
    let mut buffer = buffer(capacity);
    let mut pair = Pair::start(&mut buffer);
    let names = parts * (name(0).len() + cost(name(0).len(), pieces));
    let size = (capacity - names) / (parts * pieces);
    for k in (0..pieces).rev() {
        for part in (0..parts).rev() {
            // the very last one takes all that is left
            let rest = capacity - pair.charge();
            let name = piece(&name(part), k, pieces);
            let size = if (k, part) == (0, 0) {
                rest - name.len()
            } else {
                size
            };
            pair.put(&name, &random.bytes(size));
        }
    }
    assert_eq!(pair.charge(), capacity);
    for part in [2, 0, 3, 1] {
        assert_eq!(pair.join(&name(part)), Ok((0, 0)));
        pair.check();
    }
    for part in 0..parts {
        assert!(pair.cut(&name(part), pieces as u64).is_ok());
        pair.check();
    }
    assert_eq!(pair.charge(), capacity);
}
