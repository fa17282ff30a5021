//! Pairs of names: equivalent, derivable, in folded order.

use crate::random::{plain_name, random_text, FRAGMENTS};
use crate::support::{show, Random};
use crate::{alike, ref_names};
use std::cmp::Ordering;
use zombirels::names;

fn compare_pair(a: &[u8], b: &[u8]) -> Ordering {
    let pair = || format!("{} and {}", show(a), show(b));
    let right = ref_names::is_equivalent(a, b);
    let equivalent = alike("equivalent", names::is_equivalent(a, b), right, pair);
    let right = ref_names::is_derivable(a, b);
    let derivable = alike("derivable", names::is_derivable(a, b), right, pair);
    let right = ref_names::compare_folded(a, b);
    let order = alike("folded order", names::compare_folded(a, b), right, pair);
    assert_eq!(
        order == Ordering::Equal,
        equivalent,
        "equal or equivalent: {}",
        pair()
    );
    assert!(
        !derivable || order == Ordering::Greater,
        "order of the derivable: {}",
        pair()
    );
    order
}

/// A text related to `text`.
fn relative(random: &mut Random, text: &[u8]) -> Vec<u8> {
    let text = random.flip_case(text);
    match random.below(7) {
        0 => text,
        1 => [&text, &b"/"[..], &random.joined(FRAGMENTS, 2)].concat(),
        2 => [&text, &random.joined(FRAGMENTS, 2)[..]].concat(),
        3 => text[..random.below(text.len() + 1)].to_vec(),
        4 => random.damaged(&text),
        5 => [&text, &b"/b"[..]].concat(),
        _ => plain_name(random),
    }
}

#[test]
fn random_pairs() {
    let mut random = Random::new("random pairs");
    let mut orders = [0; 3];
    let mut derivable = 0;
    for _ in 0..300_000 {
        let a = random_text(&mut random);
        let b = relative(&mut random, &a);
        orders[(compare_pair(&a, &b) as i8 + 1) as usize] += 1;
        compare_pair(&b, &a);
        compare_pair(&a, &a);
        derivable += usize::from(names::is_derivable(&b, &a));
    }
    println!(
        "random pairs: 300000 pairs, less, equal, greater: {orders:?}, derivable: {derivable}"
    );
    assert!(orders.iter().all(|&count| count > 10_000) && derivable > 10_000);
}

#[test]
fn every_two_bytes_in_order() {
    let mut equal = 0;
    for a in 0..=255 {
        for b in 0..=255 {
            let order = compare_pair(&[b'/', a, b'x'], &[b'/', b, b'x']);
            equal += usize::from(order == Ordering::Equal);
            compare_pair(&[a], &[b]);
            compare_pair(&[b'/', b'x', a, b'y'], b"/X");
        }
    }
    println!("every two bytes in order: {} pairs compared", 3 << 16);
    assert_eq!(equal, 256 + 2 * 26);
}

/// The folded order is total: antisymmetric and transitive.
#[test]
fn laws_of_the_order() {
    let mut random = Random::new("laws of the order");
    for _ in 0..100_000 {
        let a = random_text(&mut random);
        let b = relative(&mut random, &a);
        let c = relative(&mut random, &b);
        let mut sorted = [&a, &b, &c];
        sorted.sort_by(|a, b| names::compare_folded(a, b));
        let [a, b, c] = sorted;
        let (ab, bc, ac) = (compare_pair(a, b), compare_pair(b, c), compare_pair(a, c));
        assert_eq!(ab.reverse(), compare_pair(b, a), "{} {}", show(a), show(b));
        let expected = if ab == Ordering::Equal { bc } else { ab };
        assert_eq!(ac, expected, "{} {} {}", show(a), show(b), show(c));
        assert!(ac != Ordering::Greater);
    }
    println!("laws of the order: 100000 triples compared");
}
