//! Packages that own their bytes, and those that are lent.

use std::borrow::Cow;
use zombirels::package::{buffer_len, Package, PackageBuf, CAPACITY_MAX, OVERHEAD};
use zombirels::Refusal;

fn slide() -> PackageBuf {
    let mut slide = PackageBuf::start(100).expect("a capacity");
    slide.put_item("/t3", "tile").expect("room");
    slide
}

#[test]
fn starts() {
    for capacity in [0, 1, 100, CAPACITY_MAX] {
        let slide = PackageBuf::start(capacity).expect("a capacity");
        assert_eq!(slide.as_bytes().len(), buffer_len(capacity));
        assert_eq!(slide.totals().expect("a package").items, 0);
    }
    for capacity in [CAPACITY_MAX + 1, 1 << 40, u64::MAX] {
        let refused = PackageBuf::start(capacity).err();
        assert_eq!(refused, Some(Refusal::BadStart));
    }
    assert_eq!(buffer_len(0), OVERHEAD);
    assert_eq!(buffer_len(u64::MAX - 1), usize::MAX);
}

/// A restart takes the bytes that it needs; refused, it leaves what is held.
#[test]
fn restarts() {
    let mut slide = slide();
    assert_eq!(slide.restart(CAPACITY_MAX + 1), Err(Refusal::BadStart));
    assert_eq!(slide.find_item("/t3"), Ok(4));
    // the bytes that are lent are not enough for more
    assert_eq!(Package::restart(&mut slide, 101), Err(Refusal::BadStart));
    assert_eq!(slide.restart(1000), Ok(()));
    assert_eq!(slide.find_item("/t3"), Err(Refusal::NotHeld));
    assert_eq!(slide.put_item("/t3", [7; 997]), Ok(()));
    assert_eq!(slide.restart(10), Ok(()));
    assert_eq!(slide.put_item("/t3", [7; 8]), Err(Refusal::Full));
    assert_eq!(slide.as_bytes().len(), buffer_len(1000));
}

#[test]
fn copies() {
    let mut first = slide();
    let mut second = first.clone();
    second.drop_item("/t3").expect("held");
    assert_eq!(first.find_item("/t3"), Ok(4));
    let lent: &mut Package = &mut first;
    let third = lent.to_owned();
    lent.put_item("/t4", "").expect("room");
    assert_eq!(third.totals().expect("a package").items, 1);
    let mut fourth = Cow::Borrowed(third.as_package());
    fourth.to_mut().put_item("/t4", "").expect("room");
    assert_eq!(fourth.totals().expect("a package").items, 2);
    assert_eq!(third.totals().expect("a package").items, 1);
}

#[test]
fn bytes_given_and_taken() {
    let bytes = slide().into_bytes();
    let again = PackageBuf::try_from(bytes.clone()).expect("a package");
    assert_eq!(again.as_bytes(), bytes);
    assert_eq!(Vec::from(again), bytes);
    let lent = <&Package>::try_from(&bytes[..]).expect("a package");
    assert_eq!(lent.find_item("/t3"), Ok(4));
    for length in [0, 1, 64, OVERHEAD - 1, bytes.len() - 1] {
        let short = bytes[..length].to_vec();
        let refused = Package::try_open(&short).map(drop);
        let owned = PackageBuf::try_open(short.clone());
        assert_eq!(owned.is_ok(), refused.is_ok(), "{length}");
        let Err(error) = owned else { continue };
        assert_eq!(refused, Err(Refusal::NotAPackage));
        assert_eq!(error.to_string(), Refusal::NotAPackage.to_string());
        assert_eq!(
            format!("{error:?}"),
            format!("FromBytesError {{ length: {length}, .. }}")
        );
        assert_eq!(error.as_bytes(), short);
        assert_eq!(error.clone().into_bytes(), short);
        assert_eq!(Refusal::from(error), Refusal::NotAPackage);
    }
    let mut other = bytes.clone();
    other[0] ^= 1;
    assert!(Package::try_open_mut(&mut other).is_err());
    assert!(PackageBuf::try_open(other).is_err());
}

/// The bytes can be overwritten; what is then no package can be started.
#[test]
fn bytes_overwritten() {
    let mut slide = slide();
    slide.as_bytes_mut().fill(7);
    assert_eq!(slide.totals().err(), Some(Refusal::NotAPackage));
    assert_eq!(slide.put_item("/a", ""), Err(Refusal::NotAPackage));
    assert_eq!(slide.restart(50), Ok(()));
    assert_eq!(slide.put_item("/a", ""), Ok(()));
}
