//! A thousand calls by one run of a script, beside a thousand by themselves.
//! What a run takes is told three times: for the run alone, with its answers
//! gone through, and with its script built before as well.

mod support;

use std::cell::RefCell;
use support::package::{asked, buffer, tile};
use zombirels::package::{Package, CAPACITY_MAX};
use zombirels::script::{Run, Script};

const CALLS: usize = 1000;
const ITEMS: usize = 200;
/// How often the thousand are made in a round.
const PASSES: usize = 20;

fn build(add: impl Fn(&mut Script, &[u8]), names: &[Vec<u8>]) -> Script {
    let mut script = Script::new();
    for name in names {
        add(&mut script, name);
    }
    script
}

/// The lengths in the answers, summed.
fn summed(run: Run) -> usize {
    let lengths = run.answers().map(|answer| answer.length().expect("held"));
    lengths.sum()
}

/// Times a thousand calls made by `one`, and those that `add` adds, on items
/// of so many bytes.
fn compare(
    what: &str,
    bytes: usize,
    one: impl Fn(&Package, &[u8]) -> usize,
    add: impl Fn(&mut Script, &[u8]) + Copy,
) {
    let mut buffer = buffer();
    let package = Package::start(&mut buffer, CAPACITY_MAX).expect("room");
    for i in 0..ITEMS {
        package.put_item(tile(i), vec![7; bytes]).expect("room");
    }
    let package = RefCell::new(package);
    let names: Vec<Vec<u8>> = (0..CALLS).map(|i| asked(i % ITEMS)).collect();
    let script = build(add, &names);
    let mut outs = [(); 3].map(|()| vec![0; script.output_len()]);
    let [first, second, third] = &mut outs;

    let mut single = |_| {
        let package = package.borrow();
        names.iter().map(|name| one(&package, name)).sum()
    };
    let mut run = |_| package.borrow_mut().run(&script, first).calls();
    let mut told = |_| summed(package.borrow_mut().run(&script, second));
    let mut built = |_| {
        let script = build(add, &names);
        summed(package.borrow_mut().run(&script, third))
    };
    assert_eq!(run(0), CALLS);
    let sum: usize = single(0);
    assert_eq!((told(0), built(0)), (sum, sum));
    let times = support::in_turn(PASSES, 1, [&mut single, &mut run, &mut told, &mut built]);
    let [alone, ..] = times;
    for (how, time) in ["by themselves", "run", "answers too", "script too"]
        .into_iter()
        .zip(times)
    {
        let (micros, ratio) = (time * 1e6, time / alone);
        println!("{what:26} {how:14} {micros:10.1} {ratio:8.2}");
    }
}

fn main() {
    println!("microseconds of {CALLS} calls; ratio: against calls by themselves");
    let length = 64;
    compare(
        "find among 200",
        length,
        |package, name| package.find_item(name).expect("held"),
        |script, name| {
            script.find_item(name);
        },
    );
    for length in [16, 64, 1024] {
        let out = RefCell::new(vec![0; length]);
        compare(
            &format!("read part of {length} bytes"),
            length,
            |package, name| {
                let out = &mut out.borrow_mut();
                package.read_part(name, 0, out).expect("held")
            },
            |script, name| {
                script.read_part(name, 0, length);
            },
        );
    }
}
