//! Foreign buffers whose rows all lie in one place of a long heap: how long
//! each call takes at most, beside one pass over the buffer.

#[path = "../tests/support/foreign.rs"]
mod foreign;
mod support;

use foreign::{Call, Share, CALLS, HEADERS, KINDS};
use std::hint::black_box;
use support::{median, seconds};
use zombirels::package::Package;

/// The bytes of the heaps.
const HEAPS: [usize; 3] = [1_000_000, 4_000_000, 16_000_000];
/// A call is timed so often, unless that takes too long.
const TIMES: usize = 5;
const LONG: f64 = 0.5;

/// What a run takes, in milliseconds of processor time.
fn milliseconds(run: impl FnOnce()) -> f64 {
    let start = seconds();
    run();
    (seconds() - start) * 1e3
}

/// The median of some runs' times.
fn middle(mut run: impl FnMut() -> f64) -> f64 {
    let mut times = vec![run()];
    while times.len() < TIMES && times.iter().sum::<f64>() < LONG * 1e3 {
        times.push(run());
    }
    median(times)
}

/// One pass over the buffer: the sum of its bytes.
fn pass(buffer: &[u8]) -> f64 {
    middle(|| {
        milliseconds(|| {
            let sum: u64 = black_box(buffer).iter().map(|&byte| u64::from(byte)).sum();
            black_box(sum);
        })
    })
}

/// What a call takes on the buffer.
fn time(buffer: &[u8], call: Call, out: &mut [u8]) -> f64 {
    let mut package = buffer.to_vec();
    middle(|| {
        package.copy_from_slice(buffer);
        let package = Package::open_mut(&mut package);
        milliseconds(|| {
            black_box(call(package, out)).ok();
        })
    })
}

/// The calls on all buffers with such a heap.
fn at(heap: usize) {
    let mut most = CALLS.map(|_| (0.0, String::new()));
    let mut out = vec![0; heap + 6_000_000];
    let mut passes = Vec::new();
    for kind in &KINDS {
        for header in HEADERS {
            for (share, of) in [(Share::Heap, "the heap"), (Share::Used, "the bytes in use")] {
                let buffer = foreign::buffer(kind, header, share, heap);
                passes.push(pass(&buffer));
                for ((_, call), most) in CALLS.iter().zip(&mut most) {
                    let time = time(&buffer, *call, &mut out);
                    if most.0 < time {
                        *most = (time, format!("{} {}, {of}", header.rows, kind.what));
                    }
                }
            }
        }
    }
    let one = median(passes);
    println!("heap of {heap} bytes, one pass {one:.3}");
    for ((what, _), (time, rows)) in CALLS.iter().zip(most) {
        println!("{what:26} {time:10.3} {:10.2}  {rows}", time / one);
    }
}

fn main() {
    println!("milliseconds of a call at most; in passes over the buffer; on which rows");
    for heap in HEAPS {
        at(heap);
    }
}
