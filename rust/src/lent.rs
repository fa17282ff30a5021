//! The archive's functions called with slices, one way for each shape.
//!
//! `call` is always one of [`ffi`](crate::ffi): it reads the slices that it is
//! lent, writes those that are lent for writing, and touches nothing else.

use crate::ffi::{self, Reply};

/// A function that reads one slice.
type Ask<T> = unsafe extern "C" fn(*const u8, usize) -> T;

/// A function that reads two.
type AskTwo<T> = unsafe extern "C" fn(*const u8, usize, *const u8, usize) -> T;

/// A function that reads one and writes another.
type Write = unsafe extern "C" fn(*const u8, usize, *mut u8, usize) -> Reply;

/// A function that reads two and writes another.
type WriteTwo = unsafe extern "C" fn(*const u8, usize, *const u8, usize, *mut u8, usize) -> Reply;

/// A function that changes the first by the second.
type Change = unsafe extern "C" fn(*mut u8, usize, *const u8, usize) -> Reply;

/// A function that changes the first by two others.
type ChangeTwo = unsafe extern "C" fn(*mut u8, usize, *const u8, usize, *const u8, usize) -> Reply;

pub(crate) fn ask<T>(call: Ask<T>, a: &[u8]) -> T {
    // SAFETY: pointer and length come from one slice.
    unsafe { call(a.as_ptr(), a.len()) }
}

pub(crate) fn ask_two<T>(call: AskTwo<T>, a: &[u8], b: &[u8]) -> T {
    // SAFETY: each pointer and its length come from one slice.
    unsafe { call(a.as_ptr(), a.len(), b.as_ptr(), b.len()) }
}

pub(crate) fn write(call: Write, a: &[u8], out: &mut [u8]) -> Reply {
    // SAFETY: each pointer and its length come from one slice; the output's is
    // lent for writing.
    unsafe { call(a.as_ptr(), a.len(), out.as_mut_ptr(), out.len()) }
}

pub(crate) fn write_two(call: WriteTwo, a: &[u8], b: &[u8], out: &mut [u8]) -> Reply {
    let (out, out_length) = (out.as_mut_ptr(), out.len());
    // SAFETY: each pointer and its length come from one slice; the output's is
    // lent for writing.
    unsafe { call(a.as_ptr(), a.len(), b.as_ptr(), b.len(), out, out_length) }
}

pub(crate) fn change(call: Change, package: &mut [u8], a: &[u8]) -> Reply {
    // SAFETY: each pointer and its length come from one slice; the package's
    // is lent for writing.
    unsafe { call(package.as_mut_ptr(), package.len(), a.as_ptr(), a.len()) }
}

pub(crate) fn change_two(call: ChangeTwo, package: &mut [u8], a: &[u8], b: &[u8]) -> Reply {
    let (package, length) = (package.as_mut_ptr(), package.len());
    // SAFETY: each pointer and its length come from one slice; the package's
    // is lent for writing.
    unsafe { call(package, length, a.as_ptr(), a.len(), b.as_ptr(), b.len()) }
}

// Functions that stand alone in their shape.

pub(crate) fn start(package: &mut [u8], capacity: u64) -> Reply {
    // SAFETY: pointer and length come from one slice, lent for writing.
    unsafe { ffi::opc_start(package.as_mut_ptr(), package.len(), capacity) }
}

pub(crate) fn cut_part(package: &mut [u8], name: &[u8], pieces: u64) -> Reply {
    let (package, length) = (package.as_mut_ptr(), package.len());
    // SAFETY: each pointer and its length come from one slice; the package's
    // is lent for writing.
    unsafe { ffi::opc_cut_part(package, length, name.as_ptr(), name.len(), pieces) }
}

pub(crate) fn put_relationship(package: &mut [u8], texts: [&[u8]; 4], mode: u64) -> Reply {
    let [source, id, kind, target] = texts;
    // SAFETY: each pointer and its length come from one slice; the package's
    // is lent for writing.
    unsafe {
        ffi::opc_put_relationship(
            package.as_mut_ptr(),
            package.len(),
            source.as_ptr(),
            source.len(),
            id.as_ptr(),
            id.len(),
            kind.as_ptr(),
            kind.len(),
            mode,
            target.as_ptr(),
            target.len(),
        )
    }
}

pub(crate) fn run(package: &mut [u8], script: &[u8], out: &mut [u8]) -> Reply {
    // SAFETY: each pointer and its length come from one slice; the package's
    // and the output's are lent for writing.
    unsafe {
        ffi::opc_run(
            package.as_mut_ptr(),
            package.len(),
            script.as_ptr(),
            script.len(),
            out.as_mut_ptr(),
            out.len(),
        )
    }
}

pub(crate) fn read_part(package: &[u8], name: &[u8], offset: u64, out: &mut [u8]) -> Reply {
    // SAFETY: each pointer and its length come from one slice; the output's is
    // lent for writing.
    unsafe {
        ffi::opc_read_part(
            package.as_ptr(),
            package.len(),
            name.as_ptr(),
            name.len(),
            offset,
            out.as_mut_ptr(),
            out.len(),
        )
    }
}

pub(crate) fn part_at(package: &[u8], position: u64, out: &mut [u8]) -> Reply {
    let (out, out_length) = (out.as_mut_ptr(), out.len());
    // SAFETY: each pointer and its length come from one slice; the output's is
    // lent for writing.
    unsafe { ffi::opc_part_at(package.as_ptr(), package.len(), position, out, out_length) }
}

/// The entry is told by its set, its position and the field.
pub(crate) fn entry_at(package: &[u8], entry: [u64; 3], out: &mut [u8]) -> Reply {
    let [set, position, field] = entry;
    // SAFETY: each pointer and its length come from one slice; the output's is
    // lent for writing.
    unsafe {
        ffi::opc_entry_at(
            package.as_ptr(),
            package.len(),
            set,
            position,
            field,
            out.as_mut_ptr(),
            out.len(),
        )
    }
}

/// The texts are the source, the id and the package IRI.
pub(crate) fn resolve_relationship(package: &[u8], texts: [&[u8]; 3], out: &mut [u8]) -> Reply {
    let [source, id, base] = texts;
    // SAFETY: each pointer and its length come from one slice; the output's is
    // lent for writing.
    unsafe {
        ffi::opc_resolve_relationship(
            package.as_ptr(),
            package.len(),
            source.as_ptr(),
            source.len(),
            id.as_ptr(),
            id.len(),
            base.as_ptr(),
            base.len(),
            out.as_mut_ptr(),
            out.len(),
        )
    }
}
