//! Zombirels: packages of Open Packaging (ISO/IEC 29500-2), their names, media
//! types, IRIs and relationships.
//!
//! A *package* holds *parts*, which have names such as `/slides/t3.tiff`,
//! content and a media type, and *relationships* between them. A viewer opens
//! one, goes through its parts and reads them:
//!
//! ```
//! use zombirels::package::{Mode, PackageBuf};
//!
//! let mut slide = PackageBuf::start(10_000)?; // or PackageBuf::try_open(bytes)?
//! slide.put_default("tiff", "image/tiff")?;
//! slide.put_item("/Tiles/T3.tiff/[1].last.piece", "world")?; // in any order
//! slide.put_item("/tiles/t3.tiff/[0].piece", "hello ")?; // and any letter case
//! slide.put_relationship("/", "first", "a:tile", Mode::Internal, "tiles/t3.tiff")?;
//!
//! for part in slide.parts()? {
//!     let media_type = part.media_type().unwrap_or("no type".into());
//!     println!("{part}: {media_type}, {} bytes", part.len());
//!     assert_eq!(part.to_vec(), b"hello world");
//! }
//! for link in slide.relationships_of("/")? {
//!     println!("{} leads to {} ({})", link.id, link.target, link.mode);
//! }
//! # Ok::<(), zombirels::Refusal>(())
//! ```
//!
//! - [`package`] keeps a package in one buffer, lent or owned;
//! - [`names`] judges, compares and takes apart part names and item names,
//!   and judges the other fields of a package;
//! - [`iri`] judges and resolves IRIs, composes and resolves pack IRIs, and
//!   names the Relationships part of a source;
//! - [`script`] makes many calls on a package by one.
//!
//! This crate is a thin, safe layer over the engine's static archive. A call
//! takes texts and bytes as whatever is `AsRef<[u8]>`, and never fails
//! otherwise than by a [`Refusal`]: any bytes may be given, and a refused call
//! changes nothing. The archive allocates nothing; here the calls whose answer
//! is a `Vec`, a `String` or an iterator over such do.
//!
//! # Features
//!
//! - `std`, a default one: `package::PartReader`, and refusals as
//!   `std::io::Error`. Without it the crate needs `alloc` alone.

#![no_std]
#![deny(missing_docs)]

extern crate alloc;
#[cfg(feature = "std")]
extern crate std;

mod ffi;
pub mod iri;
mod lent;
pub mod names;
mod owned;
pub mod package;
mod refusal;
pub mod script;

pub use refusal::Refusal;
