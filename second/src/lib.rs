//! A second codec for JAB Code symbols: message bytes to a matrix of colour
//! indices, and a sampled matrix back to bytes.
//!
//! It was written from the documents 01 and 02, the papers they name and the
//! readings of them in docs/DECISIONS.md, without sight of the proved library, so
//! that its answers can stand beside that library's.

#![forbid(unsafe_code)]

pub mod bits;
pub mod chance;
pub mod code;
pub mod codec;
pub mod generator;
pub mod geometry;
pub mod masking;
pub mod mending;
pub mod params;
pub mod reserved;
pub mod stream;
pub mod symbol;

pub use bits::Bits;
pub use codec::{read, sizes, write, ReadAnswer};
pub use params::{Params, Refusal, Sizes};
pub use symbol::Symbol;
