//! The proved library and this codec under one type.

use crate::proved;
use second::{Params, ReadAnswer, Refusal, Sizes};

type SizesCall = fn(&Params, &[u16]) -> Result<Sizes, Refusal>;
type WriteCall = fn(&Params, &[u16], &[u8], &mut [u8], &mut [u8]) -> Refusal;
type ReadCall = fn(&Params, &[u16], &[u8], &mut [u8], &mut [u8], &mut [u16]) -> ReadAnswer;

/// The three calls of one of them.
pub struct Codec {
    pub sizes: SizesCall,
    pub write: WriteCall,
    pub read: ReadCall,
}

pub const PROVED: Codec = Codec {
    sizes: proved::sizes,
    write: proved::write,
    read: proved::read,
};

pub const SECOND: Codec = Codec {
    sizes: second::sizes,
    write: second::write,
    read: second::read,
};
