// codes.py writes this file from the rows of the table: do not edit it.
//! Numbers of `feddurzai.h`.

/// The interface that this crate is made for: `FEDDURZAI_INTERFACE`.
pub const INTERFACE: u32 = 12;
/// The number of codes: `FEDDURZAI_CODES`.
pub const CODES: u16 = 2083;
