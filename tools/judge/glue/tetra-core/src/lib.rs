//! Glue: module list and the re-exports that the original files use.
pub mod address;
pub mod bitbuffer;
pub mod pdu_parse_error;
pub mod tetra_common;
pub use address::*;
pub use bitbuffer::BitBuffer;
pub use tetra_common::*;
