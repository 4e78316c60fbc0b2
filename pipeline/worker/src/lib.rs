//! The worker's parts: what `./worker` does, over any [`disk::Disk`], so that the fault test can put one that forgets in the place of the real one.
#![deny(unsafe_code, missing_docs)]

pub mod arguments;
pub mod beside;
pub mod count;
pub mod decode;
pub mod disk;
pub mod failure;
pub mod memory;
pub mod progress;
pub mod saved;
pub mod table;
