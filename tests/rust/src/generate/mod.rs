//! The generated texts and the calls made on them, always the same.

pub mod books;
pub mod broken;
pub mod bytes;
pub mod calls;
pub mod changes;
pub mod families;
pub mod limits;
pub mod splits;
pub mod tables;
pub mod widest;
