//! The comparison of the proved libraries with the second program, file by file, for the program `agree` and for tests.

mod buffers;
mod epochs;
mod events;
pub mod files;
mod parts;
