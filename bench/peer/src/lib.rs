//! An independent U5: interpreter, assembler and lister in plain Rust, written from docs/ alone.

pub mod devices;
pub mod machine;
pub mod text;
