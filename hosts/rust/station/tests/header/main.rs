//! The headers in `include/` against the Rust side: the layout of structs, the constants and the words.

mod compiler;
mod layout;
mod numbers;
