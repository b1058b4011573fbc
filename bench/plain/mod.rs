// The whole axis once more, in plain Rust, written from docs/RULES.md alone. It shares no code with the crates, so that what both answer
// can be compared.
pub mod axis;
pub mod block;
pub mod drive;
pub mod profile;
