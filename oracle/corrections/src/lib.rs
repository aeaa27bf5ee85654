//! Which of several finishes is current (requests ), read from the words of the requests and
//! of docs/RULES.md alone: nothing of Hulmbax, of the crate or of the other programs here is used.
pub mod edges;
pub mod frame;
pub mod generate;
pub mod list;
pub mod random;
pub mod reading;
pub mod write;
