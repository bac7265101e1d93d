//! What is held side by side in one binary: the original as it stands, the original without its sse branches
//! (both made by oracle/build), and the port's C face.

#[path = "../target/oracle/as_it_stands.rs"]
pub mod as_it_stands;
#[allow(dead_code)]
#[path = "../bindings/rust/src/face.rs"]
pub mod face;
#[path = "../target/oracle/without_sse.rs"]
pub mod without_sse;
