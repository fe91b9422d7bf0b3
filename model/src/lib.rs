//! An independent, plain model of the repair engine: fields, stores, the code
//! with its read sheets, the six calls, and session files.
//!
//! It follows the rules in `docs/` and shares no code with the engine it is
//! compared with.

pub mod bench;
pub mod code;
pub mod compare;
pub mod engine;
pub mod field;
pub mod generate;
pub mod random;
pub mod session;
pub mod sheets;
pub mod store;
