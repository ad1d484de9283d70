//! The independent reference program: written from the outline and the decided points of docs/DECISIONS.md, and not from the project's code, so that comparing the two finds errors in either.

pub mod answer;
pub mod bytes;
pub mod convert;
pub mod edges;
pub mod engine;
pub mod generate;
pub mod hold;
pub mod incomplete;
pub mod matrix;
pub mod moving;
pub mod print;
pub mod refusal;
pub mod request;
pub mod scheme;
pub mod statistics;
pub mod tools;

pub use refusal::Refusal;
