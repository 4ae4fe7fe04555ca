//! An independent implementation of the services on packages, in the plainest form.
//!
//! It is written from the requirements alone and shares no code or tables with the library it is compared
//! with. Polynomials are maps from words to coefficients, and every definition is followed word for word.

pub mod check;
pub mod coefficients;
pub mod formula;
pub mod generate;
pub mod inclusions;
pub mod json;
pub mod leads;
pub mod lines;
pub mod list;
pub mod other_rules;
pub mod overlaps;
pub mod package;
pub mod packing;
pub mod poly;
pub mod refusal;
pub mod services;
pub mod sha256;
pub mod standing;
pub mod steps;
pub mod word;
