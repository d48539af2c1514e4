//! Trying the library against the model: calls, where they come from, and which classes of answers they reach.

pub mod alike;
pub mod apart;
pub mod arrival;
pub mod call;
pub mod console;
pub mod coverage;
pub mod discover;
pub mod events;
pub mod generate;
pub mod outside;
pub mod pairs;
pub mod ports;
pub mod profile;
pub mod random;
pub mod requests;
pub mod saved;
pub mod sheets;
pub mod shelf;
pub mod small;
