//! The second program: document 01's rules once more, with document 02's requests 01 (wide ports), 02 (groups from newer
//! shelves), 03 (DISCOVER), 04 (what a member can learn), 06 (the wardens' console), 07 (zone sheets), 08 (saved zoning)
//! and 09 (the small shelf), written from their texts alone.
//!
//! `large` has one function for each call of `include/shelf.h` and `small` one for each of `include/small.h`, with the
//! same meaning for every input: tables and buffers come as slices, numbers as `u32`, and the answer is a plain struct
//! with the header's fields. `console` has those of `include/console.h`, in the same way.

pub mod alike;
pub mod bench;
pub mod broadcast;
pub mod bytewise;
pub mod chains;
pub mod console;
pub mod discover;
pub mod links;
pub mod open;
pub mod permission;
pub mod ports;
pub mod refusals;
pub mod saved;
pub mod sheets;
pub mod shelves;
pub mod smp;
pub mod speaking;
pub mod straight;
pub mod tables;
pub mod trial;

pub use broadcast::Told;
pub use links::Elected;
pub use open::{Opened, Outcome};
pub use saved::{Loaded, Saved};
pub use sheets::{Exported, Imported};
pub use shelves::{large, small};
pub use smp::Answered;

#[cfg(test)]
mod cases;
