//! What the programs and tests in Rust are made of, each in one place:
//!
//! * `payloads`: payloads and the data of single words, and what is sent for them;
//! * `damage`: which bits or symbols of it are received wrong;
//! * `refusals`: every entry with the lengths that it takes and its refusals in their order.
//!
//! Below them: random numbers (`random`), where things stand in a block (`layout`) and in G.709 frames and rows, with their damage (`g709`), inner code words
//! with few ones (`light`), and the second encoder and decoder by entry (`calls`). Everything is written from documents 01 and 02; the second encoder makes
//! frames and parity, and nothing here knows the library.

#![forbid(unsafe_code)]

pub mod calls;
pub mod damage;
pub mod g709;
pub mod layout;
pub mod light;
pub mod payloads;
pub mod random;
pub mod refusals;
