//! The rows that crates/acceptance is held to, and the blocks and reports of samples/, made with the second encoder and decoder.
//!
//!     vectors           prints the rows
//!     vectors FOLDER    writes the samples into the folder
//!
//! A row gives data to a call, or what is received when the word or frame of the data is sent (`errors`); the call is made, and what goes in and what comes out
//! are printed (`rows`, `lines`). The rows themselves: `word_rows`, `frame_rows`, `g709_rows`, `logging_rows`. Payloads, damage and the table of refusals
//! are those of the crate `cases`.
//!
//! What comes out is held to how the row is made. The number of the answer follows, by the table, from the lengths and from what the row says its content is.
//! Where a correction is not refused, the sent word or frame has to come back, with the numbers of the errors that were made. Where nine errors are refused,
//! that no code word is near follows from the errors (`far`); where there are more, the decoder alone says so.

mod errors;
mod far;
mod frame_rows;
mod g709_rows;
mod lines;
mod logging_rows;
mod rows;
mod samples;
mod word_rows;

fn main() {
    if let Some(folder) = std::env::args().nth(1) {
        return samples::write_all(folder.as_ref());
    }
    word_rows::print();
    frame_rows::print();
    logging_rows::print();
    g709_rows::print();
}
