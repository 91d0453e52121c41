//! The proved library for programs in Rust: its entries on frames, from the archive that a terminal links (`libframes.a`, or `libg709.a` for G.709 frames and
//! rows), and those on single words, the correctors with their reports, the worst list and products, which an archive of their own exports for tests (`libexports.a`).
//! Buffers are slices, and every answer is a value or a refusal.
//!
//! Each call is safe for all slices: the library takes any length, reads and writes within the slices that it is lent, writes nothing that is lent as `&`,
//! keeps no state and no pointer, and does not unwind. A `&` and a `&mut` slice of a call never overlap, which is what the entries ask of their caller.

/// A refusal, with the number that document 01 or 02 gives it.
#[derive(Clone, Copy, Debug, PartialEq, Eq)]
#[repr(u8)]
pub enum Refusal {
    PayloadLength = 1,
    BlockLength = 2,
    BufferSize = 3,
    NoCodeWord = 4,
    Uncorrectable = 5,
    WordLength = 6,
    Symbol = 7,
    RowLength = 8,
}

impl Refusal {
    pub fn number(self) -> u8 {
        self as u8
    }
}

/// `Ok` for 0. No contract allows another number than those of the table.
fn answer(number: u8) -> Result<(), Refusal> {
    use Refusal::*;
    match number {
        0 => Ok(()),
        1 => Err(PayloadLength),
        2 => Err(BlockLength),
        3 => Err(BufferSize),
        4 => Err(NoCodeWord),
        5 => Err(Uncorrectable),
        6 => Err(WordLength),
        7 => Err(Symbol),
        8 => Err(RowLength),
        other => panic!("the library answered {other}, which is no refusal"),
    }
}

/// The numbers of an answer that are packed above the refusal's number. No contract allows others than zeros with a refusal.
fn unpacked(packed: u64) -> Result<u64, Refusal> {
    let refused = answer(packed as u8);
    assert!(refused.is_ok() || packed >> 8 == 0, "the library answered {packed}, a refusal with other numbers");
    refused.map(|()| packed >> 8)
}

/// Payloads and frames, as include/g9751_i4.h declares them.
pub mod frames {
    use super::{answer, unpacked, Refusal};

    pub const PAYLOAD_BYTES: usize = 15_296;
    pub const FRAME_BYTES: usize = 16_320;
    pub const INNER_WORDS: usize = 64;

    extern "C" {
        fn g9751_i4_encode(payload: *const u8, payload_len: usize, frame: *mut u8, frame_len: usize) -> u8;
        fn g9751_i4_check(block: *const u8, block_len: usize) -> u8;
        fn g9751_i4_extract(block: *const u8, block_len: usize, payload: *mut u8, payload_len: usize) -> u8;
        fn g9751_i4_correct(block: *const u8, block_len: usize, frame: *mut u8, frame_len: usize) -> u8;
        fn exports_correct_frame(
            block: *const u8,
            block_len: usize,
            frame: *mut u8,
            frame_len: usize,
            data: *mut u16,
            data_len: usize,
            parity: *mut u16,
            parity_len: usize,
        ) -> u64;
    }

    /// Writes the frame of the payload.
    pub fn encode(payload: &[u8], frame: &mut [u8]) -> Result<(), Refusal> {
        answer(unsafe { g9751_i4_encode(payload.as_ptr(), payload.len(), frame.as_mut_ptr(), frame.len()) })
    }

    /// Is the block the frame of a payload?
    pub fn check(block: &[u8]) -> Result<(), Refusal> {
        answer(unsafe { g9751_i4_check(block.as_ptr(), block.len()) })
    }

    /// Writes the payload of the frame.
    pub fn extract(block: &[u8], payload: &mut [u8]) -> Result<(), Refusal> {
        answer(unsafe { g9751_i4_extract(block.as_ptr(), block.len(), payload.as_mut_ptr(), payload.len()) })
    }

    /// Writes the frame that is restored from the received block.
    pub fn correct(block: &[u8], frame: &mut [u8]) -> Result<(), Refusal> {
        answer(unsafe { g9751_i4_correct(block.as_ptr(), block.len(), frame.as_mut_ptr(), frame.len()) })
    }

    /// Writes the frame that is restored from the received block, and gives the report: the sum of wrong bits, and of each inner word the wrong data places
    /// in `data` and the wrong parity places in `parity` (0 for a refusal). Each of the two is written only if it has place for exactly 64.
    pub fn correct_with_report(block: &[u8], frame: &mut [u8], data: &mut [u16], parity: &mut [u16]) -> Result<u64, Refusal> {
        unpacked(unsafe {
            exports_correct_frame(
                block.as_ptr(),
                block.len(),
                frame.as_mut_ptr(),
                frame.len(),
                data.as_mut_ptr(),
                data.len(),
                parity.as_mut_ptr(),
                parity.len(),
            )
        })
    }
}

/// G.709 frames and single rows of them, as include/g709.h declares them.
pub mod g709 {
    use super::{answer, unpacked, Refusal};

    pub const PAYLOAD_BYTES: usize = 15_296;
    pub const FRAME_BYTES: usize = 16_320;
    pub const ROW_DATA_BYTES: usize = 3_824;
    pub const ROW_BYTES: usize = 4_080;

    extern "C" {
        fn g709_encode(payload: *const u8, payload_len: usize, frame: *mut u8, frame_len: usize) -> u8;
        fn g709_check(block: *const u8, block_len: usize) -> u8;
        fn g709_extract(block: *const u8, block_len: usize, payload: *mut u8, payload_len: usize) -> u8;
        fn g709_correct(block: *const u8, block_len: usize, frame: *mut u8, frame_len: usize) -> u8;
        fn g709_encode_row(data: *const u8, data_len: usize, row: *mut u8, row_len: usize) -> u8;
        fn g709_check_row(row: *const u8, row_len: usize) -> u8;
        fn g709_extract_row(row: *const u8, row_len: usize, data: *mut u8, data_len: usize) -> u8;
        fn g709_correct_row(row: *const u8, row_len: usize, out: *mut u8, out_len: usize) -> u8;
        fn exports_g709_correct(block: *const u8, block_len: usize, frame: *mut u8, frame_len: usize) -> u32;
        fn exports_g709_correct_row(row: *const u8, row_len: usize, out: *mut u8, out_len: usize) -> u32;
    }

    /// Writes the frame of the payload.
    pub fn encode(payload: &[u8], frame: &mut [u8]) -> Result<(), Refusal> {
        answer(unsafe { g709_encode(payload.as_ptr(), payload.len(), frame.as_mut_ptr(), frame.len()) })
    }

    /// Is the block the frame of a payload?
    pub fn check(block: &[u8]) -> Result<(), Refusal> {
        answer(unsafe { g709_check(block.as_ptr(), block.len()) })
    }

    /// Writes the payload of the frame.
    pub fn extract(block: &[u8], payload: &mut [u8]) -> Result<(), Refusal> {
        answer(unsafe { g709_extract(block.as_ptr(), block.len(), payload.as_mut_ptr(), payload.len()) })
    }

    /// Writes the frame that is restored from the received block.
    pub fn correct(block: &[u8], frame: &mut [u8]) -> Result<(), Refusal> {
        answer(unsafe { g709_correct(block.as_ptr(), block.len(), frame.as_mut_ptr(), frame.len()) })
    }

    /// The same; returns how many bytes it changed.
    pub fn correct_counted(block: &[u8], frame: &mut [u8]) -> Result<u64, Refusal> {
        unpacked(u64::from(unsafe { exports_g709_correct(block.as_ptr(), block.len(), frame.as_mut_ptr(), frame.len()) }))
    }

    /// Writes the row of the data.
    pub fn encode_row(data: &[u8], row: &mut [u8]) -> Result<(), Refusal> {
        answer(unsafe { g709_encode_row(data.as_ptr(), data.len(), row.as_mut_ptr(), row.len()) })
    }

    /// Is this the row of some data?
    pub fn check_row(row: &[u8]) -> Result<(), Refusal> {
        answer(unsafe { g709_check_row(row.as_ptr(), row.len()) })
    }

    /// Writes the data of the row.
    pub fn extract_row(row: &[u8], data: &mut [u8]) -> Result<(), Refusal> {
        answer(unsafe { g709_extract_row(row.as_ptr(), row.len(), data.as_mut_ptr(), data.len()) })
    }

    /// Writes the row that is restored from the received one.
    pub fn correct_row(row: &[u8], out: &mut [u8]) -> Result<(), Refusal> {
        answer(unsafe { g709_correct_row(row.as_ptr(), row.len(), out.as_mut_ptr(), out.len()) })
    }

    /// The same; returns how many bytes it changed.
    pub fn correct_row_counted(row: &[u8], out: &mut [u8]) -> Result<u64, Refusal> {
        unpacked(u64::from(unsafe { exports_g709_correct_row(row.as_ptr(), row.len(), out.as_mut_ptr(), out.len()) }))
    }
}

/// Single words of both codes.
pub mod words {
    use super::{answer, unpacked, Refusal};

    extern "C" {
        fn exports_check_outer(word: *const u16, word_len: usize) -> u8;
        fn exports_encode_outer(data: *const u16, data_len: usize, out: *mut u16, out_len: usize) -> u8;
        fn exports_correct_outer(word: *const u16, word_len: usize, out: *mut u16, out_len: usize) -> u32;
        fn exports_check_inner(word: *const u8, word_len: usize) -> u8;
        fn exports_encode_inner(data: *const u8, data_len: usize, out: *mut u8, out_len: usize) -> u8;
        fn exports_correct_inner(word: *const u8, word_len: usize, out: *mut u8, out_len: usize) -> u32;
    }

    /// Is the word a code word of the outer code?
    pub fn check_outer(word: &[u16]) -> Result<(), Refusal> {
        answer(unsafe { exports_check_outer(word.as_ptr(), word.len()) })
    }

    /// Writes the sixteen parity symbols of the data.
    pub fn encode_outer(data: &[u16], out: &mut [u16]) -> Result<(), Refusal> {
        answer(unsafe { exports_encode_outer(data.as_ptr(), data.len(), out.as_mut_ptr(), out.len()) })
    }

    /// Writes the code word within eight symbols; returns how many it changed.
    pub fn correct_outer(word: &[u16], out: &mut [u16]) -> Result<u64, Refusal> {
        unpacked(u64::from(unsafe { exports_correct_outer(word.as_ptr(), word.len(), out.as_mut_ptr(), out.len()) }))
    }

    /// Is the word a code word of the inner code?
    pub fn check_inner(word: &[u8]) -> Result<(), Refusal> {
        answer(unsafe { exports_check_inner(word.as_ptr(), word.len()) })
    }

    /// Writes the eleven parity bytes of the data.
    pub fn encode_inner(data: &[u8], out: &mut [u8]) -> Result<(), Refusal> {
        answer(unsafe { exports_encode_inner(data.as_ptr(), data.len(), out.as_mut_ptr(), out.len()) })
    }

    /// Writes the code word within eight places; returns how many data places and how many parity places it changed.
    pub fn correct_inner(word: &[u8], out: &mut [u8]) -> Result<(u64, u64), Refusal> {
        let packed = unsafe { exports_correct_inner(word.as_ptr(), word.len(), out.as_mut_ptr(), out.len()) };
        unpacked(u64::from(packed)).map(|changed| (changed % 256, changed / 256))
    }
}

/// Chains of products in the three fields: x times y, n times over. A factor stands for the element that its low bits are.
pub mod fields {
    extern "C" {
        fn exports_products_a(x: u16, y: u16, n: u32) -> u16;
        fn exports_products_b(x: u16, y: u16, n: u32) -> u16;
        fn exports_products_c(x: u16, y: u16, n: u32) -> u16;
    }

    /// In field A, of 1,024 elements.
    pub fn products_a(x: u16, y: u16, n: u32) -> u16 {
        unsafe { exports_products_a(x, y, n) }
    }

    /// In field B, of 2,048 elements.
    pub fn products_b(x: u16, y: u16, n: u32) -> u16 {
        unsafe { exports_products_b(x, y, n) }
    }

    /// In field C, of 256 elements.
    pub fn products_c(x: u16, y: u16, n: u32) -> u16 {
        unsafe { exports_products_c(x, y, n) }
    }
}

/// What is logged of a report.
pub mod logging {
    pub const LISTED: usize = 8;

    extern "C" {
        fn exports_worst_words(data: *const u16, data_len: usize, parity: *const u16, parity_len: usize, list: *mut u8, list_len: usize);
    }

    /// Writes the worst list of a report with these counts of data places and of parity places, of which there are 64 each, or they stand for zeros. The list
    /// is written only if it has exactly eight places.
    pub fn worst_words(data: &[u16], parity: &[u16], list: &mut [u8]) {
        unsafe { exports_worst_words(data.as_ptr(), data.len(), parity.as_ptr(), parity.len(), list.as_mut_ptr(), list.len()) }
    }
}

#[cfg(test)]
mod tests {
    use super::*;
    use cases::damage::inverted;
    use cases::payloads::{self, zero_frame, Data};
    use cases::refusals;

    #[test]
    fn frames_of_zeros() {
        let (payload, mut frame) = (payloads::of(Data::Each(0), frames::PAYLOAD_BYTES), [9; frames::FRAME_BYTES]);
        assert_eq!(frames::encode(&payload, &mut frame), Ok(()));
        assert_eq!(frame, zero_frame());
        let block = inverted(&frame, [0, 64, 130_559]);
        let (mut restored, mut data, mut parity) = ([9; frames::FRAME_BYTES], [9; frames::INNER_WORDS], [9; frames::INNER_WORDS]);
        assert_eq!(frames::correct_with_report(&block, &mut restored, &mut data, &mut parity), Ok(3));
        assert_eq!((restored, data[0], data[63], parity[0], parity[63]), (frame, 2, 0, 0, 1));
    }

    #[test]
    fn inner_words_of_zeros() {
        let mut out = [9; 255];
        assert_eq!(words::correct_inner(&inverted(&[0; 255], [0, 1_951, 1_952]), &mut out), Ok((2, 1)));
        assert_eq!(out, [0; 255]);
    }

    #[test]
    fn g709_frames_of_zeros() {
        let (zeros, mut frame) = ([0; g709::FRAME_BYTES], [9; g709::FRAME_BYTES]);
        assert_eq!(g709::encode(&zeros[..g709::PAYLOAD_BYTES], &mut frame), Ok(()));
        assert_eq!(frame, zeros);
        assert_eq!(g709::correct_counted(&inverted(&zeros, [0, 1, 8, 130_559]), &mut frame), Ok(3));
        assert_eq!(frame, zeros);
        let (zeros, mut row) = ([0; g709::ROW_BYTES], [9; g709::ROW_BYTES]);
        assert_eq!(g709::correct_row_counted(&inverted(&zeros, [0, 1, 32_639]), &mut row), Ok(2));
        assert_eq!(row, zeros);
    }

    #[test]
    fn worst_lists_of_a_few_counts() {
        let (mut data, mut parity, mut list) = ([0; frames::INNER_WORDS], [0; frames::INNER_WORDS], [9; logging::LISTED]);
        (data[0], data[37], parity[0], parity[63]) = (2, 8, 9, 88);
        logging::worst_words(&data, &parity, &mut list[1..]);
        assert_eq!(list, [9; logging::LISTED]);
        logging::worst_words(&data, &parity, &mut list);
        assert_eq!(list, [63, 0, 37, 64, 64, 64, 64, 64]);
        logging::worst_words(&data, &parity[1..], &mut list);
        assert_eq!(list, [37, 0, 64, 64, 64, 64, 64, 64]);
    }

    #[test]
    fn products_by_two() {
        assert_eq!((fields::products_a(512, 2, 1), fields::products_a(516, 2, 1), fields::products_a(516, 2, 0)), (9, 1, 516));
        assert_eq!((fields::products_b(1024, 2, 1), fields::products_b(1026, 2, 1), fields::products_b(1, 2, 11)), (5, 1, 5));
        assert_eq!((fields::products_c(128, 2, 1), fields::products_c(142, 2, 1), fields::products_c(256, 2, 1)), (29, 1, 0));
    }

    #[test]
    fn refusals_have_their_numbers() {
        assert_eq!(frames::encode(&[], &mut []).map_err(Refusal::number), Err(refusals::PAYLOAD_LENGTH));
        assert_eq!(frames::correct(&[], &mut []).map_err(Refusal::number), Err(refusals::BLOCK_LENGTH));
        assert_eq!(g709::correct_row(&[0; g709::ROW_BYTES - 1], &mut []).map_err(Refusal::number), Err(refusals::ROW_LENGTH));
        assert_eq!(g709::encode_row(&[0; g709::ROW_DATA_BYTES], &mut []).map_err(Refusal::number), Err(refusals::SPACE));
        assert_eq!(words::check_outer(&[1024; 17]).map_err(Refusal::number), Err(refusals::SYMBOL));
        assert_eq!(words::correct_inner(&[255; 254], &mut []).map_err(Refusal::number), Err(refusals::WORD_LENGTH));
    }
}
