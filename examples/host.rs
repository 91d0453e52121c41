// A host program in Rust: a payload is encoded, 512 bits in a row are damaged, and the block is corrected and read again.
const PAYLOAD: usize = 15_296;
const FRAME: usize = 16_320;

extern "C" {
    fn g9751_i4_encode(payload: *const u8, payload_len: usize, frame: *mut u8, frame_len: usize) -> u8;
    fn g9751_i4_correct(block: *const u8, block_len: usize, frame: *mut u8, frame_len: usize) -> u8;
    fn g9751_i4_extract(block: *const u8, block_len: usize, payload: *mut u8, payload_len: usize) -> u8;
}

type Entry = unsafe extern "C" fn(*const u8, usize, *mut u8, usize) -> u8;

// A `&` and a `&mut` slice never overlap, which is all that the entries ask.
fn call(entry: Entry, input: &[u8], output: &mut [u8]) -> u8 {
    unsafe { entry(input.as_ptr(), input.len(), output.as_mut_ptr(), output.len()) }
}

fn main() {
    let payload: Vec<u8> = (0..PAYLOAD).map(|i| (31 * i % 256) as u8).collect();
    let (mut frame, mut restored, mut read_back) = ([0; FRAME], [0; FRAME], [0; PAYLOAD]);
    println!("encode {}", call(g9751_i4_encode, &payload, &mut frame));
    let mut block = frame;
    block[100..164].iter_mut().for_each(|byte| *byte ^= 255);
    println!("correct {}, frame as sent: {}", call(g9751_i4_correct, &block, &mut restored), restored == frame);
    println!("extract {}, payload as sent: {}", call(g9751_i4_extract, &restored, &mut read_back), read_back[..] == payload);
    println!("damaged block: extract {}", call(g9751_i4_extract, &block, &mut read_back));
    println!("no buffer: encode {}", call(g9751_i4_encode, &payload, &mut []));
}
