//! Rows on the logging of corrections, of zero frames with inverted bits: the three counters after each answer, and worst lists.

use crate::lines::list;
use cases::damage::{apart, inverted};
use cases::layout::{changes, place, FRAME, INNER_WORDS};
use cases::payloads::zero_frame;
use cases::refusals::Content::{self, AsSent, Correctable, Lost};
use cases::refusals::{entry_of, Code, Given, Operation};
use second::logging::{worst_words, Counters};
use second::{correct_frame, reported, Changes, Corrected};

pub fn print() {
    counters();
    worst_lists();
}

/// Each answer once; cleared again; then from numbers just below the largest, which they reach or stop at, and where they stay.
fn counters() {
    let mut counters = Counters::default();
    for (count, step, n, space, content) in [
        (0, 1, FRAME, FRAME, AsSent),
        (8, 64, FRAME, FRAME, Correctable),
        (512, 1, FRAME, FRAME, Correctable),
        (513, 1, FRAME, FRAME, Lost),
        (0, 1, FRAME - 1, FRAME, AsSent),
        (0, 1, FRAME, FRAME - 1, AsSent),
    ] {
        counted(&mut counters, (count, step), n, space, content);
    }
    println!("cleared, {}", read(Counters::default()));
    let mut counters = Counters { frames: 4_294_967_294, uncorrectable: 4_294_967_294, bits: 4_294_967_290 };
    println!("set, {}", read(counters));
    for (count, step, content) in [(8, 64, Correctable), (513, 1, Lost), (8, 64, Correctable), (513, 1, Lost)] {
        counted(&mut counters, (count, step), FRAME, FRAME, content);
    }
}

/// A row on the counters after one more answer, to so many bytes of a block with bits inverted from bit 0 on.
fn counted(counters: &mut Counters, (count, step): (usize, usize), length: usize, space: usize, content: Content) {
    let answer = corrected(&apart(count, 0, step), length, space, content);
    counters.count(&answer);
    let number = refusal(&answer);
    println!("counted, length {length}, errors {count} from 0 apart {step}, buffer of {space}, refusal {number}, {}", read(*counters));
}

fn read(counters: Counters) -> String {
    format!("counters:{}", list(&counters.read()))
}

/// Graded errors stand on both sides of the border between data places and parity places: by either of the two numbers alone the list would be another one.
/// After them ties: eight words with different data places, and 22; three words equal in both numbers, and sixteen; all 64, with parity places alone.
fn worst_lists() {
    for (count, first, step) in [(0, 0, 1), (5, 37, 64), (9, 1, 12_800), (512, 0, 1)] {
        worst_list(&format!("errors {count} from {first} apart {step}"), &apart(count, first, step), Correctable);
    }
    in_words("(5 k) mod 9", |k| 5 * k % 9, (0, 1), 1_946);
    for (count, words, from) in [(4, (0, 9), 1_948), (4, (0, 3), 1_948), (2, (7, 21), 1_951), (4, (1, 4), 0), (8, (0, 1), 1_952)] {
        in_words(&count.to_string(), |_| count, words, from);
    }
    worst_list("errors 513 from 0 apart 1", &apart(513, 0, 1), Lost);
    beyond_a_report();
}

/// A row on errors of every so many inner words, so many of word k, side by side from a place that goes by k.
fn in_words(told: &str, count: impl Fn(usize) -> usize, (first, step): (usize, usize), from: usize) {
    let words = (first..INNER_WORDS).step_by(step);
    let bits: Vec<usize> = words.flat_map(|k| apart(count(k), place(k, from + k % 7), INNER_WORDS)).collect();
    worst_list(&format!("{told} errors of inner words k = {first}, {}, .. from place {from} + k mod 7", first + step), &bits, Correctable);
}

/// A row on the worst list of an answer; that of a refusal has zeros.
fn worst_list(told: &str, bits: &[usize], content: Content) {
    let (changes, _) = reported(&corrected(bits, FRAME, FRAME, content));
    println!("worst list, {told}:{}", list(&worst_words(&changes)));
}

/// A row on numbers that no correction gives: the totals of all but the first five inner words are more than 16 bits hold. Totals, data places and numbers of
/// words all have a say in its list.
fn beyond_a_report() {
    let of_word = |k: u16| Changes { data: 65_535 - 512 * (k % 2), parity: 512 * (k % 2) + 4_096 * (k / 5) };
    let told = "data places 65535 - 512 (k mod 2) and parity places 512 (k mod 2) + 4096 (k div 5) of each inner word k";
    println!("worst list, {told}:{}", list(&worst_words(&std::array::from_fn(|k| of_word(k as u16)))));
}

/// The answer to the first n bytes of the zero frame with these bits inverted. Its number is that of the table; if it is not refused, it is the zero frame, with
/// the numbers of these bits.
fn corrected(bits: &[usize], n: usize, space: usize, content: Content) -> Result<Corrected, u8> {
    let answer = correct_frame(&inverted(zero_frame(), bits.iter().copied())[..n], space);
    assert_eq!(refusal(&answer), entry_of(Operation::Correct, Code::Frame).answer(&Given::of_length(n, space, content)));
    if let Ok(corrected) = &answer {
        assert_eq!(*corrected, Corrected { frame: zero_frame().to_vec(), changes: changes(bits), sum: bits.len() as u32 });
    }
    answer
}

/// The number of a refusal, or 0.
fn refusal(answer: &Result<Corrected, u8>) -> u8 {
    answer.as_ref().err().copied().unwrap_or(0)
}
