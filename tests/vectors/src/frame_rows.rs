//! Rows on frames: payloads that are encoded, checked and extracted again, refusals, blocks that are no frames, and corrections. Both kinds of frames have the
//! same lengths, and what is refused here is refused of both.

use crate::errors::Errors;
use crate::far;
use crate::lines::buffer;
use crate::rows::{given, received};
use cases::damage::apart;
use cases::layout::{FRAME, PAYLOAD};
use cases::payloads::{self, from_bytes, Data::*};
use cases::refusals::Content::{AsSent, Correctable, Lost};
use cases::refusals::{entry_of, Code, Entry, Operation};

pub fn print() {
    let [encode, check, extract, correct] = entries(Code::Frame);
    payloads(encode, check, extract);
    refusals(Code::Frame);
    corrections(correct);
}

/// The four entries of a code.
pub fn entries(code: Code) -> [&'static Entry; 4] {
    [Operation::Encode, Operation::Check, Operation::Extract, Operation::Correct].map(|operation| entry_of(operation, code))
}

fn payloads(encode: &Entry, check: &Entry, extract: &Entry) {
    for data in [Each(0), Each(255), Counted, Bit(0), Bit(7_649), Bit(7_650), Bit(114_749), Bit(114_750), Bit(122_367)] {
        let payload = from_bytes(payloads::of(data, PAYLOAD));
        println!("payload, {data}:{}", buffer(&payload));
        given(encode, PAYLOAD, data, FRAME, AsSent);
        let none = Errors::spaced(0, 1, 0, 0);
        received(check, PAYLOAD, data, &none, 0, AsSent);
        assert!(received(extract, PAYLOAD, data, &none, PAYLOAD, AsSent) == payload);
    }
}

pub fn refusals(code: Code) {
    let [encode, check, extract, correct] = entries(code);
    for n in encode.past() {
        given(encode, n, Each(0), FRAME - 1, AsSent);
    }
    for space in encode.past_space() {
        given(encode, PAYLOAD, Each(0), space, AsSent);
    }
    for n in check.past() {
        given(check, n, Each(0), 0, AsSent);
        given(extract, n, Each(0), PAYLOAD - 1, AsSent);
    }
    for i in [0, 64, 124_767, 124_768, 124_927, 124_928, 130_559] {
        given(check, FRAME, Bit(i), 0, Correctable);
        given(extract, FRAME, Bit(i), PAYLOAD, Correctable);
    }
    for space in extract.past_space() {
        given(extract, FRAME, Each(255), space, Lost);
    }
    for (n, space) in [(0, 0), (FRAME - 1, FRAME - 1), (FRAME + 1, FRAME)] {
        given(correct, n, Each(0), space, AsSent);
    }
    for space in correct.past_space() {
        given(correct, FRAME, Each(0), space, AsSent);
    }
    for space in [FRAME + 1, FRAME] {
        given(correct, FRAME, Each(255), space, Lost);
    }
}

/// A frame comes back if no outer word has more than eight wrong symbols from the inner words with more than eight errors. Bits 0 to 512 are nine of inner
/// word 0, in nine symbols of outer word 0. From 129,984 on nine bits are parity bits of one inner word, of which no outer word has any. 191 apart, 576
/// bits are nine of each inner word, 41 in most outer words; 1,008 apart, 124 bits are 31 of each of four inner words, at most eight in an outer word, and
/// the next five are parity bits of them; 976 apart, one outer word has nine. Bit 124,927 is the last data place of inner word 63, and 124,928 the first
/// parity place of inner word 0; 512 bits from 124,672 on are four data places and four parity places of each inner word; 5,632 from 124,928 on are all parity
/// bits.
fn corrections(correct: &Entry) {
    assert!(far::nine_in_frame(&apart(513, 0, 1)));
    for (data, count, first, step, content) in [
        (Each(0), 0, 0, 1, AsSent),
        (Each(0), 1, 0, 1, Correctable),
        (Each(0), 1, 130_559, 1, Correctable),
        (Each(0), 8, 0, 64, Correctable),
        (Each(0), 512, 0, 1, Correctable),
        (Each(0), 513, 0, 1, Lost),
        (Each(0), 9, 0, 12_800, Correctable),
        (Each(0), 130_560, 0, 1, Lost),
        (Each(0), 1, 124_927, 1, Correctable),
        (Each(0), 1, 124_928, 1, Correctable),
        (Counted, 0, 0, 1, AsSent),
        (Counted, 512, 5, 255, Correctable),
        (Counted, 576, 5, 191, Lost),
        (Counted, 9, 129_984, 64, Correctable),
        (Counted, 124, 3, 1_008, Correctable),
        (Counted, 128, 3, 976, Lost),
        (Counted, 129, 3, 1_008, Correctable),
        (Counted, 512, 124_672, 1, Correctable),
        (Counted, 5_632, 124_928, 1, Correctable),
    ] {
        received(correct, PAYLOAD, data, &Errors::spaced(count, 1, first, step), FRAME, content);
    }
}
