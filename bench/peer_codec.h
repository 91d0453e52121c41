// The codec that one can write with libfec and the Linux kernel's lib/bch.c alone, from bytes to bytes. Sizes are fixed: a payload has 15,296 bytes, a
// frame and a block 16,320. An answer is 0 or the refusal's number, as in include/g9751_i4.h, and a refusal leaves the output as it was.
#pragma once
#include <stdint.h>

// Tables and control structures, once for all calls; 0 if there is no memory for them.
int peer_init(void);

void peer_encode(const uint8_t *payload, uint8_t *frame);

// The 88 parity places of all inner words, from the others.
void peer_inner_parity(uint8_t *frame);

int peer_check(const uint8_t *block);

int peer_extract(const uint8_t *block, uint8_t *payload);

// The kernel's decoder can name places that give no code word. Where no_code_words is null, its answers are taken as they are. Otherwise each is tested
// first; a word whose answer gives no code word is left as it was received, and counted.
int peer_correct(const uint8_t *block, uint8_t *frame, int *no_code_words);
