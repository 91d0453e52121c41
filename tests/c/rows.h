// Where the words of a G.709 frame or row stand, and damage to them: row r has the words from 16 r on, and the bytes of a word are sixteen apart.
#pragma once
#include "g709.h"
#include "random.h"

enum { FRAME_ROWS = 4, ROW = G709_ROW_BYTES, ROW_DATA = G709_ROW_DATA_BYTES, ROW_WORDS = 16, FRAME_WORDS = FRAME_ROWS * ROW_WORDS, WORD_BYTES = 255, WORD_DATA = 239 };

// entries that write an answer, and those that only check
typedef uint8_t (*writer)(const uint8_t *in, size_t n, uint8_t *out, size_t space);
typedef uint8_t (*checker)(const uint8_t *block, size_t n);

// byte s of word w
static inline int byte_of(int w, int s)
{
	return ROW * (w / ROW_WORDS) + ROW_WORDS * s + w % ROW_WORDS;
}

// so many other bytes in word w
static inline void change_bytes(uint8_t *block, int w, int n)
{
	uint32_t chosen[WORD_BYTES];
	choose(chosen, n, WORD_BYTES);
	for (int i = 0; i < n; i++)
		block[byte_of(w, chosen[i])] ^= 1 + next_random(255);
}

// so many in each of the first words
static inline void change_words(uint8_t *block, int words, int n)
{
	for (int w = 0; w < words; w++)
		change_bytes(block, w, n);
}

// neighbouring bytes with all their bits wrong
static inline void invert_bytes(uint8_t *block, int first, int length)
{
	for (int i = first; i < first + length; i++)
		block[i] ^= 255;
}
