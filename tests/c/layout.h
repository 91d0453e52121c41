// Where things stand in a block, by document 01's section on outer words and inner words.
#pragma once
#include "g9751_i4.h"

enum { PAYLOAD = G9751_I4_PAYLOAD_BYTES, FRAME = G9751_I4_FRAME_BYTES, INNER = 64, PLACES = 2040, DATA_PLACES = 1952, INNER_BYTES = 255, INNER_DATA = 244 };
enum { WORDS = 16, SYMBOLS = 781, DATA_SYMBOLS = 765, LAST_SYMBOLS = 778, LAST_DATA = 762, WORD_BITS = 7810, RADIUS = 8 };

static inline int symbols_in(int w)
{
	return w < WORDS - 1 ? SYMBOLS : LAST_SYMBOLS;
}

// the bits that symbol s of word w has in the frame: the last data symbol of the last word has eight
static inline int bits_in(int w, int s)
{
	return w == WORDS - 1 && s == LAST_DATA - 1 ? 8 : 10;
}

// the first of them
static inline int bit_of(int w, int s)
{
	return WORD_BITS * w + 10 * s - (w == WORDS - 1 && s >= LAST_DATA ? 2 : 0);
}
