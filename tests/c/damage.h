// Damage: what of a block, or of a single word, is received wrong. A wrong bit is an inverted one.
#pragma once
#include "layout.h"
#include "random.h"

static inline void invert_bit(uint8_t *bytes, int i)
{
	bytes[i / 8] ^= 128 >> i % 8;
}

// so many bits, the same step apart
static inline void invert_apart(uint8_t *bytes, int count, int first, int step)
{
	for (int j = 0; j < count; j++)
		invert_bit(bytes, first + step * j);
}

// neighbouring bits, up to the end of the block
static inline void damage_burst(uint8_t *block, int first, int length)
{
	for (int i = first; i < first + length && i < 8 * FRAME; i++)
		invert_bit(block, i);
}

enum { MOST_ANYWHERE = 2000 };

// so many of the bits of a block or word, anywhere
static inline void damage_anywhere(uint8_t *bytes, int wrong, int bits)
{
	uint32_t chosen[MOST_ANYWHERE];
	require(wrong <= MOST_ANYWHERE, "%d wrong bits", wrong);
	choose(chosen, wrong, bits);
	for (int n = 0; n < wrong; n++)
		invert_bit(bytes, chosen[n]);
}

// each bit of the block is wrong with this probability, whatever the others are
static inline void damage_at_rate(uint8_t *block, uint32_t millionths)
{
	for (int i = 0; i < 8 * FRAME; i++)
		if (next_random(1000000) < millionths)
			invert_bit(block, i);
}

// as many wrong bits in one inner word, among its places from `first` on
static inline void damage_word(uint8_t *block, int k, int errors, int first)
{
	uint32_t places[PLACES];
	choose(places, errors, PLACES - first);
	for (int e = 0; e < errors; e++)
		invert_bit(block, INNER * (first + places[e]) + k);
}

// as many wrong bits in each of so many inner words
static inline void damage_words(uint8_t *block, int words, int errors)
{
	uint32_t chosen[INNER];
	choose(chosen, words, INNER);
	for (int i = 0; i < words; i++)
		damage_word(block, chosen[i], errors, 0);
}

// each place of an inner word at random
static inline void destroy_word(uint8_t *block, int k)
{
	for (int p = 0; p < PLACES; p++)
		if (next_random(2))
			invert_bit(block, INNER * p + k);
}

// another symbol in outer word w
static inline void change_symbol(uint8_t *block, int w, int s)
{
	int bits = bits_in(w, s), first = bit_of(w, s);
	int change = 1 + next_random((1 << bits) - 1);
	for (int i = 0; i < bits; i++)
		if (change >> i & 1)
			invert_bit(block, first + i);
}

// so many of them, from symbol `from` on
static inline void change_symbols(uint8_t *block, int w, int n, int from)
{
	uint32_t chosen[SYMBOLS];
	choose(chosen, n, symbols_in(w) - from);
	for (int i = 0; i < n; i++)
		change_symbol(block, w, from + chosen[i]);
}

// so many symbols of outer word w with all their bits wrong
static inline void invert_symbols(uint8_t *block, int w, int n)
{
	uint32_t chosen[SYMBOLS];
	choose(chosen, n, symbols_in(w));
	for (int i = 0; i < n; i++)
		damage_burst(block, bit_of(w, chosen[i]), bits_in(w, chosen[i]));
}

// one wrong bit of each of these inner words in outer word w, each in another symbol
static inline void damage_by_words(uint8_t *block, int w, const uint32_t *words, int n)
{
	int taken[SYMBOLS] = { 0 };
	for (int k = 0; k < n;) {
		int s = next_random(symbols_in(w)), first = bit_of(w, s), i = (INNER + words[k] - first % INNER) % INNER;
		if (taken[s] || i >= bits_in(w, s))
			continue;
		taken[s] = 1;
		invert_bit(block, first + i);
		k++;
	}
}

// so many wrong symbols of a single outer word
static inline void damage_symbols(unsigned int *word, int symbols, int errors)
{
	uint32_t places[SYMBOLS];
	choose(places, errors, symbols);
	for (int e = 0; e < errors; e++)
		word[places[e]] ^= 1 + next_random(1023);
}

// every byte at random
static inline void noise(uint8_t *block)
{
	for (int i = 0; i < FRAME; i++)
		block[i] = next_random(256);
}
