// Inner words that take the proved corrector longest: the shortest recurrence of their syndromes is longer than eight, so that they have no code word near, and
// the recurrence, by which wrong places are looked for, does not pass its test. Of words with random wrong bits it is one in some 2,500.
#pragma once
#include "blocks.h"

enum { ORDER = 2047, SYNDROMES = 16, LAST_BITS = 32, KINDS = 8 };

// The powers of a in field B, and their exponents.
static uint16_t powers[ORDER], exponents[ORDER + 1];

static inline void make_powers(void)
{
	for (int i = 0, x = 1; i < ORDER; i++) {
		powers[i] = x;
		exponents[x] = i;
		x = x < 1024 ? 2 * x : 2 * x ^ 2053;
	}
}

// x y / z
static inline uint16_t scaled(uint16_t x, uint16_t y, uint16_t z)
{
	return x && y ? powers[(exponents[x] + exponents[y] + ORDER - exponents[z]) % ORDER] : 0;
}

// the order of the shortest recurrence, by Berlekamp and Massey
static inline int recurrence(const uint16_t *t)
{
	uint16_t c[SYNDROMES + 1] = { 1 }, previous[SYNDROMES + 1] = { 1 }, before[SYNDROMES + 1], discrepancy = 1;
	int order = 0;
	for (int n = 0, since = 1; n < SYNDROMES; n++, since++) {
		uint16_t d = 0;
		for (int i = 0; i <= order; i++)
			d ^= scaled(c[i], t[n - i], 1);
		if (!d)
			continue;
		memcpy(before, c, sizeof c);
		for (int i = since; i <= SYNDROMES; i++)
			c[i] ^= scaled(d, previous[i - since], discrepancy);
		if (2 * order <= n) {
			order = n + 1 - order;
			memcpy(previous, before, sizeof c);
			discrepancy = d;
			since = 0;
		}
	}
	return order;
}

// The frame bits of inner word k in the last eight symbols of all outer words, and how many there are.
static int last_bits[INNER][LAST_BITS], last_count[INNER];

static inline void find_last_bits(void)
{
	for (int w = 0; w < WORDS; w++)
		for (int i = bit_of(w, symbols_in(w) - RADIUS), end = i + 10 * RADIUS; i < end; i++)
			last_bits[i % INNER][last_count[i % INNER]++] = i;
}

// whether inner word k is slow with those of its last bits wrong that the number has a 1 for
static inline int is_slow(int k, uint32_t wrong)
{
	uint16_t t[SYNDROMES] = { 0 };
	for (int b = 0; b < last_count[k]; b++)
		for (int j = 0; wrong >> b & 1 && j < SYNDROMES; j++)
			t[j] ^= powers[(j + 1) * (PLACES - 1 - last_bits[k][b] / INNER) % ORDER];
	return recurrence(t) > RADIUS;
}

// Some numbers of wrong bits of each inner word with which it is slow.
static uint32_t slow[INNER][KINDS];

static inline void find_slow_words(void)
{
	make_powers();
	find_last_bits();
	for (int k = 0; k < INNER; k++)
		for (int n = 0; n < KINDS; n++)
			do {
				slow[k][n] = next_random(UINT32_MAX);
			} while (!is_slow(k, slow[k][n]));
}

// all inner words slow, by wrong bits in the last eight symbols of the outer words
static inline void make_words_slow(void)
{
	for (int k = 0; k < INNER; k++) {
		uint32_t wrong = slow[k][next_random(KINDS)];
		for (int b = 0; b < last_count[k]; b++)
			if (wrong >> b & 1)
				invert_bit(block, last_bits[k][b]);
	}
}
