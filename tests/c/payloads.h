// Payloads: every one is filled here, byte by byte, by the number of the byte or from a sequence of which x is the last number.
#pragma once
#include "layout.h"
#include "random.h"

static inline void fill_payload(uint8_t *payload, uint8_t (*byte)(int i, uint32_t *x))
{
	uint32_t x = 1;
	for (int i = 0; i < PAYLOAD; i++)
		payload[i] = byte(i, &x);
}

static inline uint8_t patterned_byte(int i, uint32_t *x)
{
	(void)x;
	return 31 * i % 256;
}

// another payload with each call
static inline uint8_t random_byte(int i, uint32_t *x)
{
	(void)i;
	(void)x;
	return next_random(256);
}

// the highest bytes of a congruential sequence, the same ones with each call
static inline uint8_t congruential_byte(int i, uint32_t *x)
{
	(void)i;
	*x = *x * 1664525 + 1013904223;
	return *x >> 24;
}
