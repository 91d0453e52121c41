// Random numbers for the programs of tests/c and bench/, the same in every run, and the end of a program where something does not hold.
#pragma once
#include <stdarg.h>
#include <stdint.h>
#include <stdio.h>
#include <stdlib.h>

static uint64_t state = 88172645463325252u;

static inline uint32_t next_random(uint32_t below)
{
	state ^= state << 13;
	state ^= state >> 7;
	state ^= state << 17;
	return (uint32_t)(state >> 20) % below;
}

// n distinct numbers below `below`
static inline void choose(uint32_t *numbers, int n, uint32_t below)
{
	for (int i = 0; i < n; i++) {
		int again = 1;
		while (again) {
			numbers[i] = next_random(below);
			again = 0;
			for (int k = 0; k < i; k++)
				again |= numbers[k] == numbers[i];
		}
	}
}

__attribute__((format(printf, 2, 3))) static inline void require(int condition, const char *format, ...)
{
	if (!condition) {
		va_list values;
		va_start(values, format);
		fputs("FAILED: ", stderr);
		vfprintf(stderr, format, values);
		fputs("\n", stderr);
		exit(1);
	}
}
