// What the programs of bench/ that time two sides share: the proved code and the peers in turn, on the same payload or block.
#pragma once
#include <stdio.h>
#include "rounds.h"

typedef int (*side)(void);

// The answers of the two sides, and the time that each takes in this round; who goes first changes from round to round.
static inline void take_turns(const side *sides, int round, int rounds, double times[2][rounds], int *numbers)
{
	for (int turn = 0; turn < 2; turn++) {
		int s = (round + turn) % 2;
		double start = now();
		numbers[s] = sides[s]();
		times[s][round] = now() - start;
	}
}

static inline void print_heading(const char *peers)
{
	printf("| case | proved (µs) | %s (µs) | ratio |\n|---|---|---|---|\n", peers);
}

// the medians with so many digits after the point, and their ratio
static inline void print_medians(const char *name, int rounds, double times[2][rounds], int digits)
{
	double a = median(times[0], rounds), b = median(times[1], rounds);
	printf("| %s | %.*f | %.*f | %.2f |\n", name, digits, a / 1000, digits, b / 1000, b / a);
}
