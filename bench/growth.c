// How the time of a correction grows with the number of damaged inner words: the proved corrector against the codec of peer_codec.c, on the same blocks in
// turn, as in frames.c.
#include "blocks.h"

enum { ROUNDS = 301 };

static const int words[] = { 0, 1, 2, 4, 8, 12, 16, 19, 20, 32, 64 };
static const int errors[] = { 1, 2, 8 };

enum { COUNTS = sizeof words / sizeof *words, ERRORS = sizeof errors / sizeof *errors };

static double times[ERRORS][COUNTS][2][ROUNDS];

static void measure(int e, int w, int round)
{
	int numbers[2];
	new_frame();
	damage_words(block, words[w], errors[e]);
	clear_outputs();
	take_turns(correct, round, ROUNDS, times[e][w], numbers);
	require(numbers[0] == 0 && !memcmp(ours_out, frame, FRAME), "%d wrong bits in %d inner words: proved answer %d", errors[e], words[w], numbers[0]);
	compare_corrections(numbers[0], numbers[1], "growth");
}

int main(void)
{
	require(peer_init(), "no memory for the peers");
	for (int round = 0; round < ROUNDS; round++)
		for (int e = 0; e < ERRORS; e++)
			for (int w = 0; w < COUNTS; w++)
				measure(e, w, round);
	printf("correction by the number of damaged inner words, medians of %d frames: proved (µs), ratio theirs to ours\n\n| damaged inner words |", ROUNDS);
	for (int e = 0; e < ERRORS; e++)
		printf(" %d wrong bit%s each |", errors[e], errors[e] > 1 ? "s" : "");
	printf("\n|---|");
	for (int e = 0; e < ERRORS; e++)
		printf("---|");
	for (int w = 0; w < COUNTS; w++) {
		printf("\n| %d |", words[w]);
		for (int e = 0; e < ERRORS; e++) {
			double a = median(times[e][w][0], ROUNDS), b = median(times[e][w][1], ROUNDS);
			printf(" %.1f, %.2f |", a / 1000, b / a);
		}
	}
	printf("\n");
	return 0;
}
