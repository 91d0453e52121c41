// Corrections of blocks as cables deliver them, and of the slowest that are known: the proved corrector against the codec of peer_codec.c, on the same blocks in
// turn, as in frames.c. The answer is not known beforehand: it is what the peers make of the block with each of the kernel's answers tested.
#include "slow_words.h"

enum { ROUNDS = 1001 };

// inner words with more than eight wrong bits
static int lost(void)
{
	int counts[INNER] = { 0 }, words = 0;
	for (int i = 0; i < 8 * FRAME; i++)
		counts[i % INNER] += (frame[i / 8] ^ block[i / 8]) >> (7 - i % 8) & 1;
	for (int k = 0; k < INNER; k++)
		words += counts[k] > RADIUS;
	return words;
}

static void at_rate(int millionths)
{
	damage_at_rate(block, millionths);
}

static void scattered(int bits)
{
	damage_anywhere(block, bits, 8 * FRAME);
}

static void random_block(int unused)
{
	(void)unused;
	noise(block);
}

// so many inner words with one wrong bit each in every outer word, each in another symbol
static void lost_words(int words)
{
	uint32_t chosen[RADIUS];
	choose(chosen, words, INNER);
	for (int w = 0; w < WORDS; w++)
		damage_by_words(block, w, chosen, words);
	require(lost() == words, "%d lost inner words", lost());
}

// so many symbols of every outer word with all their bits wrong, drawn until all inner words are lost
static void inverted_symbols(int symbols)
{
	do {
		memcpy(block, frame, FRAME);
		for (int w = 0; w < WORDS; w++)
			invert_symbols(block, w, symbols);
	} while (lost() < INNER);
}

static void slow_and_last(int unused)
{
	(void)unused;
	make_words_slow();
	require(lost() == INNER, "%d lost inner words", lost());
}

struct row {
	const char *name;
	void (*damage)(int);
	int amount;
};

static const struct row rows[] = {
	{ "wrong bits at 10^-5", at_rate, 10 },
	{ "wrong bits at 10^-4", at_rate, 100 },
	{ "wrong bits at 5·10^-4", at_rate, 500 },
	{ "wrong bits at 10^-3", at_rate, 1000 },
	{ "wrong bits at 1.5·10^-3", at_rate, 1500 },
	{ "wrong bits at 2·10^-3", at_rate, 2000 },
	{ "wrong bits at 2.41·10^-3", at_rate, 2410 },
	{ "300 scattered bits", scattered, 300 },
	{ "350 scattered bits", scattered, 350 },
	{ "2,000 scattered bits", scattered, 2000 },
	{ "a random block", random_block, 0 },
	{ "8 lost inner words, 8 wrong symbols in every outer word", lost_words, RADIUS },
	{ "64 lost inner words, 8 wrong symbols in every outer word", inverted_symbols, RADIUS },
	{ "64 slow inner words, wrong bits in the last 8 symbols of every outer word", slow_and_last, 0 },
};

enum { ROWS = sizeof rows / sizeof *rows };

static double times[ROWS][2][ROUNDS];

// Blocks whose sent frame came out, those that were refused, and those that the peers answered wrongly.
static int restored[ROWS], refused[ROWS], wrong[ROWS];

static void measure(int r, int round)
{
	const struct row *row = &rows[r];
	int numbers[2], before = wrong_blocks;
	new_frame();
	row->damage(row->amount);
	clear_outputs();
	take_turns(correct, round, ROUNDS, times[r], numbers);
	compare_corrections(numbers[0], numbers[1], row->name);
	int sent = numbers[0] == 0 && !memcmp(ours_out, frame, FRAME);
	require(sent || lost() > 0, "%s: proved answer %d, although no inner word is lost", row->name, numbers[0]);
	restored[r] += sent;
	refused[r] += numbers[0] != 0;
	wrong[r] += wrong_blocks - before;
}

static void print_row(int r)
{
	double middle[2], high[2];
	for (int s = 0; s < 2; s++) {
		middle[s] = median(times[r][s], ROUNDS) / 1000;
		high[s] = percentile(times[r][s], ROUNDS, 90) / 1000;
	}
	printf("| %s | %.1f | %.1f | %.1f | %.1f | %.2f | %.2f | %d | %d | %d |\n", rows[r].name, middle[0], high[0], middle[1], high[1], middle[1] / middle[0],
	       high[1] / high[0], restored[r], refused[r], wrong[r]);
}

int main(void)
{
	require(peer_init(), "no memory for the peers");
	find_slow_words();
	for (int round = 0; round < ROUNDS; round++)
		for (int r = 0; r < ROWS; r++)
			measure(r, round);
	printf("corrections of blocks as cables deliver them, and of the slowest that are known, %d blocks of each kind: medians and 90th percentiles\n\n", ROUNDS);
	printf("| case | proved (µs) | 90th percentile | libfec + kernel (µs) | 90th percentile | ratio | 90th percentile | restored | refused | the peers wrong |\n");
	printf("|---|---|---|---|---|---|---|---|---|---|\n");
	for (int r = 0; r < ROWS; r++)
		print_row(r);
	printf("\n");
	print_wrong_answers();
	return 0;
}
