// Whole frames, from bytes to bytes: the proved entries of crates/frames against the codec of peer_codec.c, on the same payloads and blocks in one run. The
// two take turns, and who goes first changes from frame to frame. Every answer is compared, outside of what is timed; so the kernel's answers are tested
// there too, not in the peers' time.
#include "blocks.h"

enum { ROUNDS = 1001 };

static int our_encode(void)
{
	return g9751_i4_encode(payload, PAYLOAD, ours_out, FRAME);
}

static int peers_encode(void)
{
	peer_encode(payload, peers_out);
	return 0;
}

static int our_check(void)
{
	return g9751_i4_check(block, FRAME);
}

static int peers_check(void)
{
	return peer_check(block);
}

static int our_extract(void)
{
	return g9751_i4_extract(block, FRAME, ours_out, PAYLOAD);
}

static int peers_extract(void)
{
	return peer_extract(block, peers_out);
}

static const side encode[2] = { our_encode, peers_encode }, check[2] = { our_check, peers_check }, extract[2] = { our_extract, peers_extract };

struct row {
	const char *name;
	const side *sides;
	// damage: as many wrong bits in each of so many inner words, or one burst
	int words, errors, burst;
	// the answer, and what is to be written
	int number;
	const uint8_t *written;
	size_t length;
};

static const struct row rows[] = {
	{ "encode", encode, 0, 0, 0, 0, frame, FRAME },
	{ "check", check, 0, 0, 0, 0, NULL, 0 },
	{ "extract", extract, 0, 0, 0, 0, payload, PAYLOAD },
	{ "correct: clean", correct, 0, 0, 0, 0, frame, FRAME },
	{ "correct: 1 wrong bit in one inner word", correct, 1, 1, 0, 0, frame, FRAME },
	{ "correct: 1 wrong bit in every inner word", correct, INNER, 1, 0, 0, frame, FRAME },
	{ "correct: 2 in every inner word", correct, INNER, 2, 0, 0, frame, FRAME },
	{ "correct: 4 in every inner word", correct, INNER, 4, 0, 0, frame, FRAME },
	{ "correct: 8 in every inner word", correct, INNER, 8, 0, 0, frame, FRAME },
	{ "correct: a burst of 512", correct, 0, 0, 512, 0, frame, FRAME },
	{ "correct: 40 in each of 8 inner words (refused)", correct, 8, 40, 0, UNCORRECTABLE, NULL, 0 },
};

enum { ROWS = sizeof rows / sizeof *rows };

static double times[ROWS][2][ROUNDS];

static void compare(const struct row *row, const int *numbers)
{
	require(numbers[0] == row->number, "%s: proved answer %d", row->name, numbers[0]);
	if (row->written)
		require(!memcmp(ours_out, row->written, row->length), "%s: what the proved code has written", row->name);
	if (row->sides == correct)
		compare_corrections(numbers[0], numbers[1], row->name);
	else
		require(numbers[1] == numbers[0] && !memcmp(peers_out, ours_out, FRAME), "%s: the peers' answer %d", row->name, numbers[1]);
}

static void measure(int r, int round)
{
	const struct row *row = &rows[r];
	int numbers[2];
	new_frame();
	damage_words(block, row->words, row->errors);
	damage_burst(block, next_random(8 * FRAME - row->burst + 1), row->burst);
	clear_outputs();
	take_turns(row->sides, round, ROUNDS, times[r], numbers);
	compare(row, numbers);
}

int main(void)
{
	require(peer_init(), "no memory for the peers");
	// every row in each round: where the machine is slower for a while, it is so for all of them
	for (int round = 0; round < ROUNDS; round++)
		for (int r = 0; r < ROWS; r++)
			measure(r, round);
	printf("medians of %d frames; the ratio is theirs to ours, above 1 where the proved code is faster\n\n", ROUNDS);
	print_heading("libfec + kernel");
	for (int r = 0; r < ROWS; r++)
		print_medians(rows[r].name, ROUNDS, times[r], 1);
	printf("\n");
	print_wrong_answers();
	return 0;
}
