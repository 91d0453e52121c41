// G.709 frames and single rows, from bytes to bytes: the proved entries of crates/g709 against the codec of peer_g709.c, on the same payloads and blocks in one
// run. The two take turns, and who goes first changes from frame to frame. Every answer is compared, outside of what is timed.
#include "g709_blocks.h"

enum { ROUNDS = 1001, LONGEST_BURST = RADIUS * ROW_WORDS };

static void nothing(int unused)
{
	(void)unused;
}

static void in_every_word(int wrong)
{
	change_words(block, FRAME_WORDS, wrong);
}

static void in_one_word(int wrong)
{
	change_bytes(block, next_random(FRAME_WORDS), wrong);
}

static void burst(int length)
{
	invert_bytes(block, next_random(FRAME - length + 1), length);
}

static void random_block(int unused)
{
	(void)unused;
	noise(block);
}

struct row {
	const char *name;
	const struct family *family;
	const side *sides;
	void (*damage)(int);
	// how much of it, and whether it is beyond reach
	int amount, beyond;
};

static const struct row rows[] = {
	{ "encode", &whole_frame, encode, nothing, 0, 0 },
	{ "check", &whole_frame, check, nothing, 0, 0 },
	{ "extract", &whole_frame, extract, nothing, 0, 0 },
	{ "correct: clean", &whole_frame, correct, nothing, 0, 0 },
	{ "correct: 1 wrong byte in one word", &whole_frame, correct, in_one_word, 1, 0 },
	{ "correct: 1 wrong byte in every word", &whole_frame, correct, in_every_word, 1, 0 },
	{ "correct: 2 in every word", &whole_frame, correct, in_every_word, 2, 0 },
	{ "correct: 4 in every word", &whole_frame, correct, in_every_word, 4, 0 },
	{ "correct: 8 in every word", &whole_frame, correct, in_every_word, RADIUS, 0 },
	{ "correct: a burst of 128 bytes", &whole_frame, correct, burst, LONGEST_BURST, 0 },
	{ "correct: 9 in one word (refused)", &whole_frame, correct, in_one_word, RADIUS + 1, 1 },
	{ "correct: a random block (refused)", &whole_frame, correct, random_block, 0, 1 },
	{ "one row: encode", &single_row, encode, nothing, 0, 0 },
	{ "one row: check", &single_row, check, nothing, 0, 0 },
	{ "one row: extract", &single_row, extract, nothing, 0, 0 },
	{ "one row: correct, clean", &single_row, correct, nothing, 0, 0 },
	{ "one row: correct, 8 in every word", &single_row, correct, in_every_word, RADIUS, 0 },
};

enum { ROWS = sizeof rows / sizeof *rows };

static double times[ROWS][2][ROUNDS];

// Blocks that were refused, or of which another frame was made.
static int refused[ROWS], others[ROWS];

static void measure(int r, int round)
{
	const struct row *row = &rows[r];
	int numbers[2];
	family = row->family;
	new_frame();
	row->damage(row->amount);
	clear_outputs();
	take_turns(row->sides, round, ROUNDS, times[r], numbers);
	compare_answers(numbers, row->name);
	refused[r] += numbers[0] != 0;
	if (row->sides == correct)
		others[r] += numbers[0] == 0 && memcmp(ours_out, frame, bytes());
	require(row->beyond || (!refused[r] && !others[r]), "%s: proved answer %d", row->name, numbers[0]);
}

int main(void)
{
	require(peer_g709_init(), "no memory for the peers");
	for (int round = 0; round < ROUNDS; round++)
		for (int r = 0; r < ROWS; r++)
			measure(r, round);
	printf("G.709 frames, medians of %d; the ratio is theirs to ours, above 1 where the proved code is faster\n\n", ROUNDS);
	print_heading("libfec");
	for (int r = 0; r < ROWS; r++)
		print_medians(rows[r].name, ROUNDS, times[r], 2);
	printf("\n");
	for (int r = 0; r < ROWS; r++)
		if (refused[r] || others[r])
			printf("%s: %d refused, %d gave another frame\n", rows[r].name, refused[r], others[r]);
	return 0;
}
