// The codec of peer_g709.c gives the proved answers, on G.709 frames and rows with damage of many kinds: what g709.c times on both sides is the same work.
#include "g709_blocks.h"

enum { BLOCKS = 200 };

static void nothing(void)
{
}

static void up_to_8_each(void)
{
	for (int w = 0; w < FRAME_WORDS; w++)
		change_bytes(block, w, next_random(RADIUS + 1));
}

static void nine_in_one(void)
{
	int lost = next_random(FRAME_WORDS);
	for (int w = 0; w < FRAME_WORDS; w++)
		change_bytes(block, w, w == lost ? RADIUS + 1 : RADIUS);
}

static void more_in_some(void)
{
	for (int w = next_random(FRAME_WORDS); w < FRAME_WORDS; w += 1 + next_random(FRAME_WORDS))
		change_bytes(block, w, RADIUS + 1 + next_random(WORD_BYTES - RADIUS));
}

static void scattered(void)
{
	for (int n = next_random(400); n > 0; n--)
		block[next_random(FRAME)] ^= 1 + next_random(255);
}

static void parity_alone(void)
{
	for (int w = 0; w < FRAME_WORDS; w++)
		for (int n = next_random(RADIUS + 1); n > 0; n--)
			block[byte_of(w, WORD_DATA + next_random(WORD_BYTES - WORD_DATA))] ^= 1 + next_random(255);
}

static void burst(void)
{
	int length = 1 + next_random(140);
	invert_bytes(block, next_random(FRAME - length + 1), length);
}

// over the end of a row, where its words end and others begin
static void burst_at_a_row_end(void)
{
	int length = 128 + next_random(128);
	invert_bytes(block, ROW * (1 + next_random(FRAME_ROWS - 1)) - 1 - next_random(length), length);
}

// the bytes of a word all inverted, which leaves one of its values at the sixteen roots wrong and fifteen zero
static void words_inverted(void)
{
	for (int w = next_random(FRAME_WORDS); w < FRAME_WORDS; w += 1 + next_random(FRAME_WORDS))
		for (int s = 0; s < WORD_BYTES; s++)
			block[byte_of(w, s)] ^= 255;
}

static void zeros(void)
{
	memset(block, 0, FRAME);
}

static void any_bytes(void)
{
	noise(block);
}

static int same_answers(const side *sides, const char *damage)
{
	clear_outputs();
	int numbers[] = { sides[0](), sides[1]() };
	compare_answers(numbers, damage);
	return numbers[0];
}

static void try(const char *name, void (*damage)(void))
{
	const struct family *families[] = { &whole_frame, &single_row };
	int corrected[2] = { 0, 0 };
	for (int i = 0; i < BLOCKS; i++) {
		new_frame();
		damage();
		for (int k = 0; k < 2; k++) {
			family = families[k];
			same_answers(encode, name);
			same_answers(check, name);
			same_answers(extract, name);
			corrected[k] += same_answers(correct, name) == 0;
		}
	}
	printf("    %s: %d corrected, %d refused; of their first rows %d and %d\n", name, corrected[0], BLOCKS - corrected[0], corrected[1], BLOCKS - corrected[1]);
}

int main(void)
{
	require(peer_g709_init(), "no memory for the peers");
	printf("same answers on G.709 frames and rows by the proved codec and by the peers', %d blocks of each kind:\n", BLOCKS);
	try("no damage", nothing);
	try("up to 8 wrong bytes in every word", up_to_8_each);
	try("8 in every word, 9 in one", nine_in_one);
	try("more than 8 in some words", more_in_some);
	try("scattered wrong bytes", scattered);
	try("up to 8 wrong parity bytes in every word", parity_alone);
	try("a burst", burst);
	try("a burst at the end of a row", burst_at_a_row_end);
	try("all bytes of some words inverted", words_inverted);
	try("zeros", zeros);
	try("noise", any_bytes);
	return 0;
}
