// The codec of peer_codec.c gives the proved answers, on blocks with damage of many kinds: what frames.c times on both sides is the same work.
#include <fec.h>
#include "blocks.h"

enum { BLOCKS = 200, LAST_PARITY_BIT = 124768 };

static void nothing(void)
{
}

static void up_to_8_each(void)
{
	for (int k = 0; k < INNER; k++)
		damage_word(block, k, next_random(9), 0);
}

// inner words that are lost, with so few wrong bits that the outer words can often be corrected
static void some_lost(void)
{
	up_to_8_each();
	damage_words(block, 1 + next_random(4), 9 + next_random(26));
}

static void half_lost(void)
{
	damage_words(block, 32, 9);
}

// bits that the outer words do not have
static void lost_by_parity(void)
{
	for (int k = 0; k < INNER; k += 1 + next_random(16))
		damage_word(block, k, 9 + next_random(40), DATA_PLACES);
}

static void destroyed(void)
{
	for (int k = next_random(INNER); k < INNER; k += 1 + next_random(INNER))
		destroy_word(block, k);
}

static void burst(void)
{
	damage_burst(block, next_random(8 * FRAME), 1 + next_random(540));
}

// from the last symbols of an outer word into the next one, where both can have wrong symbols enough
static void burst_at_a_word_end(void)
{
	int length = 500 + next_random(40);
	damage_burst(block, WORD_BITS * (1 + next_random(WORDS - 1)) - next_random(length), length);
}

static void burst_at_the_padding(void)
{
	int length = 1 + next_random(540);
	damage_burst(block, LAST_PARITY_BIT - next_random(length + 20), length);
}

// wrong symbols that no inner word shows
static void wrong_symbols(void)
{
	for (int w = 0; w < WORDS; w++)
		change_symbols(block, w, next_random(9), 0);
	if (next_random(4) == 0)
		change_symbols(block, next_random(WORDS), 2, 0);
	peer_inner_parity(block);
}

static void wrong_symbols_at_the_padding(void)
{
	change_symbols(block, WORDS - 1, 1 + next_random(9), LAST_DATA - 4);
	peer_inner_parity(block);
}

// the last outer word near a code word whose padding bits are not zero
static void padding_not_zero(void)
{
	static void *rs;
	unsigned int word[LAST_SYMBOLS] = { 0 };
	if (!rs)
		rs = init_rs_int(10, 1033, 0, 1, 16, 1023 - LAST_SYMBOLS);
	word[LAST_DATA - 1] = 1 + next_random(3);
	encode_rs_int(rs, word, word + LAST_DATA);
	for (int i = 0; i < 160; i++)
		if (word[LAST_DATA + i / 10] >> (9 - i % 10) & 1)
			invert_bit(block, LAST_PARITY_BIT + i);
	change_symbols(block, WORDS - 1, next_random(9), 0);
	peer_inner_parity(block);
}

static void any_bytes(void)
{
	noise(block);
}

static void compare_reading(const char *damage)
{
	int number = g9751_i4_check(block, FRAME);
	require(peer_check(block) == number, "%s: the peers' check", damage);
	require(g9751_i4_extract(block, FRAME, ours_out, PAYLOAD) == number, "%s: proved answers", damage);
	require(peer_extract(block, peers_out) == number, "%s: the peers' extraction", damage);
	require(!memcmp(ours_out, peers_out, PAYLOAD), "%s: the peers' payload", damage);
}

static void try(const char *name, void (*damage)(void))
{
	int corrected = 0;
	for (int i = 0; i < BLOCKS; i++) {
		new_frame();
		damage();
		clear_outputs();
		compare_reading(name);
		clear_outputs();
		int number = g9751_i4_correct(block, FRAME, ours_out, FRAME);
		compare_corrections(number, peer_correct(block, peers_out, NULL), name);
		corrected += number == 0;
	}
	printf("    %s: %d corrected, %d refused\n", name, corrected, BLOCKS - corrected);
}

int main(void)
{
	require(peer_init(), "no memory for the peers");
	printf("same answers by the proved codec and by the peers', %d blocks of each kind:\n", BLOCKS);
	try("no damage", nothing);
	try("up to 8 wrong bits in every inner word", up_to_8_each);
	try("and up to 4 inner words with more", some_lost);
	try("9 in 32 inner words", half_lost);
	try("more than 8 among the parity places", lost_by_parity);
	try("inner words destroyed", destroyed);
	try("a burst", burst);
	try("a burst at the end of an outer word", burst_at_a_word_end);
	try("a burst at the padding", burst_at_the_padding);
	try("wrong symbols with inner parity afresh", wrong_symbols);
	try("wrong symbols at the padding", wrong_symbols_at_the_padding);
	try("padding bits that are not zero", padding_not_zero);
	try("noise", any_bytes);
	printf("    ");
	print_wrong_answers();
	return 0;
}
