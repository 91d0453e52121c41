// What the programs of bench/ on I.4 frames share: a new frame, and the corrections of a block by both sides and their comparison. Damage is that of tests/c.
#pragma once
#include "damage.h"
#include "peer_codec.h"
#include "sides.h"

// What the peers have written with each of the kernel's answers tested.
static uint8_t tested_out[FRAME];

// Answers of the kernel's decoder that gave no code word, and blocks that the peers answered wrongly for it, of all whose corrections were compared.
static int no_code_words, wrong_blocks, compared_blocks;

// a random payload, its frame as one side makes it, and as the block what the other side makes, which is the same
static inline void new_frame(void)
{
	fill_payload(payload, random_byte);
	int number = g9751_i4_encode(payload, PAYLOAD, frame, FRAME);
	peer_encode(payload, block);
	require(number == 0 && !memcmp(frame, block, FRAME), "the frames of both sides, proved answer %d", number);
}

static inline int our_correct(void)
{
	return g9751_i4_correct(block, FRAME, ours_out, FRAME);
}

static inline int peers_correct(void)
{
	return peer_correct(block, peers_out, NULL);
}

static const side correct[2] = { our_correct, peers_correct };

// Both sides have corrected the block: `number` is the proved answer, `peers` that of the peers. Theirs may be another only where the kernel named places
// that give no code word; with its answers tested they must agree.
static inline void compare_corrections(int number, int peers, const char *damage)
{
	int before = no_code_words;
	compared_blocks++;
	memset(tested_out, UNTOUCHED, FRAME);
	int tested = peer_correct(block, tested_out, &no_code_words);
	require(tested == number && !memcmp(tested_out, ours_out, FRAME), "%s: proved answer %d, the peers' %d", damage, number, tested);
	if (peers != number || memcmp(peers_out, ours_out, FRAME)) {
		require(no_code_words > before, "%s: the peers' answer %d, and each of the kernel's gave a code word", damage, peers);
		wrong_blocks++;
	}
}

static inline void print_wrong_answers(void)
{
	printf("answers of the kernel's decoder that gave no code word: %d; blocks that the peers answered wrongly for it: %d of %d\n", no_code_words, wrong_blocks, compared_blocks);
}
