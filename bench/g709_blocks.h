// What the programs of bench/ on G.709 frames share: a new frame, and each call on it, or on its first row, by both sides. Damage is that of tests/c.
#pragma once
#include "damage.h"
#include "peer_g709.h"
#include "rows.h"
#include "sides.h"

// The proved entries on frames or on rows, and how many rows they take.
struct family {
	int rows;
	writer encode, extract, correct;
	checker check;
};

static const struct family whole_frame = { FRAME_ROWS, g709_encode, g709_extract, g709_correct, g709_check };
static const struct family single_row = { 1, g709_encode_row, g709_extract_row, g709_correct_row, g709_check_row };

// What the calls are on now.
static const struct family *family = &whole_frame;

static inline int data_bytes(void)
{
	return ROW_DATA * family->rows;
}

static inline int bytes(void)
{
	return ROW * family->rows;
}

static inline int our_encode(void)
{
	return family->encode(payload, data_bytes(), ours_out, bytes());
}

static inline int peers_encode(void)
{
	peer_g709_encode(payload, family->rows, peers_out);
	return 0;
}

static inline int our_check(void)
{
	return family->check(block, bytes());
}

static inline int peers_check(void)
{
	return peer_g709_check(block, family->rows);
}

static inline int our_extract(void)
{
	return family->extract(block, bytes(), ours_out, data_bytes());
}

static inline int peers_extract(void)
{
	return peer_g709_extract(block, family->rows, peers_out);
}

static inline int our_correct(void)
{
	return family->correct(block, bytes(), ours_out, bytes());
}

static inline int peers_correct(void)
{
	return peer_g709_correct(block, family->rows, peers_out);
}

static const side encode[2] = { our_encode, peers_encode }, check[2] = { our_check, peers_check };
static const side extract[2] = { our_extract, peers_extract }, correct[2] = { our_correct, peers_correct };

// both sides have answered
static inline void compare_answers(const int *numbers, const char *name)
{
	require(numbers[0] == numbers[1] && !memcmp(ours_out, peers_out, FRAME), "%s: proved answer %d, the peers' %d", name, numbers[0], numbers[1]);
}

// a random payload, its frame as one side makes it, and as the block what the other side makes, which is the same
static inline void new_frame(void)
{
	fill_payload(payload, random_byte);
	int number = g709_encode(payload, PAYLOAD, frame, FRAME);
	peer_g709_encode(payload, FRAME_ROWS, block);
	require(number == 0 && !memcmp(frame, block, FRAME), "the frames of both sides, proved answer %d", number);
}
