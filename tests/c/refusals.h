// The refusals: the number of each, and for every entry the lengths that it takes, how much it writes, and which refusals it has in which order.
#pragma once
#include "g709.h"
#include "layout.h"

enum { PAYLOAD_LENGTH = 1, BLOCK_LENGTH = 2, SPACE = 3, NO_CODE_WORD = 4, UNCORRECTABLE = 5, WORD_LENGTH = 6, SYMBOL = 7, ROW_LENGTH = 8 };

// What a word or block is: as sent, within reach of a correction, or beyond it. Data are as sent.
enum content { AS_SENT, CORRECTABLE, LOST };

// a word of which so much was changed
static inline enum content after(int changed)
{
	return changed == 0 ? AS_SENT : changed <= RADIUS ? CORRECTABLE : LOST;
}

// AS_READ: the answer is as long as the input.
enum { AS_READ = -1, NOTHING = 0 };

// The least and the most elements that are read, those that are written, and the refusals in the order in which they are tested, zeros after them.
struct entry {
	const char *name;
	int least, most, written, refusals[8];
};

enum { ENCODE_FRAME, CHECK_FRAME, EXTRACT_PAYLOAD, CORRECT_FRAME, CHECK_OUTER, ENCODE_OUTER, CORRECT_OUTER, CHECK_INNER, ENCODE_INNER, CORRECT_INNER };
// the entries on G.709 frames and rows, each four in this order
enum { FRAMES_G709 = CORRECT_INNER + 1, ROWS_G709 = FRAMES_G709 + 4 };
enum { ENCODE, CHECK, EXTRACT, CORRECT };

static const struct entry entries[] = {
	[ENCODE_FRAME] = { "encode", PAYLOAD, PAYLOAD, FRAME, { PAYLOAD_LENGTH, SPACE } },
	[CHECK_FRAME] = { "check", FRAME, FRAME, NOTHING, { BLOCK_LENGTH, NO_CODE_WORD } },
	[EXTRACT_PAYLOAD] = { "extract", FRAME, FRAME, PAYLOAD, { BLOCK_LENGTH, SPACE, NO_CODE_WORD } },
	[CORRECT_FRAME] = { "correct", FRAME, FRAME, FRAME, { BLOCK_LENGTH, SPACE, UNCORRECTABLE } },
	[CHECK_OUTER] = { "check outer", 17, 1023, NOTHING, { WORD_LENGTH, SYMBOL, NO_CODE_WORD } },
	[ENCODE_OUTER] = { "encode outer", 1, 1007, 16, { WORD_LENGTH, SPACE, SYMBOL } },
	[CORRECT_OUTER] = { "correct outer", 17, 1023, AS_READ, { WORD_LENGTH, SPACE, SYMBOL, UNCORRECTABLE } },
	[CHECK_INNER] = { "check inner", INNER_BYTES, INNER_BYTES, NOTHING, { WORD_LENGTH, NO_CODE_WORD } },
	[ENCODE_INNER] = { "encode inner", INNER_DATA, INNER_DATA, INNER_BYTES - INNER_DATA, { WORD_LENGTH, SPACE } },
	[CORRECT_INNER] = { "correct inner", INNER_BYTES, INNER_BYTES, INNER_BYTES, { WORD_LENGTH, SPACE, UNCORRECTABLE } },
	[FRAMES_G709 + ENCODE] = { "G.709 encode", G709_PAYLOAD_BYTES, G709_PAYLOAD_BYTES, G709_FRAME_BYTES, { PAYLOAD_LENGTH, SPACE } },
	[FRAMES_G709 + CHECK] = { "G.709 check", G709_FRAME_BYTES, G709_FRAME_BYTES, NOTHING, { BLOCK_LENGTH, NO_CODE_WORD } },
	[FRAMES_G709 + EXTRACT] = { "G.709 extract", G709_FRAME_BYTES, G709_FRAME_BYTES, G709_PAYLOAD_BYTES, { BLOCK_LENGTH, SPACE, NO_CODE_WORD } },
	[FRAMES_G709 + CORRECT] = { "G.709 correct", G709_FRAME_BYTES, G709_FRAME_BYTES, G709_FRAME_BYTES, { BLOCK_LENGTH, SPACE, UNCORRECTABLE } },
	[ROWS_G709 + ENCODE] = { "encode row", G709_ROW_DATA_BYTES, G709_ROW_DATA_BYTES, G709_ROW_BYTES, { ROW_LENGTH, SPACE } },
	[ROWS_G709 + CHECK] = { "check row", G709_ROW_BYTES, G709_ROW_BYTES, NOTHING, { ROW_LENGTH, NO_CODE_WORD } },
	[ROWS_G709 + EXTRACT] = { "extract row", G709_ROW_BYTES, G709_ROW_BYTES, G709_ROW_DATA_BYTES, { ROW_LENGTH, SPACE, NO_CODE_WORD } },
	[ROWS_G709 + CORRECT] = { "correct row", G709_ROW_BYTES, G709_ROW_BYTES, G709_ROW_BYTES, { ROW_LENGTH, SPACE, UNCORRECTABLE } },
};

// Lengths at every limit of the entries on frames, on outer words, on inner words and on G.709 frames and rows, next to each, and far from all.
static const size_t frame_lengths[] = { 0, 1, 2, 7, 8, 11, 16, 244, 255, 4096, PAYLOAD - 1, PAYLOAD, PAYLOAD + 1, FRAME - 1, FRAME, FRAME + 1, 20000 };
static const size_t outer_lengths[] = { 0, 1, 2, 15, 16, 17, 18, 33, 100, 781, 1006, 1007, 1008, 1022, 1023, 1024, 2000 };
static const size_t inner_lengths[] = { 0, 1, 10, 11, 12, 243, 244, 245, 254, 255, 256, 1000 };
static const size_t g709_lengths[] = { 0, 1, 16, 239, 255, 3823, 3824, 3825, 4079, 4080, 4081, 15295, 15296, 15297, 16319, 16320, 16321, 20000 };

enum {
	FRAME_LENGTHS = sizeof frame_lengths / sizeof *frame_lengths,
	OUTER_LENGTHS = sizeof outer_lengths / sizeof *outer_lengths,
	INNER_LENGTHS = sizeof inner_lengths / sizeof *inner_lengths,
	G709_LENGTHS = sizeof g709_lengths / sizeof *g709_lengths
};

// Does the refusal apply to a call with so much input and space? No symbol is too large in the words of the programs that use this table.
static inline int applies(const struct entry *entry, int number, size_t n, size_t space, enum content content)
{
	switch (number) {
	case PAYLOAD_LENGTH:
	case BLOCK_LENGTH:
	case WORD_LENGTH:
	case ROW_LENGTH:
		return n < (size_t)entry->least || n > (size_t)entry->most;
	case SPACE:
		return space != (entry->written == AS_READ ? n : (size_t)entry->written);
	case NO_CODE_WORD:
		return content != AS_SENT;
	case UNCORRECTABLE:
		return content == LOST;
	default:
		return 0;
	}
}

// 0, or the number of the first refusal that applies
static inline int first_refusal(const struct entry *entry, size_t n, size_t space, enum content content)
{
	const int *number = entry->refusals;
	while (*number && !applies(entry, *number, n, space, content))
		number++;
	return *number;
}
