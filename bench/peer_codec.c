// Outer words by libfec, inner words by the kernel's lib/bch.c.
//
//     outer words   the data of word w begin at bit 7650 w of the payload and at bit 7810 w of the frame, 20 w whole bytes further on: they move as bytes,
//                   and their symbols are gathered from the frame, four from eight bytes
//     inner words   eight bytes of a frame are one place of all 64 inner words: 64 places are a matrix of bits, which is transposed to eight bytes of each
//                   word, and back for the parity places; what is corrected is inverted in the frame itself
#include "peer_codec.h"
#include <endian.h>
#include <fec.h>
#include <linux/bch.h>
#include <string.h>

enum { FRAME = 16320, PAYLOAD_BITS = 8 * 15296 };
enum { WORDS = 16, DATA = 765, LAST_DATA = 762, PARITY = 16, RADIUS = 8, DATA_BITS = 10 * DATA, WORD_BITS = 10 * (DATA + PARITY) };
enum { INNER = 64, PLACES = 2040, DATA_PLACES = 1952, DATA_BYTES = 244, PARITY_BYTES = 11, GROUPS = 32, PARITY_GROUP = DATA_PLACES / 64 };

static void *rs, *last_rs;
static struct bch_control *bch;

// Inner words, each in 32 numbers of eight bytes in the order of the places; so its data are aligned, which the kernel's encoder is faster with.
static uint64_t inner[INNER][GROUPS];

// An outer word, with space for the symbols that are gathered past its end.
static unsigned int word[DATA + PARITY + 3];

// The frame in the making.
static uint8_t made[FRAME];

int peer_init(void)
{
	// field A, roots a^0 to a^15, 242 symbols omitted, 245 in the last word; field B, eight errors
	rs = init_rs_int(10, 1033, 0, 1, PARITY, 1023 - PARITY - DATA);
	last_rs = init_rs_int(10, 1033, 0, 1, PARITY, 1023 - PARITY - LAST_DATA);
	bch = bch_init(11, RADIUS, 2053, false);
	return rs && last_rs && bch;
}

static uint64_t load(const uint8_t *bytes)
{
	uint64_t x;
	memcpy(&x, bytes, 8);
	return be64toh(x);
}

static void store(uint8_t *bytes, uint64_t x)
{
	x = htobe64(x);
	memcpy(bytes, &x, 8);
}

static void *code_of(int w)
{
	return w < WORDS - 1 ? rs : last_rs;
}

static int data_in(int w)
{
	return w < WORDS - 1 ? DATA : LAST_DATA;
}

static int first_data_byte(int w)
{
	return DATA_BITS * w / 8;
}

static int past_data_bytes(int w)
{
	int end = DATA_BITS * (w + 1);
	return ((end < PAYLOAD_BITS ? end : PAYLOAD_BITS) + 7) / 8;
}

// how many bytes further on the data of word w stand in the frame: the parity symbols of the words before
static int moved(int w)
{
	return 10 * PARITY / 8 * w;
}

// the bit of the frame at which symbol s begins; the two padding bits of the last data symbol are not sent
static int bit_of(int w, int s)
{
	int padding = w == WORDS - 1 && s >= LAST_DATA ? 2 : 0;
	return WORD_BITS * w + 10 * s - padding;
}

// The bits beside the data in the first and last byte of a word are those of its neighbours in the payload; in the frame parity symbols stand there, which
// are put later.
static void put_data(const uint8_t *payload, uint8_t *frame)
{
	for (int w = 0; w < WORDS; w++) {
		int first = first_data_byte(w);
		memcpy(frame + first + moved(w), payload + first, past_data_bytes(w) - first);
	}
}

static void get_data(const uint8_t *frame, uint8_t *payload)
{
	uint8_t shared = 0;
	for (int w = 0; w < WORDS; w++) {
		int first = first_data_byte(w), past = past_data_bytes(w);
		int own = 255 >> DATA_BITS * w % 8;
		memcpy(payload + first, frame + first + moved(w), past - first);
		payload[first] = (shared & ~own) | (payload[first] & own);
		shared = payload[past - 1];
	}
}

// n symbols, and up to three more
static void gather(const uint8_t *frame, int bit, unsigned int *symbols, int n)
{
	const uint8_t *bytes = frame + bit / 8;
	for (int s = 0; s < n; s += 4, bytes += 5) {
		uint64_t bits = load(bytes) << bit % 8;
		symbols[s] = bits >> 54;
		symbols[s + 1] = bits >> 44 & 1023;
		symbols[s + 2] = bits >> 34 & 1023;
		symbols[s + 3] = bits >> 24 & 1023;
	}
}

// the data symbols of word w; the padding bits read as zeros
static void gather_data(const uint8_t *frame, int w)
{
	gather(frame, bit_of(w, 0), word, data_in(w));
	if (w == WORDS - 1)
		word[LAST_DATA - 1] &= ~3u;
}

static void gather_word(const uint8_t *frame, int w)
{
	gather_data(frame, w);
	gather(frame, bit_of(w, data_in(w)), word + data_in(w), PARITY);
}

// the parity symbols of word w over the bits of the frame, four by four
static void put_parity(uint8_t *frame, int w)
{
	const unsigned int *s = word + data_in(w);
	int bit = bit_of(w, data_in(w));
	uint8_t *bytes = frame + bit / 8;
	int below = 24 - bit % 8;
	uint64_t mask = (((uint64_t)1 << 40) - 1) << below;
	for (int i = 0; i < PARITY; i += 4, s += 4, bytes += 5) {
		uint64_t bits = (uint64_t)s[0] << 30 | s[1] << 20 | s[2] << 10 | s[3];
		store(bytes, (load(bytes) & ~mask) | bits << below);
	}
}

// in each block of 2j rows, the right half of the upper j and the left half of the lower j, by columns of 2j too; the mask has the right halves
static inline void exchange(uint64_t *rows, int j, uint64_t mask)
{
	for (int block = 0; block < 64; block += 2 * j)
		for (int k = block; k < block + j; k++) {
			uint64_t t = (rows[k] ^ rows[k + j] >> j) & mask;
			rows[k] ^= t;
			rows[k + j] ^= t << j;
		}
}

// Row i's bit j and row j's bit i change places, the highest bit being 0: halves of the matrix first, then halves of the halves (Hacker's Delight, 7-3).
static void transpose(uint64_t *rows)
{
	exchange(rows, 32, 0x00000000ffffffff);
	exchange(rows, 16, 0x0000ffff0000ffff);
	exchange(rows, 8, 0x00ff00ff00ff00ff);
	exchange(rows, 4, 0x0f0f0f0f0f0f0f0f);
	exchange(rows, 2, 0x3333333333333333);
	exchange(rows, 1, 0x5555555555555555);
}

static int rows_in(int group, int places)
{
	int n = places - 64 * group;
	return n < 64 ? n : 64;
}

// the frame's first places to inner words, and zeros up to the next 64
static void deinterleave(const uint8_t *frame, int places)
{
	for (int g = 0; 64 * g < places; g++) {
		uint64_t rows[64];
		int n = rows_in(g, places);
		for (int p = 0; p < n; p++)
			rows[p] = load(frame + 8 * (64 * g + p));
		memset(rows + n, 0, 8 * (64 - n));
		transpose(rows);
		for (int k = 0; k < INNER; k++)
			inner[k][g] = htobe64(rows[k]);
	}
}

// the groups of places that have parity, from the inner words to the frame
static void interleave_parity(uint8_t *frame)
{
	for (int g = PARITY_GROUP; g < GROUPS; g++) {
		uint64_t rows[64];
		for (int k = 0; k < INNER; k++)
			rows[k] = be64toh(inner[k][g]);
		transpose(rows);
		int n = rows_in(g, PLACES);
		for (int p = 0; p < n; p++)
			store(frame + 8 * (64 * g + p), rows[p]);
	}
}

static uint8_t *bytes_of(int k)
{
	return (uint8_t *)inner[k];
}

static void encode_inner(int k)
{
	uint8_t *bytes = bytes_of(k);
	memset(bytes + DATA_BYTES, 0, PARITY_BYTES);
	bch_encode(bch, bytes, DATA_BYTES, bytes + DATA_BYTES);
}

static int is_inner(int k)
{
	const uint8_t *bytes = bytes_of(k);
	uint8_t parity[PARITY_BYTES] = { 0 };
	bch_encode(bch, bytes, DATA_BYTES, parity);
	return !memcmp(parity, bytes + DATA_BYTES, PARITY_BYTES);
}

void peer_inner_parity(uint8_t *frame)
{
	deinterleave(frame, DATA_PLACES);
	for (int k = 0; k < INNER; k++)
		encode_inner(k);
	interleave_parity(frame);
}

void peer_encode(const uint8_t *payload, uint8_t *frame)
{
	put_data(payload, frame);
	for (int w = 0; w < WORDS; w++) {
		gather_data(frame, w);
		encode_rs_int(code_of(w), word, word + data_in(w));
		put_parity(frame, w);
	}
	peer_inner_parity(frame);
}

// Outer words are tested by libfec's decoder, which tells a code word in half the time of its encoder.
int peer_check(const uint8_t *block)
{
	deinterleave(block, PLACES);
	for (int k = 0; k < INNER; k++)
		if (!is_inner(k))
			return 4;
	for (int w = 0; w < WORDS; w++) {
		gather_word(block, w);
		if (decode_rs_int(code_of(w), word, NULL, 0) != 0)
			return 4;
	}
	return 0;
}

int peer_extract(const uint8_t *block, uint8_t *payload)
{
	int number = peer_check(block);
	if (number == 0)
		get_data(block, payload);
	return number;
}

// One place of inner word k, in the frame and in the word. The kernel's number i counts the bits of a byte from the lowest.
static void invert(uint8_t *frame, int k, int i)
{
	int place = i ^ 7;
	frame[8 * place + k / 8] ^= 128 >> k % 8;
	bytes_of(k)[i / 8] ^= 1 << i % 8;
}

// inner word 0 has the highest bit, as in eight bytes of a frame
static uint64_t only(int k)
{
	return (uint64_t)1 << (63 - k);
}

// Corrects the frame's inner words, which are deinterleaved; tells which of them were left as received.
static uint64_t inner_pass(uint8_t *frame, int *no_code_words)
{
	uint64_t left = 0;
	for (int k = 0; k < INNER; k++) {
		unsigned int found[RADIUS];
		int n = bch_decode(bch, bytes_of(k), DATA_BYTES, bytes_of(k) + DATA_BYTES, NULL, NULL, found);
		for (int i = 0; i < n; i++)
			invert(frame, k, found[i]);
		int refuted = n > 0 && no_code_words && !is_inner(k);
		for (int i = 0; refuted && i < n; i++)
			invert(frame, k, found[i]);
		if (refuted)
			++*no_code_words;
		if (refuted || n < 0)
			left |= only(k);
	}
	return left;
}

// Puts symbol s of word w, and tells the inner words that have changed. Of the last data symbol eight bits stand in the frame.
static uint64_t put_symbol(uint8_t *frame, int w, int s)
{
	int bit = bit_of(w, s), below = 6 - bit % 8;
	uint8_t *bytes = frame + bit / 8;
	unsigned int held = (bytes[0] << 8 | bytes[1]) >> below & 1023;
	if (w == WORDS - 1 && s == LAST_DATA - 1)
		held &= ~3u;
	unsigned int change = held ^ word[s];
	bytes[0] ^= change << below >> 8;
	bytes[1] ^= change << below;
	uint64_t high = (uint64_t)change << 54;
	int turn = bit % 64;
	return turn ? high >> turn | high << (64 - turn) : high;
}

// Corrects the outer words and adds the inner words that have changed. 0 at the first word that has no code word within eight symbols, or only one whose
// padding is not zero; libfec may find one further away.
static int outer_pass(uint8_t *frame, uint64_t *changed)
{
	for (int w = 0; w < WORDS; w++) {
		int symbols[PARITY];
		gather_word(frame, w);
		int found = decode_rs_int(code_of(w), word, symbols, 0);
		if (found < 0 || found > RADIUS || (w == WORDS - 1 && word[LAST_DATA - 1] & 3))
			return 0;
		for (int i = 0; i < found; i++)
			*changed |= put_symbol(frame, w, symbols[i]);
	}
	return 1;
}

// The inner words that were left, or have changed since, need new parity. Mostly there are none, and the corrected inner words are the frame.
int peer_correct(const uint8_t *block, uint8_t *frame, int *no_code_words)
{
	memcpy(made, block, FRAME);
	deinterleave(made, PLACES);
	uint64_t stale = inner_pass(made, no_code_words);
	if (!outer_pass(made, &stale))
		return 5;
	if (stale) {
		deinterleave(made, PLACES);
		for (int k = 0; k < INNER; k++)
			if (stale & only(k))
				encode_inner(k);
		interleave_parity(made);
	}
	memcpy(frame, made, FRAME);
	return 0;
}
