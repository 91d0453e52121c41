// The entries on G.709 frames and rows at lengths around every limit, null among them, on damage up to eight bytes of a word and past it, and frames against
// their rows. The parity of three words and a sum over a whole frame are known from libfec.
#include "damage.h"
#include "exports.h"
#include "lent.h"
#include "payloads.h"
#include "rows.h"

// The entries on frames or on rows, which of the table they are, and how many words they have. A row is the first of the frame.
struct family {
	int first, words;
	writer encode, extract, correct;
	checker check;
	uint32_t (*count)(const uint8_t *block, size_t n, uint8_t *out, size_t space);
};

static const struct family families[] = {
	{ FRAMES_G709, FRAME_WORDS, g709_encode, g709_extract, g709_correct, g709_check, exports_g709_correct },
	{ ROWS_G709, ROW_WORDS, g709_encode_row, g709_extract_row, g709_correct_row, g709_check_row, exports_g709_correct_row },
};

// A payload and its frame; eight wrong bytes in every word; and nine in one word of the first row.
static uint8_t payload[PAYLOAD], frame[FRAME], damaged[FRAME], lost[FRAME];

// ---- calls

static void encode(const struct family *f, size_t n, size_t space)
{
	struct lent in = lend_input(payload, PAYLOAD, n), out = lend_output(space);
	int number = f->encode(in.bytes, n, out.bytes, space);
	finish(in, out, 1, &entries[f->first + ENCODE], AS_SENT, number, frame);
}

static void check(const struct family *f, const uint8_t *block, size_t n, enum content content)
{
	struct lent in = lend_input(block, FRAME, n), out = lend_output(0);
	finish(in, out, 1, &entries[f->first + CHECK], content, f->check(in.bytes, n), NULL);
}

static void extract(const struct family *f, const uint8_t *block, size_t n, size_t space, enum content content)
{
	struct lent in = lend_input(block, FRAME, n), out = lend_output(space);
	int number = f->extract(in.bytes, n, out.bytes, space);
	finish(in, out, 1, &entries[f->first + EXTRACT], content, number, payload);
}

static void correct(const struct family *f, const uint8_t *block, size_t n, size_t space, enum content content)
{
	struct lent in = lend_input(block, FRAME, n), out = lend_output(space);
	int number = f->correct(in.bytes, n, out.bytes, space);
	finish(in, out, 1, &entries[f->first + CORRECT], content, number, frame);
}

// with the number of changed bytes, which is 0 for a refusal
static void correct_counted(const struct family *f, const uint8_t *block, size_t n, size_t space, enum content content)
{
	struct lent in = lend_input(block, FRAME, n), out = lend_output(space);
	uint32_t packed = f->count(in.bytes, n, out.bytes, space), changed = 0;
	for (size_t i = 0; i < n && !(packed & 255); i++)
		changed += block[i] != frame[i];
	expect(packed >> 8 == changed, "changed bytes", n, space);
	finish(in, out, 1, &entries[f->first + CORRECT], content, packed & 255, frame);
}

// all that is asked of one block of the right length
static void read_and_correct(const struct family *f, const uint8_t *block, enum content content)
{
	size_t data = entries[f->first + ENCODE].least, n = entries[f->first + CHECK].least;
	check(f, block, n, content);
	extract(f, block, n, data, content);
	correct(f, block, n, n, content);
	correct_counted(f, block, n, n, content);
}

// ---- known answers

// libfec's parity for data that end with 1, that begin with 1, and that are the bytes 0 to 238; those but for the bytes named are zeros.
// The first are the generator's coefficients.
static const uint8_t parities[3][WORD_BYTES - WORD_DATA] = {
	{ 59, 13, 104, 189, 68, 209, 30, 8, 163, 65, 41, 229, 98, 50, 36, 59 },
	{ 169, 1, 22, 176, 250, 139, 212, 178, 33, 72, 188, 12, 140, 222, 137, 26 },
	{ 61, 74, 29, 172, 204, 74, 76, 170, 67, 72, 142, 123, 79, 101, 89, 196 },
};

static uint8_t known_data(int kind, int s)
{
	return kind == 0 ? s == WORD_DATA - 1 : kind == 1 ? s == 0 : s;
}

// each of them as word w of a row whose other words are zeros
static void known_words(void)
{
	for (int w = 0; w < ROW_WORDS; w++)
		for (int kind = 0; kind < 3; kind++) {
			uint8_t row[ROW] = { 0 }, out[ROW];
			for (int s = 0; s < WORD_BYTES; s++)
				row[byte_of(w, s)] = s < WORD_DATA ? known_data(kind, s) : parities[kind][s - WORD_DATA];
			int number = g709_encode_row(row, ROW_DATA, out, ROW);
			expect(number == 0 && memcmp(out, row, ROW) == 0, "known word", w, kind);
			expect(g709_check_row(row, ROW) == 0, "check of a known word", w, kind);
			calls += 2;
		}
}

// The sum by Fowler, Noll and Vo of the frame that libfec makes of the payload.
static const uint64_t libfec_sum = 0x5e5837597ffe7b8d;

static uint64_t sum(const uint8_t *bytes, int n)
{
	uint64_t h = 14695981039346656037u;
	for (int i = 0; i < n; i++)
		h = (h ^ bytes[i]) * 1099511628211u;
	return h;
}

static void make_blocks(void)
{
	fill_payload(payload, congruential_byte);
	expect(g709_encode(payload, PAYLOAD, frame, FRAME) == 0, "encode", PAYLOAD, FRAME);
	expect(sum(frame, FRAME) == libfec_sum, "the frame of libfec", PAYLOAD, FRAME);
	memcpy(damaged, frame, FRAME);
	memcpy(lost, frame, FRAME);
	change_words(damaged, FRAME_WORDS, RADIUS);
	change_bytes(lost, next_random(ROW_WORDS), RADIUS + 1);
}

// ---- lengths

static void all_lengths(const struct family *f)
{
	for (int i = 0; i < G709_LENGTHS; i++) {
		size_t n = g709_lengths[i];
		check(f, frame, n, AS_SENT);
		check(f, damaged, n, CORRECTABLE);
		for (int k = 0; k < G709_LENGTHS; k++) {
			size_t space = g709_lengths[k];
			encode(f, n, space);
			extract(f, frame, n, space, AS_SENT);
			extract(f, damaged, n, space, CORRECTABLE);
			correct(f, frame, n, space, AS_SENT);
			correct(f, damaged, n, space, CORRECTABLE);
			correct(f, lost, n, space, LOST);
			correct_counted(f, damaged, n, space, CORRECTABLE);
			correct_counted(f, lost, n, space, LOST);
		}
	}
}

// ---- damage

static uint8_t block[FRAME];

// up to eight wrong bytes in every word; then nine in one of them, each word in turn
static void wrong_bytes(const struct family *f)
{
	for (int n = 0; n <= RADIUS; n++) {
		memcpy(block, frame, FRAME);
		change_words(block, f->words, n);
		read_and_correct(f, block, after(n));
	}
	for (int w = 0; w < f->words; w++) {
		memcpy(block, frame, FRAME);
		for (int v = 0; v < f->words; v++)
			change_bytes(block, v, v == w ? RADIUS + 1 : RADIUS);
		read_and_correct(f, block, LOST);
	}
}

// 128 neighbouring bytes are eight of sixteen words, and 129 are nine of one: at both ends of a row, at its parity, and over the end of a row
static void bursts(const struct family *f)
{
	enum { LONGEST = RADIUS * ROW_WORDS };
	int length = entries[f->first + CHECK].least;
	static const int firsts[] = { 0, 1, 1000, ROW_DATA - 64, ROW_DATA, ROW - LONGEST - 1, ROW, 2 * ROW - 130, FRAME - LONGEST - 1 };
	for (int i = 0; i < (int)(sizeof firsts / sizeof *firsts); i++)
		for (int n = LONGEST; n <= LONGEST + 1 && firsts[i] + n <= length; n++) {
			memcpy(block, frame, FRAME);
			invert_bytes(block, firsts[i], n);
			read_and_correct(f, block, n == LONGEST ? CORRECTABLE : LOST);
		}
	if (f->first == ROWS_G709)
		return;
	// what stands on the two sides of a row's end are other words
	memcpy(block, frame, FRAME);
	invert_bytes(block, ROW - LONGEST, 2 * LONGEST);
	read_and_correct(f, block, CORRECTABLE);
}

// ---- frames and their rows

// the frame as sent, or with scattered wrong bytes; eight in every word; noise; bytes of ones; zeros
static void any_block(int kind)
{
	memcpy(block, frame, FRAME);
	if (kind == 1)
		for (int n = next_random(300); n > 0; n--)
			block[next_random(FRAME)] ^= 1 + next_random(255);
	else if (kind == 2)
		change_words(block, FRAME_WORDS, RADIUS);
	else if (kind == 3)
		noise(block);
	else if (kind >= 4)
		memset(block, kind == 4 ? 255 : 0, FRAME);
}

// If a row is refused, so is the frame; else the rows' changes together are the frame's, and the rows as restored are the frame.
static void against_rows(int i)
{
	struct lent in = lend_input(block, FRAME, FRAME), out = lend_output(FRAME);
	uint32_t packed = exports_g709_correct(in.bytes, FRAME, out.bytes, FRAME), changed = 0;
	int number = 0, checked = 0, same = 1;
	for (int r = 0; r < FRAME_ROWS; r++) {
		struct lent row = lend_input(block + ROW * r, ROW, ROW), restored = lend_output(ROW);
		uint32_t answer = exports_g709_correct_row(row.bytes, ROW, restored.bytes, ROW);
		checked |= g709_check_row(row.bytes, ROW);
		number |= answer & 255;
		changed += answer >> 8;
		expect(answer & 255 ? untouched(restored) : g709_check_row(restored.bytes, ROW) == 0, "restored row", i, r);
		same &= memcmp(restored.bytes, out.bytes + ROW * r, ROW) == 0;
		give_back(row);
		give_back(restored);
		calls += 3;
	}
	expect(packed == (number ? (uint32_t)number : changed << 8) && kept(in), "changed bytes of rows", i, packed);
	expect(number ? untouched(out) : same && g709_check(out.bytes, FRAME) == 0, "frame of rows", i, number);
	expect(g709_check(in.bytes, FRAME) == checked, "check of rows", i, checked);
	give_back(in);
	give_back(out);
	calls += 2;
}

static void rows_of_frames(void)
{
	for (int r = 0; r < FRAME_ROWS; r++) {
		uint8_t row[ROW], data[ROW_DATA];
		expect(g709_encode_row(payload + ROW_DATA * r, ROW_DATA, row, ROW) == 0 && memcmp(row, frame + ROW * r, ROW) == 0, "encode row", r, ROW);
		expect(g709_extract_row(row, ROW, data, ROW_DATA) == 0 && memcmp(data, payload + ROW_DATA * r, ROW_DATA) == 0, "extract row", r, ROW);
		calls += 2;
	}
	for (int i = 0; i < 60; i++) {
		any_block(i % 6);
		against_rows(i);
	}
}

static void all(void)
{
	known_words();
	make_blocks();
	for (int i = 0; i < 2; i++) {
		all_lengths(&families[i]);
		wrong_bytes(&families[i]);
		bursts(&families[i]);
	}
	rows_of_frames();
}

int main(int argc, char **argv)
{
	return call_all("g709", argc, argv, all);
}
