// The entries on I.4 frames, on single words and on the worst list at lengths around every limit, null among them; and products of exponents around theirs.
#include "damage.h"
#include "exports.h"
#include "lent.h"
#include "payloads.h"

// ---- frames

static uint8_t payload[PAYLOAD], frame[FRAME], damaged[FRAME], no_parity[FRAME], lost[FRAME];

static void encode(size_t n, size_t space)
{
	struct lent in = lend_input(payload, PAYLOAD, n), out = lend_output(space);
	int number = g9751_i4_encode(in.bytes, n, out.bytes, space);
	finish(in, out, 1, &entries[ENCODE_FRAME], AS_SENT, number, frame);
}

static void check(const uint8_t *block, size_t n, enum content content)
{
	struct lent in = lend_input(block, FRAME, n), out = lend_output(0);
	finish(in, out, 1, &entries[CHECK_FRAME], content, g9751_i4_check(in.bytes, n), NULL);
}

static void extract(const uint8_t *block, size_t n, size_t space, enum content content)
{
	struct lent in = lend_input(block, FRAME, n), out = lend_output(space);
	int number = g9751_i4_extract(in.bytes, n, out.bytes, space);
	finish(in, out, 1, &entries[EXTRACT_PAYLOAD], content, number, payload);
}

static void correct(const uint8_t *block, size_t n, size_t space, enum content content)
{
	struct lent in = lend_input(block, FRAME, n), out = lend_output(space);
	int number = g9751_i4_correct(in.bytes, n, out.bytes, space);
	finish(in, out, 1, &entries[CORRECT_FRAME], content, number, frame);
}

// the wrong places of an inner word from one on and before another: bits in which the block differs from the frame
static int wrong_places(const uint8_t *block, int k, int from, int to)
{
	int wrong = 0;
	for (int p = from; p < to; p++) {
		int i = INNER * p + k;
		wrong += (block[i / 8] ^ frame[i / 8]) >> (7 - i % 8) & 1;
	}
	return wrong;
}

// A list of a report with its number for each inner word, zeros for a refusal, if it has a place for each; else it is left as it was.
static void finish_list(struct lent list, const uint8_t *block, int number, int from, int to)
{
	if (list.n == 2 * INNER)
		for (int k = 0; k < INNER; k++)
			expect(((uint16_t *)list.bytes)[k] == (number ? 0 : wrong_places(block, k, from, to)), "list of a report, inner word", k, from);
	else
		expect(untouched(list), "list of a report", list.n, from);
	give_back(list);
}

// with a list of so many data places and one of so many parity places
static void correct_with_report(const uint8_t *block, size_t n, size_t space, size_t places, size_t parity_places, enum content content)
{
	struct lent in = lend_input(block, FRAME, n), out = lend_output(space), data = lend_output(2 * places), parity = lend_output(2 * parity_places);
	uint64_t packed = exports_correct_frame(in.bytes, n, out.bytes, space, (uint16_t *)data.bytes, places, (uint16_t *)parity.bytes, parity_places);
	int number = packed & 255;
	uint64_t sum = 0;
	for (int k = 0; k < INNER && !number; k++)
		sum += wrong_places(block, k, 0, PLACES);
	expect(packed >> 8 == sum, "sum", n, places);
	finish_list(data, block, number, 0, DATA_PLACES);
	finish_list(parity, block, number, DATA_PLACES, PLACES);
	finish(in, out, 1, &entries[CORRECT_FRAME], content, number, frame);
}

// a payload, its frame, and the frame with 512 neighbouring wrong bits, two data places and six parity places of each inner word; with every parity bit wrong;
// and with 2,000 neighbouring ones
static void make_blocks(void)
{
	fill_payload(payload, patterned_byte);
	expect(g9751_i4_encode(payload, PAYLOAD, frame, FRAME) == 0, "encode", PAYLOAD, FRAME);
	memcpy(damaged, frame, FRAME);
	memcpy(no_parity, frame, FRAME);
	memcpy(lost, frame, FRAME);
	damage_burst(damaged, 124800, 512);
	damage_burst(no_parity, INNER * DATA_PLACES, INNER * (PLACES - DATA_PLACES));
	damage_burst(lost, 112000, 2000);
}

// Lists of a report with a place for each inner word, with none, with one less and with one more, for what is corrected and for each refusal.
static void reports(void)
{
	static const size_t places[] = { INNER, 0, INNER - 1, INNER + 1 };
	for (int i = 0; i < 4; i++)
		for (int k = 0; k < 4; k++) {
			correct_with_report(frame, FRAME, FRAME, places[i], places[k], AS_SENT);
			correct_with_report(damaged, FRAME, FRAME, places[i], places[k], CORRECTABLE);
			correct_with_report(no_parity, FRAME, FRAME, places[i], places[k], CORRECTABLE);
			correct_with_report(lost, FRAME, FRAME, places[i], places[k], LOST);
			correct_with_report(damaged, FRAME - 1, FRAME, places[i], places[k], CORRECTABLE);
			correct_with_report(damaged, FRAME, FRAME - 1, places[i], places[k], CORRECTABLE);
			correct_with_report(damaged, 0, 0, places[i], places[k], CORRECTABLE);
		}
}

static void frames(void)
{
	make_blocks();
	for (int i = 0; i < FRAME_LENGTHS; i++) {
		size_t n = frame_lengths[i];
		check(frame, n, AS_SENT);
		check(damaged, n, CORRECTABLE);
		for (int k = 0; k < FRAME_LENGTHS; k++) {
			size_t space = frame_lengths[k];
			encode(n, space);
			extract(frame, n, space, AS_SENT);
			extract(damaged, n, space, CORRECTABLE);
			correct(frame, n, space, AS_SENT);
			correct(damaged, n, space, CORRECTABLE);
			correct(lost, n, space, LOST);
			correct_with_report(damaged, n, FRAME, space % 8192, INNER, CORRECTABLE);
			correct_with_report(damaged, n, FRAME, INNER, space % 8192, CORRECTABLE);
		}
	}
	reports();
}

// a frame with scattered wrong bits; with eight in each inner word, or many in three of them; noise; ones
static void damage(uint8_t *block, int kind)
{
	memcpy(block, frame, FRAME);
	if (kind == 0)
		damage_anywhere(block, next_random(700), 8 * FRAME);
	else if (kind == 1)
		damage_words(block, INNER, RADIUS);
	else if (kind == 2)
		damage_words(block, 3, 40);
	else if (kind == 3)
		noise(block);
	else
		memset(block, 255, FRAME);
}

// whatever stands in a block: a corrected one is a frame, and one that is refused leaves its buffer
static void any_contents(void)
{
	static uint8_t block[FRAME];
	for (int i = 0; i < 100; i++) {
		damage(block, i % 5);
		struct lent in = lend_input(block, FRAME, FRAME), out = lend_output(FRAME), read = lend_output(PAYLOAD);
		int checked = g9751_i4_check(in.bytes, FRAME), number = g9751_i4_correct(in.bytes, FRAME, out.bytes, FRAME);
		expect(kept(in) && (checked == 0 || checked == NO_CODE_WORD), "check of any content", i, 0);
		expect(number == 0 ? g9751_i4_check(out.bytes, FRAME) == 0 : number == UNCORRECTABLE && untouched(out), "correct of any content", i, 0);
		expect(g9751_i4_extract(out.bytes, FRAME, read.bytes, PAYLOAD) == (number == 0 ? 0 : NO_CODE_WORD), "extract of any content", i, 0);
		give_back(in);
		give_back(out);
		give_back(read);
		calls += 3;
	}
}

// ---- single words

static uint16_t outer[1024], wrong_outer[1024];

// the zero word is a code word of every length; so many of its symbols changed, the last ones
static void correct_outer(size_t n, size_t space, int changed)
{
	memset(wrong_outer, 0, sizeof wrong_outer);
	for (int i = 0; i < changed && n > 0; i++)
		wrong_outer[(n - 1 - i) % 1024] = 1023;
	struct lent in = lend_input(wrong_outer, sizeof wrong_outer, 2 * n), out = lend_output(2 * space);
	uint32_t packed = exports_correct_outer((uint16_t *)in.bytes, n, (uint16_t *)out.bytes, space);
	expect(packed >> 8 == (packed & 255 ? 0 : (uint32_t)changed), "outer changes", n, space);
	finish(in, out, 2, &entries[CORRECT_OUTER], after(changed), packed & 255, outer);
}

static void outer_words(void)
{
	for (int i = 0; i < OUTER_LENGTHS; i++) {
		size_t n = outer_lengths[i];
		struct lent in = lend_input(outer, sizeof outer, 2 * n), none = lend_output(0);
		finish(in, none, 2, &entries[CHECK_OUTER], AS_SENT, exports_check_outer((uint16_t *)in.bytes, n), NULL);
		for (int k = 0; k < OUTER_LENGTHS; k++) {
			size_t space = outer_lengths[k];
			struct lent word = lend_input(outer, sizeof outer, 2 * n), out = lend_output(2 * space);
			int number = exports_encode_outer((uint16_t *)word.bytes, n, (uint16_t *)out.bytes, space);
			finish(word, out, 2, &entries[ENCODE_OUTER], AS_SENT, number, outer);
			correct_outer(n, space, 0);
			correct_outer(n, space, RADIUS);
			correct_outer(n, space, RADIUS + 1);
		}
	}
}

static uint8_t inner[256], wrong_inner[256];

// the zero word, with so many wrong data places, from the last one back, and so many wrong parity places, from the first one on, each in another byte
static void correct_inner(size_t n, size_t space, int data, int parity)
{
	memset(wrong_inner, 0, sizeof wrong_inner);
	invert_apart(wrong_inner, data, DATA_PLACES - 1, -8);
	invert_apart(wrong_inner, parity, DATA_PLACES, 8);
	struct lent in = lend_input(wrong_inner, sizeof wrong_inner, n), out = lend_output(space);
	uint32_t packed = exports_correct_inner(in.bytes, n, out.bytes, space);
	expect(packed >> 8 == (packed & 255 ? 0 : data + 256 * (uint32_t)parity), "inner changes", n, space);
	finish(in, out, 1, &entries[CORRECT_INNER], after(data + parity), packed & 255, inner);
}

static void inner_words(void)
{
	for (int i = 0; i < INNER_LENGTHS; i++) {
		size_t n = inner_lengths[i];
		struct lent in = lend_input(inner, sizeof inner, n), none = lend_output(0);
		finish(in, none, 1, &entries[CHECK_INNER], AS_SENT, exports_check_inner(in.bytes, n), NULL);
		for (int k = 0; k < INNER_LENGTHS; k++) {
			size_t space = inner_lengths[k];
			struct lent data = lend_input(inner, sizeof inner, n), out = lend_output(space);
			int number = exports_encode_inner(data.bytes, n, out.bytes, space);
			finish(data, out, 1, &entries[ENCODE_INNER], AS_SENT, number, inner);
			correct_inner(n, space, 0, 0);
			correct_inner(n, space, RADIUS, 0);
			correct_inner(n, space, 0, RADIUS);
			correct_inner(n, space, 1, 1);
			correct_inner(n, space, 5, 3);
			correct_inner(n, space, 0, RADIUS + 1);
			correct_inner(n, space, 5, 4);
		}
	}
}

// ---- worst list

enum { LISTED = 8, EMPTY = INNER };

// of ten inner words; 33 and 41 have as many places together, and 8 and 9 as many of both kinds
static const uint16_t data_places[INNER] = { [5] = 40, [8] = 3, [9] = 3, [17] = 12, [30] = 60, [33] = 7, [41] = 5, [63] = 1952 };
static const uint16_t parity_places[INNER] = { [0] = 87, [5] = 10, [17] = 60, [33] = 2, [41] = 4, [52] = 30, [63] = 88 };

// the list if there are 64 counts of neither kind, of parity places alone, of data places alone, of both
static const uint8_t listed[2][2][LISTED] = {
	{ { EMPTY, EMPTY, EMPTY, EMPTY, EMPTY, EMPTY, EMPTY, EMPTY }, { 63, 0, 17, 52, 5, 41, 33, EMPTY } },
	{ { 63, 30, 5, 17, 33, 41, 9, 8 }, { 63, 0, 17, 30, 5, 52, 33, 41 } },
};

// so many counts of data places and of parity places, and places of the list
static void worst_words(size_t n, size_t m, size_t space)
{
	struct lent data = lend_input(data_places, sizeof data_places, 2 * n), parity = lend_input(parity_places, sizeof parity_places, 2 * m);
	struct lent list = lend_output(space);
	exports_worst_words((uint16_t *)data.bytes, n, (uint16_t *)parity.bytes, m, list.bytes, space);
	expect(kept(data) && kept(parity), "counts of a worst list", n, m);
	if (space == LISTED)
		expect(memcmp(list.bytes, listed[n == INNER][m == INNER], LISTED) == 0, "worst list", n, m);
	else
		expect(untouched(list), "worst list", n, space);
	give_back(data);
	give_back(parity);
	give_back(list);
	calls++;
}

// As many counts and places as there should be, none, one less and one more.
static void worst_lists(void)
{
	static const size_t counts[] = { INNER, 0, INNER - 1, INNER + 1 }, places[] = { LISTED, 0, LISTED - 1, LISTED + 1 };
	for (int i = 0; i < 4; i++)
		for (int k = 0; k < 4; k++)
			for (int p = 0; p < 4; p++)
				worst_words(counts[i], counts[k], places[p]);
}

// ---- products

// x times y by shift and add, of the elements that their low bits are
static uint32_t multiplied(uint32_t size, uint32_t polynomial, uint32_t x, uint32_t y)
{
	uint32_t term = x % size, sum = 0;
	for (uint32_t bit = 1; bit < size; bit *= 2) {
		sum ^= y & bit ? term : 0;
		term = 2 * term < size ? 2 * term : (2 * term) ^ polynomial;
	}
	return sum;
}

// Factors with no exponent, the least, the next and the greatest ones, whose sums stand at and around the number of powers and at twice as much less two; the greatest
// element; and numbers past a field's size.
static void products_in(uint16_t (*products)(uint16_t, uint16_t, uint32_t), uint32_t size, uint32_t polynomial)
{
	uint32_t half = polynomial / 2, quarter = multiplied(size, polynomial, half, half);
	uint32_t factors[] = { 0, 1, 2, 4, half, quarter, size - 1, size, size + 1, size + half, 65535 };
	int n = sizeof factors / sizeof *factors;
	for (int i = 0; i < n; i++)
		for (int k = 0; k < n; k++) {
			uint32_t once = multiplied(size, polynomial, factors[i], factors[k]), twice = multiplied(size, polynomial, once, factors[k]);
			expect(products(factors[i], factors[k], 0) == factors[i], "no product", factors[i], factors[k]);
			expect(products(factors[i], factors[k], 1) == once, "product", factors[i], factors[k]);
			expect(products(factors[i], factors[k], 2) == twice, "two products", factors[i], factors[k]);
			calls += 3;
		}
}

static void products(void)
{
	products_in(exports_products_a, 1024, 1033);
	products_in(exports_products_b, 2048, 2053);
	products_in(exports_products_c, 256, 285);
}

static void all(void)
{
	frames();
	any_contents();
	outer_words();
	inner_words();
	worst_lists();
	products();
}

int main(int argc, char **argv)
{
	return call_all("entries", argc, argv, all);
}
