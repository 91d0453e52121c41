// Correction of single words: the proved corrector of crates/words against libfec (outer words of 781 symbols) and the Linux kernel's lib/bch.c (inner
// words of 2,040 places), turn by turn in one run. The sent words are made by the peers' encoders; each answer is compared with the sent word.
#include <fec.h>
#include <linux/bch.h>
#include <string.h>
#include "damage.h"
#include "exports.h"
#include "refusals.h"
#include "rounds.h"

enum { ROUNDS = 2001 };

// the proved correctors: 0, or the refusal's number, which is the lowest byte of their answer
static inline uint8_t correct_outer(const uint16_t *word, uint16_t *out)
{
	return exports_correct_outer(word, SYMBOLS, out, SYMBOLS);
}

static inline uint8_t correct_inner(const uint8_t *word, uint8_t *out)
{
	return exports_correct_inner(word, INNER_BYTES, out, INNER_BYTES);
}

static double ours[ROUNDS], theirs[ROUNDS];

static void report(const char *word, const char *peer, int errors)
{
	double a = median(ours, ROUNDS), b = median(theirs, ROUNDS);
	printf("%s, %d errors: proved %.2f us, %s %.2f us, ratio %.2f\n", word, errors, a / 1000, peer, b / 1000, b / a);
}

// Nine errors are beyond every code word here: whoever takes a word has made a wrong repair.
static void report_taken(const char *peer, int taken)
{
	printf("    of %d words with nine errors the proved corrector took 0, %s %d\n", ROUNDS, peer, taken);
}

static void outer(void *rs, int errors)
{
	int taken = 0;
	for (int round = 0; round < ROUNDS; round++) {
		unsigned int sent[SYMBOLS], peer[SYMBOLS];
		uint16_t word[SYMBOLS], out[SYMBOLS];
		for (int i = 0; i < DATA_SYMBOLS; i++)
			sent[i] = next_random(1024);
		encode_rs_int(rs, sent, sent + DATA_SYMBOLS);
		memcpy(peer, sent, sizeof sent);
		damage_symbols(peer, SYMBOLS, errors);
		for (int i = 0; i < SYMBOLS; i++)
			word[i] = peer[i];
		memset(out, 0, sizeof out);
		double start = now();
		uint8_t number = correct_outer(word, out);
		double middle = now();
		int found = decode_rs_int(rs, peer, NULL, 0);
		theirs[round] = now() - middle;
		ours[round] = middle - start;
		if (errors <= RADIUS) {
			require(number == 0, "proved, outer, %d errors", errors);
			for (int i = 0; i < SYMBOLS; i++)
				require(out[i] == sent[i], "proved, outer, %d errors", errors);
			require(found == errors && !memcmp(peer, sent, sizeof sent), "libfec, %d errors", errors);
		} else {
			require(number == UNCORRECTABLE, "proved, outer, %d errors", errors);
			taken += found >= 0;
		}
	}
	report("outer word", "libfec", errors);
	if (errors == 9)
		report_taken("libfec", taken);
}

static void inner(struct bch_control *bch, int errors)
{
	int taken = 0;
	for (int round = 0; round < ROUNDS; round++) {
		uint8_t sent[INNER_BYTES], word[INNER_BYTES], out[INNER_BYTES];
		unsigned int wrong[RADIUS];
		for (int i = 0; i < INNER_DATA; i++)
			sent[i] = next_random(256);
		memset(sent + INNER_DATA, 0, INNER_BYTES - INNER_DATA);
		bch_encode(bch, sent, INNER_DATA, sent + INNER_DATA);
		memcpy(word, sent, INNER_BYTES);
		damage_anywhere(word, errors, PLACES);
		memset(out, 0, sizeof out);
		double start = now();
		uint8_t number = correct_inner(word, out);
		double middle = now();
		int found = bch_decode(bch, word, INNER_DATA, word + INNER_DATA, NULL, NULL, wrong);
		for (int k = 0; k < found; k++)
			word[wrong[k] / 8] ^= 1 << wrong[k] % 8;
		theirs[round] = now() - middle;
		ours[round] = middle - start;
		if (errors <= RADIUS) {
			require(number == 0 && !memcmp(out, sent, INNER_BYTES), "proved, inner, %d errors", errors);
			require(found == errors && !memcmp(word, sent, INNER_BYTES), "kernel, %d errors", errors);
		} else {
			require(number == UNCORRECTABLE, "proved, inner, %d errors", errors);
			taken += found >= 0;
		}
	}
	report("inner word", "kernel", errors);
	if (errors == 9)
		report_taken("kernel", taken);
}

int main(void)
{
	// field A, roots a^0 to a^15, 242 symbols omitted; field B, eight errors
	void *rs = init_rs_int(10, 1033, 0, 1, 16, 1023 - SYMBOLS);
	struct bch_control *bch = bch_init(11, 8, 2053, false);
	int errors[] = { 0, 1, 4, 8, 9 };
	printf("medians of %d words; the ratio is theirs to ours, above 1 where the proved code is faster\n", ROUNDS);
	for (int k = 0; k < 5; k++)
		outer(rs, errors[k]);
	for (int k = 0; k < 5; k++)
		inner(bch, errors[k]);
	return 0;
}
