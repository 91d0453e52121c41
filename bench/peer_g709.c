// The words of a row are gathered one after the other, byte for byte at a stride of sixteen; of a corrected one the changed bytes are put back.
#include "peer_g709.h"
#include <fec.h>
#include <string.h>

enum { FRAME = 16320, ROW = 4080, ROW_DATA = 3824, WORDS = 16, BYTES = 255, DATA = 239, PARITY = BYTES - DATA, RADIUS = 8 };

static void *rs;

static uint8_t word[BYTES];

// The frame in the making.
static uint8_t made[FRAME];

int peer_g709_init(void)
{
	// z^8 + z^4 + z^3 + z^2 + 1, roots a^0 to a^15, no symbol omitted
	rs = init_rs_char(8, 0x11d, 0, 1, PARITY, 0);
	return rs != NULL;
}

static void gather(const uint8_t *row, int k, int bytes)
{
	for (int s = 0; s < bytes; s++)
		word[s] = row[WORDS * s + k];
}

static void put_parity(uint8_t *row, int k)
{
	for (int s = DATA; s < BYTES; s++)
		row[WORDS * s + k] = word[s];
}

// Corrects the word; the places that were wrong and how many, or -1 if there is no code word within eight bytes. libfec may find one further away.
static int corrected(int *places)
{
	int found = decode_rs_char(rs, word, places, 0);
	return found <= RADIUS ? found : -1;
}

void peer_g709_encode(const uint8_t *data, int rows, uint8_t *out)
{
	for (int r = 0; r < rows; r++) {
		uint8_t *row = out + ROW * r;
		memcpy(row, data + ROW_DATA * r, ROW_DATA);
		for (int k = 0; k < WORDS; k++) {
			gather(row, k, DATA);
			encode_rs_char(rs, word, word + DATA);
			put_parity(row, k);
		}
	}
}

// Words are tested by libfec's decoder, which tells a code word sooner than its encoder.
int peer_g709_check(const uint8_t *block, int rows)
{
	int places[PARITY];
	for (int r = 0; r < rows; r++)
		for (int k = 0; k < WORDS; k++) {
			gather(block + ROW * r, k, BYTES);
			if (corrected(places) != 0)
				return 4;
		}
	return 0;
}

int peer_g709_extract(const uint8_t *block, int rows, uint8_t *data)
{
	int number = peer_g709_check(block, rows);
	for (int r = 0; r < rows && number == 0; r++)
		memcpy(data + ROW_DATA * r, block + ROW * r, ROW_DATA);
	return number;
}

int peer_g709_correct(const uint8_t *block, int rows, uint8_t *out)
{
	memcpy(made, block, ROW * rows);
	for (int r = 0; r < rows; r++)
		for (int k = 0; k < WORDS; k++) {
			int places[PARITY];
			gather(made + ROW * r, k, BYTES);
			int found = corrected(places);
			if (found < 0)
				return 5;
			for (int i = 0; i < found; i++)
				made[ROW * r + WORDS * places[i] + k] = word[places[i]];
		}
	memcpy(out, made, ROW * rows);
	return 0;
}
