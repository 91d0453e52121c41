// A host program for older terminals: the rows of a G.709 frame are encoded as they come, one is damaged as on a line, corrected, and read again. The four rows
// are also a frame. Then calls that are refused.
#include "g709.h"
#include <stdio.h>
#include <string.h>

enum { ROWS = 4, DATA = G709_ROW_DATA_BYTES, ROW = G709_ROW_BYTES };

static uint8_t payload[G709_PAYLOAD_BYTES], frame[G709_FRAME_BYTES], row[ROW], restored[ROW], read_back[DATA];

static void invert(int first, int length)
{
	for (int i = first; i < first + length; i++)
		row[i] ^= 255;
}

// correct the row, which was the third of the frame, and say what came out
static void correct(const char *damage)
{
	memset(restored, 9, sizeof restored);
	int check = g709_check_row(row, sizeof row);
	int number = g709_correct_row(row, sizeof row, restored, sizeof restored);
	printf("%s: check %d, correct %d", damage, check, number);
	if (number == G709_OK) {
		int extract = g709_extract_row(restored, sizeof restored, read_back, sizeof read_back);
		printf(", extract %d, row %s, data %s", extract, memcmp(restored, frame + 2 * ROW, ROW) ? "another" : "as sent",
		       memcmp(read_back, payload + 2 * DATA, DATA) ? "another" : "as sent");
	} else {
		int written = 0;
		for (size_t i = 0; i < sizeof restored; i++)
			written += restored[i] != 9;
		printf(", bytes written %d", written);
	}
	printf("\n");
}

// the frame as a block, with the damaged row in it
static void as_a_frame(void)
{
	static uint8_t block[G709_FRAME_BYTES], whole[G709_FRAME_BYTES], all[G709_PAYLOAD_BYTES];
	memcpy(block, frame, sizeof frame);
	memcpy(block + 2 * ROW, row, ROW);
	int check = g709_check(block, sizeof block), number = g709_correct(block, sizeof block, whole, sizeof whole);
	printf("frame: check %d, correct %d, extract %d", check, number, g709_extract(whole, sizeof whole, all, sizeof all));
	printf(", payload %s\n", memcmp(all, payload, sizeof payload) ? "another" : "as sent");
	printf("encode of the payload %d", g709_encode(payload, sizeof payload, block, sizeof block));
	printf(", frame %s\n", memcmp(block, frame, sizeof frame) ? "another" : "that of the rows");
}

int main(void)
{
	for (int i = 0; i < G709_PAYLOAD_BYTES; i++)
		payload[i] = 31 * i % 256;
	for (int r = 0; r < ROWS; r++)
		printf("row %d: encode %d\n", r, g709_encode_row(payload + DATA * r, DATA, frame + ROW * r, ROW));
	memcpy(row, frame + 2 * ROW, ROW);
	correct("no damage");
	invert(100, 128);
	correct("128 neighbouring bytes");
	as_a_frame();
	invert(228, 1);
	correct("129 neighbouring bytes");

	printf("data too short: %d\n", g709_encode_row(payload, DATA - 1, row, ROW));
	printf("no buffer: %d\n", g709_encode_row(payload, DATA, NULL, 0));
	printf("no row: check %d, extract %d, correct %d\n", g709_check_row(NULL, 0), g709_extract_row(NULL, 0, NULL, 0), g709_correct_row(NULL, 0, NULL, 0));
	printf("a frame is no row: %d\n", g709_check_row(frame, sizeof frame));
	printf("payload too short: %d\n", g709_encode(payload, sizeof payload - 1, frame, sizeof frame));
	printf("no block: check %d, extract %d, correct %d\n", g709_check(NULL, 0), g709_extract(NULL, 0, NULL, 0), g709_correct(NULL, 0, NULL, 0));
	return 0;
}
