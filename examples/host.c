// A host program: a payload is encoded, the frame is damaged as on a line, corrected, and read again. Then calls that are refused.
#include "g9751_i4.h"
#include <stdio.h>
#include <string.h>

static uint8_t payload[G9751_I4_PAYLOAD_BYTES], frame[G9751_I4_FRAME_BYTES];
static uint8_t block[G9751_I4_FRAME_BYTES], restored[G9751_I4_FRAME_BYTES], read_back[G9751_I4_PAYLOAD_BYTES];

static void invert(int i)
{
	block[i / 8] ^= 128 >> i % 8;
}

// correct the block and say what came out
static void correct(const char *damage)
{
	memset(restored, 9, sizeof restored);
	int check = g9751_i4_check(block, sizeof block);
	int number = g9751_i4_correct(block, sizeof block, restored, sizeof restored);
	printf("%s: check %d, correct %d", damage, check, number);
	if (number == G9751_I4_OK) {
		int extract = g9751_i4_extract(restored, sizeof restored, read_back, sizeof read_back);
		printf(", extract %d, frame %s, payload %s", extract, memcmp(restored, frame, sizeof frame) ? "another" : "as sent",
		       memcmp(read_back, payload, sizeof payload) ? "another" : "as sent");
	} else {
		int written = 0;
		for (size_t i = 0; i < sizeof restored; i++)
			written += restored[i] != 9;
		printf(", bytes written %d", written);
	}
	printf("\n");
}

int main(void)
{
	for (int i = 0; i < G9751_I4_PAYLOAD_BYTES; i++)
		payload[i] = 31 * i % 256;
	printf("encode %d\n", g9751_i4_encode(payload, sizeof payload, frame, sizeof frame));
	memcpy(block, frame, sizeof frame);
	correct("no damage");
	for (int i = 0; i < 512; i++)
		invert(i);
	correct("512 bits in a row");
	for (int i = 512; i < 1024; i++)
		invert(i);
	correct("1024 bits in a row");

	printf("payload too short: %d\n", g9751_i4_encode(payload, sizeof payload - 1, frame, sizeof frame));
	printf("no buffer: %d\n", g9751_i4_encode(payload, sizeof payload, NULL, 0));
	printf("no block: check %d, extract %d, correct %d\n", g9751_i4_check(NULL, 0), g9751_i4_extract(NULL, 0, NULL, 0), g9751_i4_correct(NULL, 0, NULL, 0));
	return 0;
}
