// A call of each entry on one frame or row, for a count of instructions: valgrind --tool=callgrind --toggle-collect=ENTRY, which counts the same on any machine.
#include "payloads.h"
#include "rows.h"

static uint8_t payload[PAYLOAD], frame[FRAME], out[FRAME];

static int i4_frame(void)
{
	return g9751_i4_encode(payload, PAYLOAD, frame, FRAME) + g9751_i4_check(frame, FRAME) + g9751_i4_extract(frame, FRAME, payload, PAYLOAD)
		+ g9751_i4_correct(frame, FRAME, out, FRAME);
}

static int g709_frame(void)
{
	return g709_encode(payload, PAYLOAD, frame, FRAME) + g709_check(frame, FRAME) + g709_extract(frame, FRAME, payload, PAYLOAD)
		+ g709_correct(frame, FRAME, out, FRAME);
}

static int g709_row(void)
{
	return g709_encode_row(payload, ROW_DATA, frame, ROW) + g709_check_row(frame, ROW) + g709_extract_row(frame, ROW, payload, ROW_DATA)
		+ g709_correct_row(frame, ROW, out, ROW);
}

int main(void)
{
	fill_payload(payload, congruential_byte);
	return i4_frame() + g709_frame() + g709_row();
}
