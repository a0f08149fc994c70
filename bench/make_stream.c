/*
 * Writes a send stream to standard output, to time programs on: N objects of type 19 with blocks of 131,072 bytes or
 * of so many as are given, a power of two from 512 on, a bonus of 8 bytes each, blocks 0 to 254, or so many as are given, but every
 * eighth, or each EACH-th, which are holes.
 * Build: cc -O2 -o make_stream make_stream.c        Use: make_stream N [BLOCK [BLOCKS [EACH]]]
 * The stream of 7 objects has 206,083,176 bytes.
 */
#include <stdbool.h>
#include <stdint.h>
#include <stdio.h>
#include <stdlib.h>
#include <string.h>

enum { RECORD = 312, SUMMED = 280, LARGEST_BLOCK = 131072, SMALLEST_BLOCK = 512 };
enum { BEGIN, OBJECT, FREEOBJECTS, WRITE, FREE, END };
static const uint64_t GUID = 0x100000001;

typedef struct { uint64_t a, b, c, d; } sums;

/* Of all bytes that were written. */
static sums total;

static uint64_t block_size = LARGEST_BLOCK, blocks = 255, hole_each = 8;

static void put32(uint8_t *at, uint32_t n) { memcpy(at, &n, 4); }
static void put64(uint8_t *at, uint64_t n) { memcpy(at, &n, 8); }

static sums add(sums s, const uint8_t *bytes, size_t length)
{
	for (size_t i = 0; i < length; i += 4) {
		uint32_t word;
		memcpy(&word, bytes + i, 4);
		s.a += word, s.b += s.a, s.c += s.b, s.d += s.c;
	}
	return s;
}

static void emit(const uint8_t *bytes, size_t length)
{
	total = add(total, bytes, length);
	if (fwrite(bytes, 1, length, stdout) != length)
		exit(1);
}

static void emit_record(uint8_t *record, uint32_t type)
{
	put32(record, type);
	if (type != BEGIN) {
		sums sealed = add(total, record, SUMMED);
		memcpy(record + SUMMED, &sealed, sizeof sealed);
	}
	emit(record, RECORD);
}

static void emit_begin(void)
{
	uint8_t record[RECORD] = {0};
	put64(record + 8, 0x2F5bacbac);
	put64(record + 16, 17);
	put64(record + 24, 1700000000);
	put32(record + 32, 2);
	put32(record + 36, 12);
	put64(record + 40, GUID);
	strcpy((char *)record + 56, "gen/f@g");
	emit_record(record, BEGIN);
}

static void emit_object(uint64_t object)
{
	uint8_t record[RECORD] = {0}, bonus[8];
	put64(record + 8, object);
	put32(record + 16, 19);
	put32(record + 24, (uint32_t)block_size);
	put32(record + 28, sizeof bonus);
	record[34] = 1;
	put64(record + 40, GUID);
	put64(record + 56, blocks - 1);
	emit_record(record, OBJECT);
	put64(bonus, object);
	emit(bonus, sizeof bonus);
}

static void emit_range(uint32_t type, uint64_t first, uint64_t second, uint64_t third)
{
	uint8_t record[RECORD] = {0};
	put64(record + 8, first);
	put64(record + 16, second);
	put64(record + 24, third);
	if (type == FREE)
		put64(record + 32, GUID);
	emit_record(record, type);
}

static void emit_block(uint64_t object, uint64_t index)
{
	static uint8_t block[LARGEST_BLOCK];
	uint8_t record[RECORD] = {0};
	put64(record + 8, object);
	put32(record + 16, 19);
	put64(record + 24, index * block_size);
	put64(record + 32, block_size);
	put64(record + 40, GUID);
	emit_record(record, WRITE);
	for (uint64_t word = 0; word < block_size / 4; word++)
		put32(block + 4 * word, (uint32_t)((object * 65536 + index * 256 + word) * 2654435761u));
	emit(block, block_size);
}

static void emit_end(void)
{
	uint8_t record[RECORD] = {0};
	memcpy(record + 8, &total, sizeof total);
	put64(record + 40, GUID);
	emit_record(record, END);
}

int main(int argc, char **argv)
{
	uint64_t objects = 2 <= argc && argc <= 5 ? strtoull(argv[1], NULL, 10) : 0;
	if (argc >= 3)
		block_size = strtoull(argv[2], NULL, 10);
	if (argc >= 4)
		blocks = strtoull(argv[3], NULL, 10);
	if (argc >= 5)
		hole_each = strtoull(argv[4], NULL, 10);
	bool is_block = SMALLEST_BLOCK <= block_size && block_size <= LARGEST_BLOCK && (block_size & (block_size - 1)) == 0;
	if (objects == 0 || !is_block || blocks == 0 || hole_each == 0) {
		fprintf(stderr, "use: make_stream N [BLOCK [BLOCKS [EACH]]]\n");
		return 2;
	}
	emit_begin();
	for (uint64_t object = 1; object <= objects; object++) {
		emit_object(object);
		emit_range(FREE, object, blocks * block_size, UINT64_MAX);
		for (uint64_t index = 0; index < blocks; index++)
			if (index % hole_each == hole_each - 1)
				emit_range(FREE, object, index * block_size, block_size);
			else
				emit_block(object, index);
	}
	emit_range(FREEOBJECTS, objects + 1, ((uint64_t)1 << 48) - objects - 1, GUID);
	emit_end();
	return fflush(stdout) == 0 ? 0 : 1;
}
