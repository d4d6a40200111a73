/*
 * gen_route: telemetry that comes in at one port of a router.
 *
 *     gen_route FRAMES SYSTEM signed|plain
 *
 * writes FRAMES good frames of node SYSTEM.1: mostly GLOBAL_POSITION_INT and HEARTBEAT, which go to
 * every other port, and every tenth a COMMAND_LONG to the next of four systems.  Signed ones have the
 * key 00 01 .. 1f and timestamps that rise by ten.
 *
 *     gcc -std=c11 -O2 -o gen_route gen_route.c -lcrypto
 */
#define OPENSSL_SUPPRESS_DEPRECATED
#include <openssl/sha.h>
#include <stdbool.h>
#include <stdint.h>
#include <stdio.h>
#include <stdlib.h>
#include <string.h>

enum { STX = 0xFD, HEADER = 10, KEY = 32, SYSTEMS = 4 };

static uint16_t crc_byte(uint16_t r, uint8_t byte)
{
	r ^= byte;
	for (int i = 0; i < 8; i++)
		r = (uint16_t)((r >> 1) ^ ((r & 1) ? 0x8408u : 0));
	return r;
}

static void put(uint8_t *p, uint64_t v, int n)
{
	for (int i = 0; i < n; i++)
		p[i] = (uint8_t)(v >> 8 * i);
}

/* The payload of a frame; returns its message's id, CRC_EXTRA and length without zeros at the end. */
static unsigned payload_of(uint64_t number, unsigned system, uint8_t *payload, uint8_t *extra, unsigned *length)
{
	memset(payload, 0, 64);
	if (number % 10 == 5) {
		payload[28] = 16;
		payload[30] = (uint8_t)(system % SYSTEMS + 1);
		payload[31] = 1;
		*extra = 152, *length = 32;
		return 76;
	}
	if (number % 10 == 0) {
		put(payload, number, 4);
		payload[4] = 2, payload[5] = 3, payload[6] = 81, payload[7] = 4, payload[8] = 3;
		*extra = 50, *length = 9;
		return 0;
	}
	for (int i = 0; i < 7; i++)
		put(payload + 4 * i, (number + 1) * 2654435761u * (unsigned)(i + 1), 4);
	payload[27] |= 1;
	*extra = 104, *length = 28;
	return 33;
}

int main(int argc, char **argv)
{
	if (argc != 4)
		return 2;
	uint64_t count = strtoull(argv[1], NULL, 10);
	unsigned system = (unsigned)atoi(argv[2]);
	bool is_signed = strcmp(argv[3], "signed") == 0;
	uint8_t keyed[KEY + 280], payload[64], digest[SHA256_DIGEST_LENGTH];
	for (int i = 0; i < KEY; i++)
		keyed[i] = (uint8_t)i;
	for (uint64_t number = 0; number < count; number++) {
		uint8_t *f = keyed + KEY, extra;
		unsigned length, id = payload_of(number, system, payload, &extra, &length);
		f[0] = STX, f[1] = (uint8_t)length, f[2] = is_signed, f[3] = 0, f[4] = (uint8_t)number;
		f[5] = (uint8_t)system, f[6] = 1;
		put(f + 7, id, 3);
		memcpy(f + HEADER, payload, length);
		unsigned size = HEADER + length;
		uint16_t r = 0xFFFF;
		for (unsigned i = 1; i < size; i++)
			r = crc_byte(r, f[i]);
		put(f + size, crc_byte(r, extra), 2);
		size += 2;
		if (is_signed) {
			f[size] = 0;
			put(f + size + 1, 10 * (number + 1), 6);
			SHA256(keyed, KEY + size + 7, digest);
			memcpy(f + size + 7, digest, 6);
			size += 13;
		}
		if (fwrite(f, 1, size, stdout) != size)
			return 5;
	}
	return fflush(stdout) ? 5 : 0;
}
