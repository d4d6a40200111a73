/*
 * route_ref: a plain C baseline for `route --one` between open ports that are files.
 *
 *     route_ref [-b|-r] IN:OUT..
 *
 * In rounds it reads 4,096 bytes of each port, finds the frames of MAVLink 2 whose checksum is right,
 * looks up the ports behind which their target is, and then writes each frame there: by a write of
 * its own, with -r by one write for each port and round, or with -b 64 KiB at a time, so that frames
 * wait for some five rounds.  It knows the messages that gen_route makes, keeps no journal, prints
 * nothing and verifies no signature.
 *
 *     gcc -std=c11 -O2 -o route_ref route_ref.c
 */
#define _POSIX_C_SOURCE 200809L
#include <fcntl.h>
#include <stdbool.h>
#include <stdint.h>
#include <stdio.h>
#include <stdlib.h>
#include <string.h>
#include <unistd.h>

enum { STX = 0xFD, HEADER = 10, BLOCK = 13, LONGEST = 280, PIECE = 4096, PORTS = 8, ENOUGH = 65536 };

static uint16_t crc_table[8][256];

static void crc_init(void)
{
	for (unsigned b = 0; b < 256; b++) {
		unsigned r = b;
		for (int i = 0; i < 8; i++)
			r = (r >> 1) ^ ((r & 1) ? 0x8408u : 0);
		crc_table[0][b] = (uint16_t)r;
	}
	for (unsigned b = 0; b < 256; b++)
		for (int k = 1; k < 8; k++) {
			unsigned r = crc_table[k - 1][b];
			crc_table[k][b] = (uint16_t)((r >> 8) ^ crc_table[0][r & 255]);
		}
}

static uint16_t crc(const uint8_t *p, size_t n, uint8_t extra)
{
	unsigned r = 0xFFFF;
	for (; n >= 8; n -= 8, p += 8)
		r = crc_table[7][p[0] ^ (r & 255)] ^ crc_table[6][p[1] ^ (r >> 8)] ^
		    crc_table[5][p[2]] ^ crc_table[4][p[3]] ^ crc_table[3][p[4]] ^
		    crc_table[2][p[5]] ^ crc_table[1][p[6]] ^ crc_table[0][p[7]];
	while (n--)
		r = (r >> 8) ^ crc_table[0][(r ^ *p++) & 255];
	return (uint16_t)((r >> 8) ^ crc_table[0][(r ^ extra) & 255]);
}

struct port {
	int in, out;
	bool ended;
	uint8_t held[PIECE + LONGEST];
	size_t len;
	uint8_t *waiting; /* the frames of this round, each after its length */
	size_t wait_len, wait_room;
	uint8_t buffer[ENOUGH + LONGEST];
	size_t buffered;
};

static struct port ports[PORTS];
static int count;
static bool buffers, each_round;
static uint8_t nodes[65536], systems[256];

/* CRC_EXTRA and the offset of target_system, or -1. */
static bool message(unsigned id, uint8_t *extra, int *target)
{
	switch (id) {
	case 0: *extra = 50, *target = -1; return true;
	case 33: *extra = 104, *target = -1; return true;
	case 76: *extra = 152, *target = 30; return true;
	default: return false;
	}
}

static void wait_for(struct port *p, const uint8_t *frame, size_t size)
{
	if (p->wait_len + size + 2 > p->wait_room) {
		p->wait_room = 2 * p->wait_room + 4096;
		p->waiting = realloc(p->waiting, p->wait_room);
	}
	p->waiting[p->wait_len] = (uint8_t)(size & 255);
	p->waiting[p->wait_len + 1] = (uint8_t)(size >> 8);
	memcpy(p->waiting + p->wait_len + 2, frame, size);
	p->wait_len += size + 2;
}

static void send_on(int from, const uint8_t *f, size_t size, int target)
{
	unsigned mask = 255;
	if (target >= 0) {
		unsigned sys = target < f[1] ? f[HEADER + target] : 0;
		unsigned comp = target + 1 < f[1] ? f[HEADER + target + 1] : 0;
		mask = sys == 0 ? 255 : comp == 0 ? systems[sys] : nodes[sys * 256 + comp];
	}
	nodes[f[5] * 256 + f[6]] |= (uint8_t)(1 << from);
	systems[f[5]] |= (uint8_t)(1 << from);
	for (int to = 0; to < count; to++)
		if (to != from && (mask >> to & 1))
			wait_for(&ports[to], f, size);
}

static void take(int from)
{
	struct port *p = &ports[from];
	size_t at = 0;
	while (at < p->len) {
		const uint8_t *f = p->held + at;
		size_t left = p->len - at;
		uint8_t extra;
		int target;
		if (f[0] != STX) {
			at++;
			continue;
		}
		if (left < HEADER)
			break;
		size_t size = HEADER + f[1] + 2 + (f[2] & 1 ? BLOCK : 0);
		if (f[2] > 1 || !message(f[7] | f[8] << 8 | f[9] << 16, &extra, &target)) {
			at++;
			continue;
		}
		if (left < size)
			break;
		uint16_t r = crc(f + 1, HEADER - 1 + f[1], extra);
		if (f[HEADER + f[1]] != (r & 255) || f[HEADER + f[1] + 1] != r >> 8) {
			at++;
			continue;
		}
		send_on(from, f, size, target);
		at += size;
	}
	memmove(p->held, p->held + at, p->len - at);
	p->len -= at;
}

static void put(int fd, const uint8_t *p, size_t n)
{
	while (n > 0) {
		ssize_t done = write(fd, p, n);
		if (done <= 0)
			exit(5);
		p += done, n -= (size_t)done;
	}
}

static void drain(struct port *p)
{
	for (size_t at = 0; at < p->wait_len;) {
		size_t size = p->waiting[at] | (size_t)p->waiting[at + 1] << 8;
		if (!buffers) {
			put(p->out, p->waiting + at + 2, size);
		} else {
			memcpy(p->buffer + p->buffered, p->waiting + at + 2, size);
			p->buffered += size;
			if (p->buffered >= ENOUGH)
				put(p->out, p->buffer, p->buffered), p->buffered = 0;
		}
		at += size + 2;
	}
	p->wait_len = 0;
	if (each_round)
		put(p->out, p->buffer, p->buffered), p->buffered = 0;
}

int main(int argc, char **argv)
{
	int at = 1;
	if (at < argc && (strcmp(argv[at], "-b") == 0 || strcmp(argv[at], "-r") == 0))
		buffers = true, each_round = argv[at++][1] == 'r';
	for (; at < argc && count < PORTS; at++, count++) {
		char *out = strchr(argv[at], ':');
		if (!out)
			return 2;
		*out++ = 0;
		ports[count].in = open(argv[at], O_RDONLY);
		ports[count].out = open(out, O_WRONLY | O_CREAT | O_TRUNC, 0666);
		if (ports[count].in < 0 || ports[count].out < 0)
			return 4;
	}
	crc_init();
	for (bool live = true; live;) {
		live = false;
		for (int i = 0; i < count; i++) {
			struct port *p = &ports[i];
			if (p->ended)
				continue;
			ssize_t got = read(p->in, p->held + p->len, PIECE);
			if (got <= 0) {
				p->ended = true;
				continue;
			}
			live = true;
			p->len += (size_t)got;
			take(i);
		}
		for (int i = 0; i < count; i++)
			drain(&ports[i]);
	}
	for (int i = 0; i < count; i++)
		put(ports[i].out, ports[i].buffer, ports[i].buffered);
	return 0;
}
