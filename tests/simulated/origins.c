/* See origins.h. A byte counts how many addresses of objects it is made of: sums add the counts, differences subtract them, and of what
 * counts 0 it is a number. Addresses of functions have a count of their own, which ends where something is added. */
#include "origins.h"

#include <stdio.h>
#include <string.h>

enum { Z = 30, Y = 28, X = 26, SPL = 0x5D, SPH = 0x5E, RAMPZ = 0x5B, RECENT = 4, MOST_COUNT = 2, MOST_SUMS = 12 };

/* `constant` is 0 but for a byte of the program's constants: then 1 and the sums that made it. `home` is where the byte was last loaded
 * from, and `when` the step of it; `is_kept` whether its neighbour was loaded with it. */
struct origin {
	int8_t objects, code;
	uint8_t constant, is_kept;
	uint32_t home;
	uint64_t when;
};

enum { NOWHERE = 0xFFFFFFFF };

static struct origin of[0x10000];
static struct mark { int8_t objects, code; } immediate[0x20000], in_flash[0x40000];
static uint8_t stood[0x10000], has_high_half;
static uint64_t now;

static const struct origin number = { .home = NOWHERE }, constant = { .constant = 1, .home = NOWHERE },
	frame = { .objects = 1, .home = NOWHERE };

void read_marks(const char *path) {
	FILE *file = fopen(path, "r");
	char what, kind[8], sign;
	unsigned at;
	if (!file)
		return;
	while (fscanf(file, " %c %x %7s %c", &what, &at, kind, &sign) == 4) {
		int8_t count = sign == '-' ? -1 : 1, is_object = !strcmp(kind, "object");
		if (what == 'i') {
			immediate[at & 0x1FFFF].objects = is_object ? count : 0;
			immediate[at & 0x1FFFF].code = is_object ? 0 : count;
		} else {
			in_flash[at & 0x3FFFF].objects = is_object ? count : 0;
			in_flash[at & 0x3FFFF].code = is_object ? 0 : count;
		}
	}
	fclose(file);
}

uint16_t stack_pointer(avr_t *avr) { return avr->data[SPL] | avr->data[SPH] << 8; }
uint16_t pair_at(avr_t *avr, int low) { return avr->data[low] | avr->data[low + 1] << 8; }
uint16_t word_at(avr_t *avr, uint32_t word) { return avr->flash[2 * word] | avr->flash[2 * word + 1] << 8; }

static struct origin marked(struct mark it) {
	return (struct origin){ .objects = it.objects, .code = it.code, .constant = !it.objects && !it.code, .home = NOWHERE };
}

static int8_t limited(int count) { return count > MOST_COUNT ? MOST_COUNT : count < -MOST_COUNT ? -MOST_COUNT : count; }
static int is_stack_pointer(uint16_t address) { return address == SPL || address == SPH; }
static int is_plain(struct origin it) { return !it.objects && !it.code; }

static uint8_t constant_of(struct origin a, struct origin b) {
	int sums = a.constant > b.constant ? a.constant : b.constant;
	return a.constant && b.constant && sums <= MOST_SUMS ? sums + 1 : 0;
}

static struct origin sum(struct origin a, struct origin b, int sign) {
	struct origin made = number;
	made.constant = constant_of(a, b);
	made.objects = limited(a.objects + sign * b.objects);
	made.home = a.is_kept || !b.is_kept ? a.home : b.home;
	int is_cancelled = !made.objects && (a.objects || b.objects);
	made.is_kept = !is_cancelled && (a.is_kept || (sign > 0 && b.is_kept));
	return made;
}

/* Of `and`, `or`, `eor`: an address and a number are the address, as long as the byte isn't 0; two addresses are a number. */
static struct origin joined(struct origin a, struct origin b, int is_zero) {
	struct origin made = number;
	if (!is_zero && !(a.objects && b.objects))
		made.objects = a.objects ? a.objects : b.objects;
	if (!is_zero && !(a.code && b.code))
		made.code = a.code ? a.code : b.code;
	made.constant = constant_of(a, b);
	made.is_kept = !is_zero && (a.is_kept || b.is_kept);
	made.home = a.is_kept || !b.is_kept ? a.home : b.home;
	return made;
}

/* Notes that a byte was loaded from somewhere: with its neighbour, it is one pair of memory. The lower half of a pair may be in r0. */
static void load(int into, struct origin byte, uint32_t home) {
	int mates[] = { into ^ 1, into & 1 ? 0 : -1, -1 };
	byte.is_kept = 0;
	byte.home = home;
	byte.when = now;
	for (int n = 0; mates[n] >= 0; n++) {
		struct origin *mate = &of[mates[n]];
		uint32_t wanted = into & 1 ? home - 1 : home + 1;
		if (mate->home == wanted && now - mate->when <= RECENT + 1)
			byte.is_kept = mate->is_kept = 1;
	}
	of[into] = byte;
}

static void load_data(avr_t *avr, int into, uint16_t address) {
	int is_input = address >= 0x20 && address <= avr->ioend;
	load(into, is_stack_pointer(address) ? frame : is_input ? number : of[address], address);
}

static void load_flash(avr_t *avr, int into, int is_far) {
	uint32_t address = pair_at(avr, Z) | (is_far ? avr->data[RAMPZ] << 16 : 0);
	struct origin byte = marked(in_flash[address & 0x3FFFF]);
	load(into, byte, FLASH + address);
}

static void store_data(uint16_t address, struct origin byte) {
	byte.is_kept = 0;
	byte.home = NOWHERE;
	if (!is_stack_pointer(address))
		of[address] = byte;
	stood[address] |= !is_plain(byte);
}

void begin(avr_t *avr) {
	has_high_half = avr->ramend > 0xFF;
	for (int at = avr->ioend + 1; at < 0x10000; at++)
		of[at] = constant;
}

void note_blind_store(uint16_t address) { stood[address] = 1; }
int stood_at(uint16_t address) { return stood[address]; }
uint32_t home_of(int low) { return of[low].home; }

int is_access(avr_t *avr, int *pointer, uint16_t *address, int *is_store) {
	uint32_t word = avr->pc >> 1;
	uint16_t opcode = word_at(avr, word);
	*is_store = opcode >> 9 & 1;
	if ((opcode & 0xFC0F) == 0x9000) {
		*pointer = -1;
		*address = word_at(avr, word + 1);
		return 1;
	}
	if ((opcode & 0xD000) == 0x8000) {
		*pointer = opcode & 8 ? Y : Z;
		*address = pair_at(avr, *pointer) + ((opcode & 7) | (opcode >> 7 & 0x18) | (opcode >> 8 & 0x20));
		return 1;
	}
	if ((opcode & 0xFC00) != 0x9000)
		return 0;
	switch (opcode & 15) {
	case 1: case 2: *pointer = Z; break;
	case 9: case 10: *pointer = Y; break;
	case 12: case 13: case 14: *pointer = X; break;
	default: return 0;
	}
	*address = pair_at(avr, *pointer) - ((opcode & 3) == 2);
	return 1;
}

/* The instructions with two registers: 0 if it is none. */
static int follow_two(avr_t *avr, uint16_t opcode) {
	int d = opcode >> 4 & 31, r = (opcode & 15) | (opcode >> 5 & 16);
	switch (opcode & 0xFC00) {
	case 0x0C00: case 0x1C00: of[d] = d == r ? number : sum(of[d], of[r], 1); return 1;
	case 0x1800: case 0x0800: of[d] = d == r ? number : sum(of[d], of[r], -1); return 1;
	case 0x2000: if (d != r) of[d] = joined(of[d], of[r], !(avr->data[d] & avr->data[r])); return 1;
	case 0x2400: of[d] = d == r ? constant : joined(of[d], of[r], 0); return 1;
	case 0x2800: if (d != r) of[d] = joined(of[d], of[r], 0); return 1;
	case 0x2C00: of[d] = of[r]; return 1;
	case 0x9C00: of[0] = of[1] = number; return 1;
	case 0x0000: break;
	default: return 0;
	}
	if ((opcode & 0xFF00) == 0x0100) {
		struct origin low = of[2 * (opcode & 15)], high = of[2 * (opcode & 15) + 1];
		of[2 * (opcode >> 4 & 15)] = low;
		of[2 * (opcode >> 4 & 15) + 1] = high;
	} else if (opcode >= 0x0200 && opcode < 0x0400)
		of[0] = of[1] = number;
	return 1;
}

/* The instructions with a register and an immediate: 0 if it is none. */
static int follow_immediate(avr_t *avr, uint16_t opcode) {
	int d = 16 + (opcode >> 4 & 15), byte = (opcode & 15) | (opcode >> 4 & 0xF0);
	uint32_t word = (avr->pc >> 1) & 0x1FFFF;
	struct origin it = marked(immediate[word]);
	switch (opcode & 0xF000) {
	case 0xE000: of[d] = it; return 1;
	case 0x5000: case 0x4000: of[d] = sum(of[d], it, -1); return 1;
	case 0x6000: of[d] = joined(of[d], it, 0); return 1;
	case 0x7000: of[d] = joined(of[d], it, !(avr->data[d] & byte)); return 1;
	}
	return 0;
}

/* The instructions with one register: 0 if it is none. */
static int follow_one(uint16_t opcode) {
	int d = opcode >> 4 & 31;
	if ((opcode & 0xFE08) == 0xF800) { /* bld */
		of[d] = number;
		return 1;
	}
	if ((opcode & 0xFE00) != 0x9400)
		return 0;
	switch (opcode & 15) {
	case 0: case 1: of[d] = sum(constant, of[d], -1); return 1; /* com, neg */
	case 3: case 10: of[d] = sum(of[d], constant, 1); return 1; /* inc, dec */
	case 6: case 7: /* lsr, ror: of a function's byte address, its word */
		of[d] = (struct origin){ .code = of[d].code, .home = NOWHERE };
		return 1;
	case 2: case 5: of[d] = number; return 1; /* swap, asr */
	}
	return 0;
}

void follow(avr_t *avr) {
	uint16_t opcode = word_at(avr, avr->pc >> 1), address;
	int pointer, is_store, d = opcode >> 4 & 31, port = ((opcode & 15) | (opcode >> 5 & 0x30)) + 0x20;
	now++;
	if (is_access(avr, &pointer, &address, &is_store)) {
		if (is_store)
			store_data(address, of[d]);
		else
			load_data(avr, d, address);
	} else if ((opcode & 0xFE0F) == 0x920F)
		of[stack_pointer(avr)] = of[d];
	else if ((opcode & 0xFE0F) == 0x900F)
		of[d] = of[(uint16_t)(stack_pointer(avr) + 1)];
	else if ((opcode & 0xF800) == 0xB000)
		load_data(avr, d, port);
	else if ((opcode & 0xF800) == 0xB800)
		store_data(port, of[d]);
	else if ((opcode & 0xFE0C) == 0x9004)
		load_flash(avr, d, opcode & 2);
	else if (opcode == 0x95C8 || opcode == 0x95D8)
		load_flash(avr, 0, opcode == 0x95D8);
	else if ((opcode & 0xFE00) == 0x9600) { /* adiw, sbiw */
		int low = 24 + 2 * (opcode >> 4 & 3);
		of[low] = sum(of[low], constant, 1);
		of[low + 1] = sum(of[low + 1], constant, 1);
	} else if (!follow_two(avr, opcode) && !follow_immediate(avr, opcode))
		follow_one(opcode);
}

void follow_return_address(avr_t *avr, uint16_t before) {
	struct origin code = { .code = 1, .home = NOWHERE };
	for (uint16_t at = stack_pointer(avr) + 1; at != (uint16_t)(before + 1); at++)
		of[at] = code;
}

static enum source source_of(int low) {
	if (!is_plain(of[low]) || !is_plain(of[low + 1]))
		return ADDRESS;
	return of[low].constant && of[low + 1].constant ? CONSTANTS : of[low].is_kept && of[low + 1].is_kept ? KEPT : NUMBERS;
}

enum source source_of_transfer(int low) { return source_of(low); }

/* A byte beside a 0 that is no half of an address is a number that was widened, unless the stack pointer has no high half. */
enum source source_of_store(avr_t *avr, int low) {
	struct origin high = of[low + 1];
	int is_widened = is_plain(high) && avr->data[low + 1] == 0 && !high.is_kept && has_high_half;
	return is_widened && !(of[low].constant && high.constant) ? NUMBERS : source_of(low);
}
