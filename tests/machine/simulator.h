/* What the drivers of libsimavr beside this file share. */
#ifndef SIMULATOR_H
#define SIMULATOR_H
#include <stdarg.h>
#include <stdint.h>
#include <stdio.h>
#include <stdlib.h>
#include <string.h>
#include <simavr/sim_avr.h>
#include <simavr/sim_core.h>

enum { RAMPZ = 0x5b, SPL = 0x5d, SPH = 0x5e, NO_ADDRESS = 0x10000 };

static inline void say_nothing(avr_t *avr, const int level, const char *format, va_list values)
{
	(void)avr, (void)level, (void)format, (void)values;
}

/* The device with the image in its flash, which is erased elsewhere. Ends the driver if there is no such device or file. */
static inline avr_t *machine_of(const char *device, const char *image)
{
	avr_global_logger_set(say_nothing);
	avr_t *avr = avr_make_mcu_by_name(device);
	if (!avr)
		exit(3);
	avr_init(avr);
	avr->log = 0;
	memset(avr->flash, 0xff, avr->flashend + 1);
	FILE *file = fopen(image, "rb");
	size_t size = file ? fread(avr->flash, 1, avr->flashend + 1, file) : 0;
	if (!size) {
		perror(image);
		exit(2);
	}
	fclose(file);
	avr->codeend = avr->flashend;
	return avr;
}

static inline uint16_t word_at(const avr_t *avr, uint32_t word)
{
	uint32_t byte = 2 * word % (avr->flashend + 1);
	return avr->flash[byte] | avr->flash[byte + 1] << 8;
}

static inline uint16_t pair_at(const avr_t *avr, int low) { return avr->data[low] | avr->data[low + 1] << 8; }

/* The data address that an instruction uses apart from the stack: that of a load, a store or an I/O instruction; NO_ADDRESS if none. */
static inline uint32_t address_of(const avr_t *avr, uint16_t word, uint16_t next)
{
	uint16_t x = pair_at(avr, 26), y = pair_at(avr, 28), z = pair_at(avr, 30);
	int displacement = (word & 7) | (word >> 7 & 0x18) | (word >> 8 & 0x20);
	if ((word & 0xf000) == 0xb000)
		return 0x20 + ((word & 15) | (word >> 5 & 0x30));
	if ((word & 0xfc00) == 0x9800)
		return 0x20 + (word >> 3 & 31);
	if ((word & 0xd008) == 0x8000)
		return (uint16_t)(z + displacement);
	if ((word & 0xd008) == 0x8008)
		return (uint16_t)(y + displacement);
	if ((word & 0xfc00) != 0x9000)
		return NO_ADDRESS;
	switch (word & 15) {
	case 0: return next;
	case 1: return z;
	case 2: return (uint16_t)(z - 1);
	case 9: return y;
	case 10: return (uint16_t)(y - 1);
	case 12: case 13: return x;
	case 14: return (uint16_t)(x - 1);
	default: return NO_ADDRESS;
	}
}

/* One instruction at the program counter. Interrupts do not come; the next program counter is returned. */
static inline avr_flashaddr_t execute_one(avr_t *avr)
{
	avr->run_cycle_count = 0;
	avr->run_cycle_limit = 1;
	return avr_run_one(avr);
}

/* Whether an instruction writes SPH, so that the stack pointer is half written after it. */
static inline int writes_sph(uint16_t word) { return (word & 0xfe0f) == 0xbe0e; }
#endif
