/* A store or a call for each rule by which a pointer is made of a number: each is an ordinary place. tests/simulated/faults breaks the
 * rules one at a time. */
#include <avr/eeprom.h>
#include <avr/io.h>
#include <avr/pgmspace.h>
#include <stdint.h>
#include <string.h>

#define SITE __attribute__((noinline, noclone)) static void
#define MADE __attribute__((noinline, noclone)) static

static uint8_t in(void) { return PINC; }
static uint8_t bytes[8];
static uint16_t words[4], first, last;
static uint8_t *places[4];
static volatile uint8_t sink;

static struct { uint8_t command, low, high; } request;

MADE void take(void) { request.command = in(); request.low = in(); request.high = in(); }

SITE two_inputs(void) { uint8_t low = in(); *(volatile uint8_t *)(low | in() << 8) = 1; }

SITE single_bytes(void) { take(); *(volatile uint8_t *)(request.low | request.high << 8) = 2; }

SITE swapped_bytes(void) {
	volatile uint8_t *from = places[in() & 3]; /* memory that holds pointers */
	uint8_t high = from[0], low = from[1];
	sink = 3;
	*(volatile uint8_t *)(low | high << 8) = 30;
}

SITE widened(void) { *(volatile uint8_t *)(uint16_t)in() = 3; }

SITE constant_and_index(void) { ((volatile uint8_t *)0x20)[in()] = 4; }

SITE between_objects(void) { volatile uint8_t *far = bytes + in(), *near = (uint8_t *)words + in(); *(volatile uint8_t *)(far - near) = 5; }

static uint8_t *volatile begin = bytes;
SITE less_object(void) {
	uint16_t it = 0x20 - (uint16_t)begin;
	sink = 4;
	*(volatile uint8_t *)(it + (uint16_t)begin + in()) = 6;
}

SITE two_objects_mixed(void) { *(volatile uint8_t *)((uint16_t)(bytes + in()) ^ (uint16_t)(words + in())) = 7; }

SITE doubled(void) { uint16_t it = (uint16_t)(bytes + in()); *(volatile uint8_t *)(it << 1) = 8; }

SITE halved(void) { uint16_t it = (uint16_t)(bytes + in()); *(volatile uint8_t *)(it >> 1) = 9; }

SITE variable(void) { first = in() | in() << 8; sink = 1; *(volatile uint8_t *)first = 10; }

MADE void fill(uint16_t *at, uint8_t count) { while (count--) *at++ = in() | in() << 8; }
MADE void poke(uint16_t *at) { *(volatile uint8_t *)at[in() & 3] = 11; }
SITE array(void) { fill(words, 4); poke(words); }

SITE slot(void) {
	volatile uint16_t held[3];
	held[0] = in() | in() << 8;
	held[1] = held[2] = 0;
	*(volatile uint8_t *)held[0] = 12;
}

SITE pushed(void) {
	uint16_t it = in() | in() << 8;
	__asm__ volatile("push %A0\n\tpush %B0\n\tclr %A0\n\tclr %B0\n\tpop %B0\n\tpop %A0" : "+e"(it));
	*(volatile uint8_t *)it = 13;
}

MADE void given(uint16_t it) { *(volatile uint8_t *)it = 14; }
SITE argument(void) { uint8_t low = in(); given(low | in() << 8); }

MADE uint16_t number(void) { uint8_t low = in(); return low | in() << 8; }
MADE uint16_t number_beside(uint8_t *it) { uint8_t low = in(); sink = *it; return low | in() << 8; }
SITE result_beside(void) { *(volatile uint8_t *)number_beside(bytes + (in() & 7)) = 31; }
SITE result(void) { *(volatile uint8_t *)number() = 15; }

SITE chosen(void) { volatile uint8_t *it = in() & 1 ? bytes : (uint8_t *)(uint16_t)(in() | in() << 8); *it = 16; }

SITE chosen_null(void) {
	uint8_t low = in();
	uint8_t *it = in() & 1 ? bytes : (uint8_t *)(uint16_t)low;
	it += in() & 3;
	*(volatile uint8_t *)it = 17;
}

SITE stepped(void) { volatile uint8_t *it = (uint8_t *)0x20; for (uint8_t n = in(); n; n--) *it++ = 18; }

SITE stored(void) { uint16_t it = eeprom_read_word((uint16_t *)2); *(volatile uint8_t *)it = 19; }

SITE copied(void) { uint8_t held[2] = { in(), in() }; uint16_t it; memcpy(&it, held, 2); sink = 2; *(volatile uint8_t *)it = 20; }

SITE negative(void) { uint16_t it = in() | in() << 8; *(volatile uint8_t *)-it = 21; }

SITE swapped(void) { uint16_t it = in() | in() << 8; *(volatile uint8_t *)(uint16_t)(it << 8 | it >> 8) = 22; }

SITE product(void) { *(volatile uint8_t *)((uint16_t)in() * in()) = 23; }

SITE inverted(void) { uint16_t it = in() | in() << 8; *(volatile uint8_t *)~it = 24; }

SITE masked(void) {
	uint16_t it = (uint16_t)(bytes + in());
	__asm__ volatile("andi %B0, 0" : "+d"(it));
	*(volatile uint8_t *)it = 25;
}

SITE from_flash(void) {
	static const uint8_t table[] PROGMEM = { 0x25, 0x28, 0x2B, 0x5F };
	*(volatile uint8_t *)(uint16_t)pgm_read_byte(&table[in() & 3]) = 26;
}

SITE tested(void) { uint16_t it = in() | in() << 8; if (it >> 8) *(volatile uint8_t *)it = 27; }

SITE kept_whole(void) { places[in() & 3] = bytes + (in() & 7); places[in() & 3][0] = 28; } /* no number: memory safety */

static void one(void) { sink = 1; }
static void two(void) { sink = 2; }

/* two instructions at a fixed address */
__attribute__((naked, used, section(".landing"))) void landing(void) { __asm__ volatile("ret\n\tret"); }

SITE called_number(void) { ((void (*)(void))(0x800 + (in() & 1)))(); }

SITE called_sum(void) { ((void (*)(void))((uint16_t)one + (in() & 1)))(); }

int main(void) {
	for (;;)
		switch (in() & 31) {
		case 0: two_inputs(); break;
		case 1: single_bytes(); break;
		case 2: widened(); break;
		case 3: constant_and_index(); break;
		case 4: between_objects(); break;
		case 5: less_object(); break;
		case 6: two_objects_mixed(); break;
		case 7: doubled(); break;
		case 8: halved(); break;
		case 9: variable(); break;
		case 10: array(); break;
		case 11: slot(); break;
		case 12: pushed(); break;
		case 13: argument(); break;
		case 14: result(); break;
		case 15: chosen(); break;
		case 16: chosen_null(); break;
		case 17: stepped(); break;
		case 18: stored(); break;
		case 19: copied(); break;
		case 20: negative(); break;
		case 21: swapped(); break;
		case 22: product(); break;
		case 23: inverted(); break;
		case 24: masked(); break;
		case 25: from_flash(); break;
		case 26: tested(); break;
		case 27: kept_whole(); break;
		case 28: called_number(); break;
		case 29: called_sum(); break;
		case 30: swapped_bytes(); break;
		default: result_beside(); last = first; two();
		}
}
