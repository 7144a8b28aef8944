/* Runs a firmware under libsimavr with its timers, receivers and converters, and writes a schedule by which the machine goes the same way.
 *
 * usage: recorder DEVICE CORE IMAGE STEPS SEED EVERY SCHEDULE
 *
 * DEVICE is a file of hexadecimal numbers: words of flash, first and last address of SRAM, words of a vector, vectors, whether there is
 * SPH, whether there is RAMPZ; then for each vector that one bit enables its number, the bit's address and mask. CORE is libsimavr's name.
 *
 * Interrupts are those of libsimavr's peripherals, and enabled vectors raised at random; libsimavr enters all of them. The input bytes of
 * the schedule are what its instructions read. Each sleep ends by an interrupt.
 *
 * Prints `at N depth D` after each EVERY choices and at the end; `fresh N W B DIGEST`: after N choices control is at the word W, and
 * neither it nor the next word was executed before; B is an address of 48 free bytes below the stack, and DIGEST that of the whole state as
 * state_digest makes it; at last `end WHY interrupts N vectors N`. SCHEDULE.trace has for each choice the word of control (four bytes), the
 * data address that the instruction uses (two bytes, FFFF if none) and the stack pointer before it. */
#include <simavr/avr_uart.h>
#include <simavr/sim_interrupts.h>
#include <simavr/sim_io.h>
#include "simulator.h"

enum { MOST_VECTORS = 128, MOST_WORDS = 0x40000, FREE_BYTES = 48 };
enum { LONGEST_SLEEP = 200000, SLICE = 64 };        /* slices; cycles of a slice */
enum { ONE_VECTOR_IN = 40, ONE_BYTE_IN = 500 };     /* chances behind an instruction */
enum { SREG_PLACE = 32, SPL_PLACE, SPH_PLACE };
enum kind { GO, TAKE };
static const char RECEIVED[] = "Hello, 12\r\nAT+?x 3 4 add\n";

static struct { unsigned words, first, last, words_of_vector, vectors, has_sph, has_rampz; } device;
static struct { unsigned address, mask; } enables[MOST_VECTORS];
static struct choice { uint8_t kind, one, other; } *choices;
static struct __attribute__((packed)) trace { uint32_t word; uint16_t address, stack; } *traces;
static uint32_t made, every, entries[MOST_VECTORS], taken;
static uint8_t was_executed[MOST_WORDS];
static int deepest, is_half_written;
static avr_t *avr;

static uint64_t random_state;
static uint32_t chance(void)
{
	random_state = random_state * 6364136223846793005ull + 1442695040888963407ull;
	return random_state >> 33;
}

static uint16_t stack_pointer(void) { return avr->data[SPL] | (device.has_sph ? avr->data[SPH] << 8 : 0); }

static uint8_t status_byte(void)
{
	uint8_t byte = 0;
	for (int bit = 0; bit < 8; bit++)
		byte |= (avr->sreg[bit] & 1) << bit;
	return byte;
}

/* The digest of registers, SREG, stack pointer and SRAM, with the first three stored from an address on, as self_test.fold makes it. */
static uint32_t state_digest(unsigned at)
{
	static uint8_t memory[0x10000];
	uint8_t sum[4] = {0};
	memcpy(memory, avr->data, device.last + 1);
	memcpy(memory + at, avr->data, 32);
	memory[at + SREG_PLACE] = status_byte();
	memory[at + SPL_PLACE] = stack_pointer();
	memory[at + SPH_PLACE] = stack_pointer() >> 8;
	for (unsigned address = device.first; address <= device.last; address++) {
		uint8_t added[] = {memory[address], address + 1};
		unsigned carry = 0;
		for (int place = 0; place < 4; place++) {
			unsigned total = sum[place] + (place < 2 ? added[place] : sum[place - 2]) + carry;
			sum[place] = total;
			carry = total >> 8;
		}
		carry = 0;
		for (int place = 0; place < 4; place++) {
			unsigned total = 2 * sum[place] + carry;
			sum[place] = total;
			carry = total >> 8;
		}
		sum[0] += carry;
	}
	return sum[3] << 24 | sum[2] << 16 | sum[1] << 8 | sum[0];
}

static void read_device(const char *path)
{
	FILE *file = fopen(path, "r");
	unsigned vector, address, mask;
	if (!file || fscanf(file, "%x %x %x %x %x %x %x", &device.words, &device.first, &device.last, &device.words_of_vector, &device.vectors,
			    &device.has_sph, &device.has_rampz) != 7)
		exit(2);
	while (fscanf(file, "%x %x %x", &vector, &address, &mask) == 3)
		if (vector < MOST_VECTORS)
			enables[vector].address = address, enables[vector].mask = mask;
	fclose(file);
}

static void choose(enum kind kind, uint8_t one, uint8_t other, struct trace trace)
{
	traces[made] = trace;
	choices[made++] = (struct choice){kind, one, other};
	int depth = device.last - stack_pointer();
	if (!is_half_written && depth > deepest && depth <= (int)device.last)
		deepest = depth;
	if (made % every == 0)
		printf("at %u depth %d\n", made, deepest);
}

/* Why the next instruction is none whose run can be compared, or nothing. */
static const char *obstacle(uint16_t word, uint32_t address)
{
	int is_table = (word & 0xfe0c) == 0x9004 || (word & 0xffef) == 0x95c8;
	int is_extended = (word & 0xfe0e) == 0x9006 || word == 0x95d8;
	uint32_t place = pair_at(avr, 30) | (is_extended && device.has_rampz ? avr->data[RAMPZ] << 16 : 0);
	if ((word & 0xffef) == 0x95e8)
		return "spm";
	if (is_table && place >= 2 * device.words)
		return "a read past flash";
	return address != NO_ADDRESS && address > device.last ? "a use above SRAM" : 0;
}

/* What a read of I/O by this instruction gave: the byte in its register, or the bit by which it skipped. */
static uint8_t input_of(uint16_t word, uint32_t address, int has_skipped)
{
	int is_store = (word & 0xfe00) == 0x9200 || (word & 0xd200) == 0x8200;
	if (address < 0x20 || address >= device.first || is_store)
		return 0;
	if ((word & 0xfc00) != 0x9800)
		return avr->data[word >> 4 & 31];
	int skips_if_set = (word & 0x200) != 0;
	return (word & 0x100) && has_skipped == skips_if_set ? 0xff : 0;
}

static void follow_stack_pointer(uint16_t word, uint16_t next)
{
	int is_sts = (word & 0xfe0f) == 0x9200, is_call = (word & 0xfe0e) == 0x940e || (word & 0xf000) == 0xd000 || (word & 0xffef) == 0x9509;
	if (writes_sph(word) || (is_sts && next == SPH))
		is_half_written = 1;
	else if ((word & 0xfe0f) == 0xbe0d || (is_sts && next == SPL) || (word & 0xfc0f) == 0x900f || is_call || (word & 0xffef) == 0x9508)
		is_half_written = 0;
}

/* Notes a word that was never executed, while there is room below the stack; one in each EVERY choices, and the last one. */
static void note_fresh(uint32_t word, uint32_t end, char *last, size_t size)
{
	static unsigned least, next;
	if (!least)
		least = device.last;
	if (!is_half_written && stack_pointer() < least)
		least = stack_pointer();
	unsigned room = least - FREE_BYTES;
	if (!was_executed[word] && !was_executed[word + 1] && !is_half_written && room >= device.first && room < least && word + 2 < end) {
		snprintf(last, size, "fresh %u %X %X %08X", made, word, room, state_digest(room));
		if (made >= next && made) {
			puts(last);
			next = made + every;
			last[0] = 0;
		}
	}
	was_executed[word] = 1;
}

/* One instruction; why the run ends there, or nothing. */
static const char *step(uint32_t end, char *last, size_t size)
{
	uint32_t at = avr->pc >> 1;
	uint16_t word = word_at(avr, at), next = word_at(avr, at + 1);
	uint32_t address = address_of(avr, word, next);
	const char *why = obstacle(word, address);
	if (why)
		return why;
	note_fresh(at, end, last, size);
	if ((word & 0xfe0c) == 0x940c || (word & 0xfc0f) == 0x9000)
		was_executed[at + 1] = 1;
	struct trace trace = {at, address == NO_ADDRESS ? 0xffff : address, stack_pointer()};
	avr_flashaddr_t after = execute_one(avr);
	if (avr->state == cpu_Crashed || avr->state == cpu_Done)
		return "a crash";
	uint8_t byte = input_of(word, address, after >> 1 != at + 1);
	avr_cycle_timer_process(avr);
	avr->pc = after;
	if (after >> 1 >= device.words)
		return "the end of flash";
	follow_stack_pointer(word, next);
	choose(GO, byte, byte, trace);
	return 0;
}

/* Raises an enabled vector, or gives the receiver a byte, now and then. */
static void stimulate(avr_irq_t *receiver)
{
	if (chance() % ONE_VECTOR_IN == 0 && avr->interrupts.vector_count) {
		avr_int_vector_t *raised = avr->interrupts.vector[chance() % avr->interrupts.vector_count];
		unsigned vector = raised->vector + 1;
		if (raised->vector && vector < MOST_VECTORS && avr_regbit_get(avr, raised->enable) && !raised->pending &&
		    enables[vector].address == raised->enable.reg && enables[vector].mask == (unsigned)(raised->enable.mask << raised->enable.bit))
			avr_raise_interrupt(avr, raised);
	}
	if (receiver && chance() % ONE_BYTE_IN == 0)
		avr_raise_irq(receiver, RECEIVED[chance() % (sizeof RECEIVED - 1)]);
}

/* Lets libsimavr enter an interrupt, and notes which. */
static void enter(void)
{
	struct trace trace = {avr->pc >> 1, 0xffff, stack_pointer()};
	uint8_t before[MOST_VECTORS] = {0};
	for (unsigned vector = 2; vector <= device.vectors && vector < MOST_VECTORS; vector++)
		before[vector] = avr->data[enables[vector].address] & enables[vector].mask;
	avr_service_interrupts(avr);
	if (stack_pointer() == trace.stack && avr->pc >> 1 == trace.word)
		return;
	unsigned vector = avr->pc / (2 * device.words_of_vector) + 1;
	int has_cleared = vector < MOST_VECTORS && before[vector] && !(avr->data[enables[vector].address] & enables[vector].mask);
	is_half_written = 0;
	taken++;
	if (vector < MOST_VECTORS)
		entries[vector]++;
	choose(TAKE, vector, has_cleared, trace);
}

static void write_schedule(const char *path)
{
	char name[4096];
	FILE *file = fopen(path, "w");
	fprintf(file, "schedule 1\nfill 00\n");
	for (uint32_t at = 0, end; at < made; at = end) {
		struct choice choice = choices[at];
		end = at + 1;
		while (choice.kind == GO && end < made && !memcmp(choices + end, &choice, sizeof choice))
			end++;
		if (choice.kind == GO)
			fprintf(file, "go %u %02X %02X\n", end - at, choice.one, choice.other);
		else
			fprintf(file, "take %d %d\n", choice.one, choice.other);
	}
	fprintf(file, "end\n");
	fclose(file);
	snprintf(name, sizeof name, "%s.trace", path);
	file = fopen(name, "wb");
	fwrite(traces, sizeof *traces, made, file);
	fclose(file);
}

static avr_irq_t *receiver_of(void)
{
	avr_irq_t *receiver = avr_io_getirq(avr, AVR_IOCTL_UART_GETIRQ('0'), UART_IRQ_INPUT);
	uint32_t flags = 0;
	if (receiver) {
		avr_ioctl(avr, AVR_IOCTL_UART_GET_FLAGS('0'), &flags);
		flags &= ~(AVR_UART_FLAG_STDIO | AVR_UART_FLAG_POLL_SLEEP);
		avr_ioctl(avr, AVR_IOCTL_UART_SET_FLAGS('0'), &flags);
	}
	return receiver;
}

static void reset(void)
{
	memset(avr->data + device.first, 0, device.last + 1 - device.first);
	memset(avr->data, 0, 32);
	avr->data[SPL] = device.last;
	if (device.has_sph)
		avr->data[SPH] = device.last >> 8;
	avr->pc = 0;
}

static void do_not_sleep(avr_t *asleep, avr_cycle_count_t cycles) { (void)asleep, (void)cycles; }

int main(int argc, char **argv)
{
	if (argc != 8)
		return 2;
	read_device(argv[1]);
	avr = machine_of(argv[2], argv[3]);
	avr->sleep = do_not_sleep;
	avr->frequency = 16000000;
	uint32_t most = strtoul(argv[4], 0, 10), end = device.words, asleep = 0;
	random_state = strtoul(argv[5], 0, 10) * 7919 + 1;
	every = strtoul(argv[6], 0, 10);
	choices = calloc(most + 2, sizeof *choices);
	traces = calloc(most + 2, sizeof *traces);
	while (end && word_at(avr, end - 1) == 0xffff)
		end--;
	reset();
	avr_irq_t *receiver = receiver_of();
	char last[80] = "";
	const char *why = 0;
	while (made < most && !why) {
		if (avr->state == cpu_Running) {
			why = step(end, last, sizeof last);
			asleep = 0;
		} else if (avr->state == cpu_Sleeping && avr->sreg[S_I] && ++asleep <= LONGEST_SLEEP) {
			avr->cycle += SLICE;
			avr_cycle_timer_process(avr);
		} else
			why = "a sleep";
		if (why)
			break;
		stimulate(receiver);
		if (avr->interrupt_state && made < most)
			enter();
	}
	write_schedule(argv[7]);
	if (last[0])
		puts(last);
	int kinds = 0;
	for (int vector = 0; vector < MOST_VECTORS; vector++)
		kinds += entries[vector] > 0;
	printf("at %u depth %d\nend %s interrupts %u vectors %d\n", made, deepest, why ? why : "as asked", taken, kinds);
	return 0;
}
