/* Runs a firmware under libsimavr with random inputs and interrupts, and prints which pointers its stores, calls and jumps went through.
 *
 * usage: machine DEVICE IMAGE MARKS SEED STEPS CORE HELD BYTES PHRASES
 *
 * IMAGE is what flash holds. MARKS: see origins.h. CORE has the registers of the core and HELD those that enable interrupts or move
 * the vectors, as `ADDRESS.MASK,..`. A read of an input gives any byte, but for what HELD masks; more often one of BYTES, which the
 * firmware may wait for; and now and then the bytes of a line of the file PHRASES (`-` for none), in hexadecimal digits, one after the
 * other from one input. Before an instruction any interrupt may come that is enabled.
 *
 * It prints lines
 *   run depth N steps N stop WHY          the deepest stack, and why the run ended
 *   store WORD SOURCE COUNT LEAST MOST    stores through a pointer at a word: from where the pointer was, how many, to which addresses
 *   core WORD SOURCE ADDRESS              one of them that wrote a bit of CORE
 *   call WORD SOURCE TARGET COUNT         calls and jumps through a pointer
 *   home WORD ADDRESS                     where a kept pointer was loaded from, FLASH more if from flash
 *   stood ADDRESS                         a half of an address stood here once
 */
#include "origins.h"

#include <simavr/sim_core.h>
#include <simavr/sim_interrupts.h>
#include <simavr/sim_io.h>
#include <stdio.h>
#include <stdlib.h>
#include <string.h>

enum { WORDS = 0x20000, RARE = 61, NESTED = 4, FIRST_INPUT = 0x20, MOST_HITS = 4096, BEGINS = 8 };

static const char *const SOURCE_NAMES[SOURCES] = { "numbers", "constants", "kept", "address" };

struct stores { uint64_t count; uint16_t least, most; };
struct target { uint32_t word; uint64_t count; struct target *next; };
struct hit { uint32_t word, address; enum source source; };

static struct stores stores[WORDS][SOURCES];
static struct target *targets[WORDS][SOURCES];
static uint8_t core[0x10000], held[0x10000], wanted_bytes[256];
static struct hit hits[MOST_HITS], homes[MOST_HITS];
static int hit_count, home_count, wanted_count;
static uint64_t random_state;

static uint32_t random_number(void) {
	random_state ^= random_state << 13;
	random_state ^= random_state >> 7;
	random_state ^= random_state << 17;
	return random_state >> 16;
}

static uint8_t random_byte(void) {
	uint32_t number = random_number();
	return number % 4 && wanted_count ? wanted_bytes[number / 4 % wanted_count] : number / 4;
}

/* The phrases, and the one that an input gives now. */
static struct { uint8_t bytes[32]; int count; } phrases[256];
static int phrase_count;
static struct { avr_io_addr_t address; int number, at; } said = { .number = -1 };

static void read_phrases(const char *path) {
	char line[256];
	FILE *file = fopen(path, "r");
	while (file && phrase_count < 256 && fgets(line, sizeof line, file)) {
		for (char *byte = strtok(line, " \n"); byte && phrases[phrase_count].count < 32; byte = strtok(0, " \n"))
			phrases[phrase_count].bytes[phrases[phrase_count].count++] = strtoul(byte, 0, 16);
		phrase_count += phrases[phrase_count].count > 0;
	}
	if (file)
		fclose(file);
}

/* The next byte of an input: of the phrase that it gives, or any. */
static uint8_t next_byte(avr_io_addr_t address) {
	if (said.number < 0 && phrase_count && random_number() % BEGINS == 0) {
		said.number = random_number() % phrase_count;
		said.address = address;
		said.at = 0;
	}
	if (said.number < 0 || said.address != address)
		return random_byte();
	uint8_t byte = phrases[said.number].bytes[said.at++];
	if (said.at == phrases[said.number].count)
		said.number = -1;
	return byte;
}

static uint8_t read_input(avr_t *avr, avr_io_addr_t address, void *unused) {
	(void)unused;
	return (avr->data[address] & held[address]) | (next_byte(address) & ~held[address]);
}

static void quiet(avr_t *avr, const int level, const char *format, va_list words) { (void)avr; (void)level; (void)format; (void)words; }
static void no_sleep(avr_t *avr, avr_cycle_count_t length) { (void)avr; (void)length; }

static void read_masks(char *text, uint8_t *into) {
	for (char *word = strtok(text, ","); word; word = strtok(0, ",")) {
		char *mask = strchr(word, '.');
		into[strtoul(word, 0, 16) & 0xFFFF] |= mask ? strtoul(mask + 1, 0, 16) : 0xFF;
	}
}

/* Adds an entry to a list, if it isn't there yet. */
static void add(struct hit *list, int *count, struct hit it) {
	for (int n = 0; n < *count; n++)
		if (list[n].word == it.word && list[n].source == it.source && list[n].address == it.address)
			return;
	if (*count < MOST_HITS)
		list[(*count)++] = it;
}

static void note_store(avr_t *avr, uint32_t word) {
	int pointer, is_store;
	uint16_t address;
	if (!is_access(avr, &pointer, &address, &is_store) || !is_store || pointer < 0)
		return;
	enum source source = source_of_store(avr, pointer);
	struct stores *found = &stores[word][source];
	if (!found->count++)
		found->least = found->most = address;
	if (address < found->least)
		found->least = address;
	if (address > found->most)
		found->most = address;
	uint8_t byte = avr->data[word_at(avr, word) >> 4 & 31];
	if (core[address] == 0xFF || core[address] & byte)
		add(hits, &hit_count, (struct hit){ word, address, source });
	if (source == KEPT) {
		add(homes, &home_count, (struct hit){ word, home_of(pointer), source });
		note_blind_store(address);
	}
}

static void note_transfer(avr_t *avr, uint32_t word) {
	uint16_t opcode = word_at(avr, word);
	if ((opcode & 0xFEEF) != 0x9409)
		return;
	uint32_t to = pair_at(avr, 30) | (opcode & 0x10 && avr->eind ? avr->data[avr->eind] << 16 : 0);
	enum source source = source_of_transfer(30);
	struct target **at = &targets[word][source];
	while (*at && (*at)->word != to)
		at = &(*at)->next;
	if (!*at) {
		*at = calloc(1, sizeof **at);
		(*at)->word = to;
	}
	(*at)->count++;
	if (source == KEPT)
		add(homes, &home_count, (struct hit){ word, home_of(30), source });
}

/* Whether an opcode is a call, so that what it pushes is a return address. */
static int is_call(uint16_t opcode) {
	return (opcode & 0xF000) == 0xD000 || (opcode & 0xFE0E) == 0x940E || (opcode & 0xFFEF) == 0x9509;
}

/* Whether both halves of the stack pointer are of one number after an instruction: after a write of SPH only when SPL changes too. */
static int is_whole(avr_t *avr, uint16_t opcode, uint16_t before, int was_whole) {
	if ((opcode & 0xFE0F) == 0xBE0E)
		return 0;
	return was_whole || (opcode & 0xFE0F) == 0xBE0D || avr->data[R_SPL] != (before & 0xFF);
}

/* Lets one enabled interrupt come now, if one is enabled. */
static void interrupt(avr_t *avr) {
	avr_int_table_t *table = &avr->interrupts;
	int first = table->vector_count ? random_number() % table->vector_count : 0;
	for (int n = 0; n < table->vector_count; n++) {
		avr_int_vector_t *vector = table->vector[(first + n) % table->vector_count];
		if (vector->vector && avr_regbit_get(avr, vector->enable) && !vector->pending) {
			avr_raise_interrupt(avr, vector);
			avr_service_interrupts(avr);
			return;
		}
	}
}

struct run { int top, deepest, is_whole; uint64_t steps; const char *stop; };

static void measure(avr_t *avr, struct run *run) {
	int depth = run->top - stack_pointer(avr);
	if (run->is_whole && depth > run->deepest)
		run->deepest = depth;
}

/* One instruction with the shadow, and the interrupt that may come after it; 0 at the end of the run. */
static int step(avr_t *avr, struct run *run) {
	uint32_t word = avr->pc >> 1;
	if (word >= WORDS || avr->pc >= avr->codeend) {
		run->stop = "outside";
		return 0;
	}
	uint16_t opcode = word_at(avr, word), before = stack_pointer(avr);
	int is_running = avr->state == cpu_Running, nested = avr->interrupts.running_ptr;
	if (is_running) {
		note_store(avr, word);
		note_transfer(avr, word);
		follow(avr);
	}
	int state = avr_run(avr);
	run->steps++;
	int is_entered = avr->interrupts.running_ptr > nested;
	if (is_running && is_call(opcode))
		follow_return_address(avr, before);
	else if (is_entered)
		follow_return_address(avr, stack_pointer(avr) + avr->address_size);
	run->is_whole = is_whole(avr, opcode, before, run->is_whole) || is_entered;
	measure(avr, run);
	if (avr->sreg[S_I] && avr->interrupt_state >= 0 && run->is_whole && avr->interrupts.running_ptr < NESTED && random_number() % RARE == 0) {
		before = stack_pointer(avr);
		interrupt(avr);
		follow_return_address(avr, before);
		measure(avr, run);
	}
	run->stop = state == cpu_Done ? "sleeps for ever" : state == cpu_Crashed ? "crashed" : avr->pc == 0 ? "reset" : run->stop;
	if (avr->pc == 2 * word && opcode == 0xCFFF && !avr->sreg[S_I])
		run->stop = "loops for ever";
	return !run->stop;
}

static void print(struct run *run) {
	printf("run depth %d steps %llu stop %s\n", run->deepest, (unsigned long long)run->steps, run->stop ? run->stop : "time");
	for (uint32_t word = 0; word < WORDS; word++)
		for (int source = 0; source < SOURCES; source++) {
			struct stores *it = &stores[word][source];
			if (it->count)
				printf("store %05X %s %llu %04X %04X\n", word, SOURCE_NAMES[source], (unsigned long long)it->count, it->least, it->most);
			for (struct target *to = targets[word][source]; to; to = to->next)
				printf("call %05X %s %05X %llu\n", word, SOURCE_NAMES[source], to->word, (unsigned long long)to->count);
		}
	for (int n = 0; n < hit_count; n++)
		printf("core %05X %s %04X\n", hits[n].word, SOURCE_NAMES[hits[n].source], hits[n].address);
	for (int n = 0; n < home_count; n++)
		printf("home %05X %X\n", homes[n].word, homes[n].address);
	for (uint32_t address = 0; address < 0x10000; address++)
		if (stood_at(address))
			printf("stood %04X\n", address);
}

/* Lets a store behind SRAM change nothing, as on a chip, where simavr would end the run. */
static void widen(avr_t *avr) {
	uint8_t *data = calloc(0x10000, 1);
	memcpy(data, avr->data, avr->ramend + 1);
	avr->data = data;
	avr->ramend = 0xFFFF;
}

static int load(avr_t *avr, const char *path) {
	FILE *file = fopen(path, "rb");
	if (!file)
		return 0;
	memset(avr->flash, 0xFF, avr->flashend + 1);
	size_t size = fread(avr->flash, 1, avr->flashend + 1, file);
	fclose(file);
	avr->codeend = avr->flashend;
	return size > 0;
}

int main(int count, char **words) {
	if (count != 10) {
		fputs("usage: machine DEVICE IMAGE MARKS SEED STEPS CORE HELD BYTES PHRASES\n", stderr);
		return 3;
	}
	avr_global_logger_set(quiet);
	avr_t *avr = avr_make_mcu_by_name(words[1]);
	if (!avr)
		return 2;
	avr_init(avr);
	avr->frequency = 16000000;
	avr->sleep = no_sleep;
	avr->run_cycle_limit = 1;
	if (!load(avr, words[2]))
		return 3;
	read_marks(words[3]);
	random_state = (strtoull(words[4], 0, 10) + 1) * 0x9E3779B97F4A7C15;
	read_masks(words[6], core);
	read_masks(words[7], held);
	for (char *byte = strtok(words[8], ","); byte && wanted_count < 256; byte = strtok(0, ","))
		wanted_bytes[wanted_count++] = strtoul(byte, 0, 16);
	read_phrases(words[9]);
	for (int at = FIRST_INPUT; AVR_DATA_TO_IO(at) < MAX_IOs && at <= avr->ioend; at++)
		if (held[at] != 0xFF)
			avr->io[AVR_DATA_TO_IO(at)].r.c = read_input;
	struct run run = { .top = avr->ramend, .is_whole = 1 };
	begin(avr);
	widen(avr);
	uint64_t most = strtoull(words[5], 0, 10);
	while (run.steps < most && step(avr, &run))
		;
	print(&run);
	return 0;
}
