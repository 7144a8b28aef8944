/* Runs a firmware that tests itself under libsimavr.
 *
 * usage: self_test DEVICE IMAGE PASS END MOST find WORD,NEXT ..   prints the digest, r5 to r2, at each WORD, and goes on at NEXT
 *        self_test DEVICE IMAGE PASS END MOST                     runs up to a word from PASS to END
 *        self_test DEVICE IMAGE PASS END MOST fault MASK VALUE ONCE KIND ARGUMENT BITS
 *
 * A run prints `steps S depth D at W` and how often each first word was executed, or `steps S spent` after MOST steps or where libsimavr
 * gives up. With a fault it is the run of another machine: after an instruction whose first word has VALUE in the bits MASK, BITS are
 * changed in what KIND and ARGUMENT name; with an ONCE that is not 0 only at its execution of that number. Words are hexadecimal. */
#include "simulator.h"

enum { MOST_WORDS = 0x10000 };
static unsigned long long executed[MOST_WORDS];

struct fault {
	unsigned mask, value, argument, bits;
	unsigned long long once, met;
	const char *kind;
};

/* Changes bits of what the instruction gave; `memory` is the address that it used, `next` the program counter after it. */
static avr_flashaddr_t spoil(avr_t *avr, struct fault *fault, uint16_t word, uint32_t memory, avr_flashaddr_t next)
{
	uint32_t distance = (next >> 1) - (avr->pc >> 1);
	int has_no_effect = (!strcmp(fault->kind, "skip") && distance != 3) || (!strcmp(fault->kind, "taken") && distance == 1);
	if ((word & fault->mask) != fault->value || has_no_effect || (++fault->met != fault->once && fault->once))
		return next;
	int lowest = pair_at(avr, SPL) + 1;
	if (!strcmp(fault->kind, "register"))
		avr->data[word >> 4 & 31] ^= fault->bits;
	else if (!strcmp(fault->kind, "upper"))
		avr->data[16 + (word >> 4 & 15)] ^= fault->bits;
	else if (!strcmp(fault->kind, "moved"))
		avr->data[2 * (word >> 4 & 15)] ^= fault->bits;
	else if (!strcmp(fault->kind, "pair"))
		avr->data[25 + 2 * (word >> 4 & 3)] ^= fault->bits;
	else if (!strcmp(fault->kind, "byte"))
		avr->data[fault->argument] ^= fault->bits;
	else if (!strcmp(fault->kind, "memory") && memory <= avr->ramend)
		avr->data[memory] ^= fault->bits;
	else if (!strcmp(fault->kind, "pushed"))
		avr->data[lowest] ^= fault->bits;
	else if (!strcmp(fault->kind, "order")) {
		uint8_t byte = avr->data[lowest];
		avr->data[lowest] = avr->data[lowest + 1];
		avr->data[lowest + 1] = byte;
	} else if (!strcmp(fault->kind, "flag"))
		avr->sreg[fault->argument] ^= 1;
	else if (!strcmp(fault->kind, "skip"))
		next -= 2;
	else if (!strcmp(fault->kind, "taken"))
		next = avr->pc + 2;
	else if (!strcmp(fault->kind, "counter"))
		next += 2 * fault->argument;
	return next;
}

int main(int argc, char **argv)
{
	if (argc < 6)
		return 2;
	avr_t *avr = machine_of(argv[1], argv[2]);
	uint32_t pass = strtoul(argv[3], 0, 16), end = strtoul(argv[4], 0, 16), check = 0, next = 0;
	unsigned long long most = strtoull(argv[5], 0, 10), steps = 0;
	int is_search = argc > 6 && !strcmp(argv[6], "find"), given = 7;
	struct fault fault = {0, 1, 0, 0, 0, 0, ""};
	if (argc == 13 && !strcmp(argv[6], "fault"))
		fault = (struct fault){strtoul(argv[7], 0, 16), strtoul(argv[8], 0, 16), strtoul(argv[11], 0, 16), strtoul(argv[12], 0, 16),
				       strtoull(argv[9], 0, 10), 0, argv[10]};
	uint16_t first = avr->ramend, least = first;
	avr->data[SPL] = first;
	avr->data[SPH] = first >> 8;
	avr->pc = 0;
	if (is_search && given < argc)
		sscanf(argv[given++], "%x,%x", &check, &next);
	while (steps < most) {
		uint32_t at = avr->pc >> 1;
		if (at >= pass && at < end) {
			if (is_search)
				return 0;
			printf("steps %llu depth %d at %04X\n", steps, first - least, at);
			for (int word = 0; word < MOST_WORDS; word++)
				if (executed[word])
					printf("%04X %llu\n", word, executed[word]);
			return 0;
		}
		if (is_search && at == check && check) {
			printf("%02X%02X%02X%02X\n", avr->data[5], avr->data[4], avr->data[3], avr->data[2]);
			avr->pc = next << 1;
			check = 0;
			if (given < argc)
				sscanf(argv[given++], "%x,%x", &check, &next);
			continue;
		}
		uint16_t word = word_at(avr, at);
		uint32_t memory = address_of(avr, word, word_at(avr, at + 1));
		executed[word]++;
		avr->interrupt_state = 0;
		avr->state = cpu_Running;
		avr_flashaddr_t after = execute_one(avr);
		steps++;
		if (avr->state == cpu_Crashed || avr->state == cpu_Done)
			break;
		avr->pc = fault.mask ? spoil(avr, &fault, word, memory, after) : after;
		if (!writes_sph(word) && pair_at(avr, SPL) < least)
			least = pair_at(avr, SPL);
	}
	printf("steps %llu spent\n", steps);
	return 1;
}
