/* Where the bytes of a running firmware come from: of what addresses each byte of registers, inputs and outputs, and SRAM was made. */
#ifndef ORIGINS_H
#define ORIGINS_H

#include <simavr/sim_avr.h>

/* What a pair of bytes is as a pointer: made from numbers; from constants of the program in a few sums; read as one pair from memory,
 * which may have held it as a pointer; or made from the address of an object or a function. */
enum source { NUMBERS, CONSTANTS, KEPT, ADDRESS, SOURCES };

enum { FLASH = 0x1000000 }; /* is added to an address of flash */

/* Reads what the immediates of instructions and the bytes of flash are, which the file does not tell the machine: a line
 * `i WORD KIND SIGN` of the immediate at a word, `f ADDRESS KIND` of the byte of flash at an address, in hexadecimal digits. KIND is
 * `object` or `code`; SIGN is `-` if the immediate is the negative of the address. */
void read_marks(const char *path);

/* Begins a run: whether the stack pointer has a high half is told by where SRAM ends. */
void begin(avr_t *avr);

/* Follows the instruction at the program counter, before the machine executes it. */
void follow(avr_t *avr);

/* Notes that bytes of return addresses were pushed, down to the stack pointer, which was at `before`. */
void follow_return_address(avr_t *avr, uint16_t before);

/* What the pair at two neighbouring registers is, as the pointer of a store; and of a call or a jump. */
enum source source_of_store(avr_t *avr, int low);
enum source source_of_transfer(int low);

/* Of a pair that was kept: where its lower half was loaded from, FLASH more if from flash. */
uint32_t home_of(int low);

/* Notes that an address was written to memory through a pointer that was kept, so that the byte may be an address. */
void note_blind_store(uint16_t address);

/* Whether a half of an address ever stood at an address of data. */
int stood_at(uint16_t address);

uint16_t stack_pointer(avr_t *avr);
uint16_t pair_at(avr_t *avr, int low);
uint16_t word_at(avr_t *avr, uint32_t word);

/* Whether an opcode is a load or a store through a pointer, or by `lds` or `sts`; then the low register of the pointer (-1 of `lds` and
 * `sts`) and the address. */
int is_access(avr_t *avr, int *pointer, uint16_t *address, int *is_store);

#endif
