/* What the program needs of Windows for x86-64: files in binary mode, arguments and paths in UTF-8, the error number, memory.
   tools/ports renames the program's `main`, `open`, `read`, `write` and `close` to `program_..`. */
#include <errno.h>
#include <fcntl.h>
#include <io.h>
#include <stdint.h>
#include <stdlib.h>
#include <string.h>
#include <windows.h>

extern int program_main(void);
static int argument_count;
static char **arguments;

/* Copies an argument without its end; returns its length, -1 if there is none, -2 if it is longer than `room`. */
int64_t rattle_arg(uint64_t number, char *to, uint64_t room) {
    if (number >= (uint64_t)argument_count) return -1;
    size_t length = strlen(arguments[number]);
    if (length > room) return -2;
    memcpy(to, arguments[number], length);
    return (int64_t)length;
}

int rattle_errno(void) { return errno; }
void rattle_set_errno(int number) { errno = number; }

/* The program opens files to read alone, whatever flags it gives. */
int program_open(const char *path, int flags, int mode) {
    wchar_t wide[32768]; /* no path of Windows is longer */
    (void)flags, (void)mode;
    if (MultiByteToWideChar(CP_UTF8, MB_ERR_INVALID_CHARS, path, -1, wide, 32768)) return _wopen(wide, O_RDONLY | O_BINARY | O_NOINHERIT);
    errno = ENOENT;
    return -1;
}

static unsigned at_most(uint64_t count) { return count > 1 << 30 ? 1 << 30 : (unsigned)count; }
int64_t program_read(int file, void *to, uint64_t count) { return _read(file, to, at_most(count)); }
int64_t program_write(int file, const void *from, uint64_t count) { return _write(file, from, at_most(count)); }
int program_close(int file) { return _close(file); }

/* The program asks that a write into a closed pipe fails; on Windows it always does. */
int64_t __sysv_signal(int number, int64_t handler) { return (void)number, handler; }

/* Memory is returned as a pair: rax, whether it was given, and rdx, where; some address that isn't null if it wasn't. C for Windows returns
   no pair in registers. An allocation of no bytes takes as many as its alignment, which is never above malloc's own. */
__attribute__((used)) static void *take(uint64_t size, uint64_t alignment) { return malloc(size ? size : alignment); }

__attribute__((used)) static void *take_again(void *at, uint64_t old_size, uint64_t size, uint64_t alignment) {
    return (void)old_size, realloc(at, size ? size : alignment);
}

#define RETURNS_PAIR(name, function) __asm__(".text\n.globl " name "\n" name ": subq $40, %rsp\ncall " function "\naddq $40, %rsp\n" \
    "leaq " name "(%rip), %rdx\ntestq %rax, %rax\ncmovneq %rax, %rdx\nsetne %al\nmovzbl %al, %eax\nret\n")
RETURNS_PAIR("rattle_alloc", "take");
RETURNS_PAIR("rattle_realloc", "take_again");

void rattle_dealloc(void *at) { free(at); }

/* Arguments in UTF-8. One without such a text, or with U+FFFD in place of it, becomes a byte that is in no text: the program refuses it. */
int wmain(int count, wchar_t **words) {
    arguments = calloc((size_t)count, sizeof *arguments);
    for (int at = 0; arguments && at < count; at++, argument_count++) {
        int size = wcschr(words[at], 0xfffd) ? 0 : WideCharToMultiByte(CP_UTF8, WC_ERR_INVALID_CHARS, words[at], -1, NULL, 0, NULL, NULL);
        char *text = malloc(size ? (size_t)size : 2);
        if (!text) return 12; /* the program's status if it is out of memory */
        strcpy(text, "\xff");
        if (size) WideCharToMultiByte(CP_UTF8, WC_ERR_INVALID_CHARS, words[at], -1, text, size, NULL, NULL);
        arguments[at] = text;
    }
    for (int file = 0; file < 3; file++) _setmode(file, O_BINARY);
    return arguments ? program_main() : 12;
}
