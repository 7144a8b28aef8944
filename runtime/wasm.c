/* What the program needs of WebAssembly with 64-bit memory: files and arguments by functions of its host, memory, 128-bit arithmetic. */
typedef unsigned long u64;
typedef unsigned __int128 u128;
#define HOST(name) __attribute__((import_module("host"), import_name(#name))) host_##name

long HOST(argument)(u64 number, char *to, u64 room); /* its length, -1 if there is none, -2 if it is longer than `room` */
int HOST(open)(const char *path, u64 length); /* to read; this and the next three answer an error by its number, negated */
long HOST(read)(int file, void *to, u64 count);
long HOST(write)(int file, const void *from, u64 count);
int HOST(close)(int file);
int HOST(permits)(u64 size); /* whether memory may grow to so many bytes */
static int error;
static long answer(long found) { return found < 0 ? error = (int)-found, -1 : found; }

int rattle_errno(void) { return error; }
void rattle_set_errno(int number) { error = number; }
long rattle_arg(u64 number, char *to, u64 room) { return host_argument(number, to, room); }
long read(int file, void *to, u64 count) { return answer(host_read(file, to, count)); }
long write(int file, const void *from, u64 count) { return answer(host_write(file, from, count)); }
int close(int file) { return (int)answer(host_close(file)); }
long __sysv_signal(int number, long handler) { return (void)number, handler; } /* there are none */

int open(const char *path, int flags, ...) {
    u64 length = 0;
    while (path[length]) length++;
    return (void)flags, (int)answer(host_open(path, length));
}

/* Memory: sizes are rounded up to classes, four between two powers of two, each with a list of freed pieces. Before a piece are 16 bytes:
   the next freed piece of its class, and its class. */
typedef struct Piece { struct Piece *next; u64 class; } Piece;
typedef struct { u64 is_given; void *at; } Grant;
extern char __heap_base;
static Piece *freed[256];
static u64 unused = (u64)&__heap_base;

static u64 class_of(u64 size) {
    u64 last = size < 16 ? 15 : size - 1, log = 63 - (u64)__builtin_clzl(last);
    return log * 4 + (last >> (log - 2) & 3);
}
static u64 size_of(u64 class) { return (class % 4 + 5) << (class / 4 - 2); }

Grant rattle_alloc(u64 size, u64 alignment) {
    if (size > 1ul << 48) return (Grant){0, &freed};
    u64 class = class_of(size ? size : alignment);
    Piece *piece = freed[class];
    if (piece) { freed[class] = piece->next; return (Grant){1, piece + 1}; }
    u64 begin = (unused + 15) & -16ul, end = begin + sizeof(Piece) + size_of(class), held = __builtin_wasm_memory_size(0) << 16;
    if (end > held) {
        u64 wanted = end + (held >> 4) + (1 << 20); /* some more than is asked for, so that it grows seldom */
        if (!host_permits(wanted)) wanted = end;
        if (!host_permits(wanted) || __builtin_wasm_memory_grow(0, (wanted - held + 65535) >> 16) == -1ul) return (Grant){0, &freed};
    }
    unused = end;
    piece = (Piece *)begin;
    piece->class = class;
    return (Grant){1, piece + 1};
}

void rattle_dealloc(void *at) { Piece *piece = (Piece *)at - 1; piece->next = freed[piece->class]; freed[piece->class] = piece; }

Grant rattle_realloc(void *at, u64 old_size, u64 size, u64 alignment) {
    if (class_of(size ? size : alignment) == ((Piece *)at - 1)->class) return (Grant){1, at};
    Grant grant = rattle_alloc(size, alignment);
    if (grant.is_given) { __builtin_memcpy(grant.at, at, old_size < size ? old_size : size); rattle_dealloc(at); }
    return grant;
}

/* Arithmetic of 128 bits, which the compiler calls by these names; sums, comparisons, division and constant shifts are its own code. */
u128 __ashlti3(u128 value, int by) {
    u64 low = (u64)value, high = (u64)(value >> 64);
    if (by >= 64) return (u128)(low << (by - 64)) << 64;
    return by == 0 ? value : (u128)(high << by | low >> (64 - by)) << 64 | low << by;
}

u128 __lshrti3(u128 value, int by) {
    u64 low = (u64)value, high = (u64)(value >> 64);
    if (by >= 64) return high >> (by - 64);
    return by == 0 ? value : (u128)(high >> by) << 64 | (low >> by | high << (64 - by));
}

u128 __multi3(u128 one, u128 other) {
    u64 a = (u64)one, b = (u64)other, a0 = (unsigned)a, a1 = a >> 32, b0 = (unsigned)b, b1 = b >> 32;
    u64 inner = a1 * b0 + (a0 * b0 >> 32);
    __asm__("" : "+r"(inner)); /* else the compiler sees a product of 128 bits here, and calls this function */
    u64 outer = a0 * b1 + (unsigned)inner, carried = a1 * b1 + (inner >> 32) + (outer >> 32);
    return (u128)(carried + a * (u64)(other >> 64) + (u64)(one >> 64) * b) << 64 | a * b;
}
