/* Compiled by clang with DWARF 5. */
volatile unsigned char *const port = (unsigned char *)0x25;
volatile unsigned char sum;
void __attribute__((noinline)) add(unsigned char n)
{
    sum += n;
    *port = sum;
}
int main(void)
{
    unsigned char n = 0;
    for (;;)
        add(n++);
}
