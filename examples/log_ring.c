/* A ring of log lines, as small firmware keeps it in memory. `put_line` has a fault: where a line is long, it copies
   eight bytes at a time by hand, and the instructions use s2 without telling the compiler, which therefore saves s2
   nowhere. Who calls it and has something in s2 finds another word there, but only after a long line.

       clang --target=riscv64 -march=rv64imc -mabi=lp64 -O2 -ffreestanding -fno-jump-tables -nostdlib -static \
           -fuse-ld=lld -Wl,--nmagic,-Ttext=0x10000,--build-id=none log_ring.c -o log_ring.elf

   by clang and lld 14.0.6. Then `llvm-objcopy --strip-debug --remove-section=.comment` of it, which leaves its symbols. */

typedef unsigned long word;

#define LINES 4
#define LENGTH 32

struct line {
    word length;
    char text[LENGTH];
};

struct ring {
    word next;
    struct line lines[LINES];
};

static struct ring ring;

__attribute__((noinline)) word sum_of(const char *text, word length)
{
    word sum = 17;
    for (word i = 0; i < length; i++)
        sum = sum * 31 + (unsigned char)text[i];
    return sum;
}

__attribute__((noinline)) void put_line(struct line *line, const char *text, word length)
{
    if (length > LENGTH)
        length = LENGTH;
    line->length = length;
    if (length < 16) {
        for (word i = 0; i < length; i++)
            line->text[i] = text[i];
        return;
    }
    char *to = line->text;
    const char *from = text;
    const char *end = text + (length & ~7ul);
    __asm__ volatile(
        "1: ld s2, 0(%1)\n"
        "   sd s2, 0(%0)\n"
        "   addi %0, %0, 8\n"
        "   addi %1, %1, 8\n"
        "   bltu %1, %2, 1b\n"
        : "+r"(to), "+r"(from)
        : "r"(end)
        : "memory"); /* "s2" is missing here */
    while (from < text + length)
        *to++ = *from++;
}

__attribute__((noinline)) word log_text(const char *text, word length)
{
    struct line *line = &ring.lines[ring.next % LINES];
    word before = sum_of(text, length);
    put_line(line, text, length);
    word after = sum_of(line->text, line->length);
    ring.next++;
    return before == after;
}

__attribute__((noinline)) word log_all(const char *const *texts, const word *lengths, word count)
{
    word whole = 0;
    for (word i = 0; i < count; i++)
        whole += log_text(texts[i], lengths[i]);
    return whole;
}

int main(void)
{
    static const char *const texts[] = { "boot", "clock is set, and the watchdog runs" };
    static const word lengths[] = { 4, 35 };
    return (int)log_all(texts, lengths, 2);
}

__attribute__((naked, noreturn)) void _start(void)
{
    __asm__ volatile(
        "lui sp, 0x80\n"
        "call main\n"
        "ebreak\n");
}
