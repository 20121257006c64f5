/* Sorts 64 numbers on two cores and writes the least, the middle and the greatest of them. */

#define CORES 2
#define HALF 32
#define COUNT (CORES * HALF)

/* The numbers, and room to merge them into. Each core's half is whole cache lines of 32 bytes. */
static unsigned numbers[COUNT] __attribute__((aligned(32)));
static unsigned room[COUNT] __attribute__((aligned(32)));

/* How many times a core has waited for the other one: a line for each core. */
static struct {
    unsigned times;
} __attribute__((aligned(32))) arrived[CORES];

/* The environment: the call's number is in a7, its argument in a0. */
static void call(unsigned number, unsigned argument)
{
    register unsigned a0 __asm__("a0") = argument;
    register unsigned a7 __asm__("a7") = number;
    __asm__ volatile("ecall" : : "r"(a0), "r"(a7) : "memory");
}

static void write_byte(char byte)
{
    call(1, (unsigned char)byte);
}

static void write_number(unsigned number)
{
    static const unsigned powers[] = {100000, 10000, 1000, 100, 10, 1};
    char begun = 0;
    for (unsigned place = 0; place < 6; place++) {
        char digit = '0';
        while (number >= powers[place]) {
            number -= powers[place];
            digit += 1;
        }
        begun |= digit > '0' || place == 5;
        if (begun)
            write_byte(digit);
    }
}

/* Writes what this core has written back to the memory and forgets what it has read: nothing else makes one core see the other. */
static void fence(void)
{
    __asm__ volatile("fence" : : : "memory");
}

/* Goes on when both cores are here, each with what the other wrote before. */
static void wait_for_both(unsigned core)
{
    unsigned times = arrived[core].times + 1;
    arrived[core].times = times;
    do
        fence();
    while (arrived[1 - core].times < times);
}

/* Numbers of 12 bits, each from the one before by three shifts. */
static void fill(unsigned *to, unsigned draw)
{
    for (unsigned at = 0; at < HALF; at++) {
        draw ^= draw << 13;
        draw ^= draw >> 17;
        draw ^= draw << 5;
        to[at] = draw >> 20;
    }
}

/* Two sorted runs of the same length, which lie side by side, as one. */
static void merge(const unsigned *from, unsigned *to, unsigned length)
{
    const unsigned *first = from, *second = from + length;
    const unsigned *first_end = second, *second_end = second + length;
    while (first < first_end || second < second_end) {
        if (second == second_end || (first < first_end && *first <= *second))
            *to++ = *first++;
        else
            *to++ = *second++;
    }
}

/* Runs of 1, 2, 4 and so on are merged to and fro. HALF is 2 to the power of 5, so the sorted half is in `to` at the end. */
static void sort(unsigned *from, unsigned *to)
{
    for (unsigned length = 1; length < HALF; length += length) {
        for (unsigned at = 0; at < HALF; at += length + length)
            merge(from + at, to + at, length);
        unsigned *other = from;
        from = to;
        to = other;
    }
}

static char is_sorted(const unsigned *from)
{
    for (unsigned at = 1; at < COUNT; at++)
        if (from[at - 1] > from[at])
            return 0;
    return 1;
}

/* Each core sorts its half; the first one, of number 0, merges the halves. The exit code is 1 where that went wrong. */
int main(unsigned core)
{
    unsigned begin = core ? HALF : 0;
    fill(numbers + begin, core + 1);
    sort(numbers + begin, room + begin);
    wait_for_both(core);
    if (core != 0)
        return 0;
    merge(room, numbers, HALF);
    write_number(numbers[0]);
    write_byte(' ');
    write_number(numbers[HALF]);
    write_byte(' ');
    write_number(numbers[COUNT - 1]);
    write_byte('\n');
    return !is_sorted(numbers);
}

/* The first instruction. The core's number is the word at 0x20000; each core has 1024 bytes of stack. */
__attribute__((naked, section(".text.start"))) void _start(void)
{
    __asm__ volatile("lui a0, 0x20\n\t"
                     "lw a0, 0(a0)\n\t"
                     "lui sp, %hi(stack_top)\n\t"
                     "addi sp, sp, %lo(stack_top)\n\t"
                     "slli t0, a0, 10\n\t"
                     "sub sp, sp, t0\n\t"
                     "call main\n\t"
                     "li a7, 93\n\t"
                     "ecall");
}
