/* Multiplies two matrices on two cores and writes the sum of the product's elements. */

#define SIZE 8
#define CORES 2

/* A matrix whose rows are cache lines of 32 bytes, so that no line has rows of two cores. */
struct matrix {
    unsigned element[SIZE][SIZE];
} __attribute__((aligned(32)));

static struct matrix left, right, product;

/* How many times a core has waited for the other one: a line for each core. */
static struct {
    unsigned times;
} __attribute__((aligned(32))) arrived[CORES];

/* The environment: the call's number is in a7, its argument in a0. */
static void call(unsigned number, unsigned argument)
{
    register unsigned a0 __asm__("a0") = argument;
    register unsigned a7 __asm__("a7") = number;
    __asm__ volatile("ecall" : : "r"(a0), "r"(a7) : "memory");
}

static void write_byte(char byte)
{
    call(1, (unsigned char)byte);
}

static void write_number(unsigned number)
{
    static const unsigned powers[] = {100000, 10000, 1000, 100, 10, 1};
    char begun = 0;
    for (unsigned place = 0; place < 6; place++) {
        char digit = '0';
        while (number >= powers[place]) {
            number -= powers[place];
            digit += 1;
        }
        begun |= digit > '0' || place == 5;
        if (begun)
            write_byte(digit);
    }
}

/* Writes what this core has written back to the memory and forgets what it has read: nothing else makes one core see the other. */
static void fence(void)
{
    __asm__ volatile("fence" : : : "memory");
}

/* Goes on when both cores are here, each with what the other wrote before. */
static void wait_for_both(unsigned core)
{
    unsigned times = arrived[core].times + 1;
    arrived[core].times = times;
    do
        fence();
    while (arrived[1 - core].times < times);
}

/* A product: RV32I has no instruction for it. */
static unsigned multiply(unsigned one, unsigned other)
{
    unsigned result = 0;
    while (other > 0) {
        if (other & 1)
            result += one;
        one <<= 1;
        other >>= 1;
    }
    return result;
}

static void fill_row(unsigned row)
{
    for (unsigned column = 0; column < SIZE; column++) {
        left.element[row][column] = (row + column) & 7;
        right.element[row][column] = (row ^ column) & 7;
    }
}

static void multiply_row(unsigned row)
{
    for (unsigned column = 0; column < SIZE; column++) {
        unsigned sum = 0;
        for (unsigned at = 0; at < SIZE; at++)
            sum += multiply(left.element[row][at], right.element[at][column]);
        product.element[row][column] = sum;
    }
}

static unsigned sum_of_product(void)
{
    unsigned sum = 0;
    for (unsigned row = 0; row < SIZE; row++)
        for (unsigned column = 0; column < SIZE; column++)
            sum += product.element[row][column];
    return sum;
}

/* Each core has every second row; the first one, of number 0, writes the sum when both are ready. */
int main(unsigned core)
{
    for (unsigned row = core; row < SIZE; row += CORES)
        fill_row(row);
    wait_for_both(core);
    for (unsigned row = core; row < SIZE; row += CORES)
        multiply_row(row);
    wait_for_both(core);
    if (core == 0) {
        for (const char *at = "sum: "; *at; at++)
            write_byte(*at);
        write_number(sum_of_product());
        write_byte('\n');
    }
    return 0;
}

/* The first instruction. The core's number is the word at 0x20000; each core has 1024 bytes of stack. */
__attribute__((naked, section(".text.start"))) void _start(void)
{
    __asm__ volatile("lui a0, 0x20\n\t"
                     "lw a0, 0(a0)\n\t"
                     "lui sp, %hi(stack_top)\n\t"
                     "addi sp, sp, %lo(stack_top)\n\t"
                     "slli t0, a0, 10\n\t"
                     "sub sp, sp, t0\n\t"
                     "call main\n\t"
                     "li a7, 93\n\t"
                     "ecall");
}
