/* Counts the primes below 100 and writes how many there are. */

#define LIMIT 100

/* The environment: the call's number is in a7, its argument in a0. */
static void call(unsigned number, unsigned argument)
{
    register unsigned a0 __asm__("a0") = argument;
    register unsigned a7 __asm__("a7") = number;
    __asm__ volatile("ecall" : : "r"(a0), "r"(a7) : "memory");
}

static void write_byte(char byte)
{
    call(1, (unsigned char)byte);
}


/* Whether a number is known to be no prime. It has no bytes in the file: they start as zeros. */
static char crossed_out[LIMIT];

/* What stands before and behind the number. These bytes are the file's. */
static char before[] = "primes: ";

static void write_number(unsigned number)
{
    char digits[10];
    unsigned count = 0;
    do {
        unsigned tenth = 0;
        while (number >= 10) {
            number -= 10;
            tenth += 1;
        }
        digits[count++] = '0' + number;
        number = tenth;
    } while (number > 0);
    while (count > 0)
        write_byte(digits[--count]);
}

static unsigned count_primes(void)
{
    unsigned found = 0;
    for (unsigned number = 2; number < LIMIT; number++) {
        if (crossed_out[number])
            continue;
        found += 1;
        for (unsigned other = number + number; other < LIMIT; other += number)
            crossed_out[other] = 1;
    }
    return found;
}

int main(void)
{
    unsigned found = count_primes();
    for (char *at = before; *at; at++)
        write_byte(*at);
    write_number(found);
    write_byte('\n');
    return found;
}

/* The first instruction. The machine sets no register but the program counter, so the stack has to be made here. */
__attribute__((naked, section(".text.start"))) void _start(void)
{
    __asm__ volatile("lui sp, %hi(stack_top)\n\t"
                     "addi sp, sp, %lo(stack_top)\n\t"
                     "call main\n\t"
                     "li a7, 93\n\t"
                     "ecall");
}
