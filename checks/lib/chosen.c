// Which wrong body is chosen, and which request for memory is refused, where 0 is none. A program that
// chooses no body has both from its standard input, as two numbers with a sign between them.
static volatile unsigned long numbers[2];
static volatile int is_read;

// One byte of the standard input. It is a call of the system, since who asks for memory may come before
// the sanitizer's runtime, which stands before the C library's.
static int next(char *byte) {
    long got;
    __asm__ volatile("syscall" : "=a"(got) : "a"(0), "D"(0), "S"(byte), "d"(1) : "rcx", "r11", "memory");
    return got == 1;
}

static unsigned long number(int place) {
    char byte;
    if (is_read) return numbers[place];
    is_read = 1;
    for (int at = 0; at < 2 && next(&byte);)
        if (byte >= '0' && byte <= '9') numbers[at] = 10 * numbers[at] + (byte - '0');
        else at++;
    return numbers[place];
}

void choose(unsigned it) {
    number(0);
    numbers[0] = it;
}

unsigned chosen(void) { return number(0); }

unsigned long refused_request(void) { return number(1); }
