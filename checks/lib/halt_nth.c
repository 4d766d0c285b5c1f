// Has a request for memory halt, which a thread may make while it holds a lock, and says whether another
// thread waits for a lock meanwhile. It is a part of each program that checks/lib/builds builds.
//
// A request halts by the order of its own thread, and is refused once it goes on. A thread waits from the
// call of the system on by which it sleeps until a lock is free: so neither is a matter of time.
typedef unsigned long size;
extern int sched_yield(void);
extern int *__errno_location(void);

static const long FUTEX = 202, WAIT = 0, WAIT_BITSET = 9, COMMAND = 127;

static _Thread_local unsigned requests_left;
static _Thread_local int is_watched;
static unsigned halts, released, waits;

static unsigned load(const unsigned *number) { return __atomic_load_n(number, __ATOMIC_SEQ_CST); }

// Has the request of this number halt, of those that this thread makes from now on.
void halt_request(unsigned number) { requests_left = number; }

// Whether a request halts.
unsigned is_request_halted(void) { return load(&halts) > load(&released); }

// Lets the request go on that halts.
void let_request_go_on(void) { __atomic_store_n(&released, load(&halts), __ATOMIC_SEQ_CST); }

// Watches this thread, or does so no longer.
void watch_thread(unsigned it) {
    is_watched = it != 0;
    __atomic_store_n(&waits, 0, __ATOMIC_SEQ_CST);
}

// Whether the thread that is watched waits, or did so.
unsigned is_thread_waiting(void) { return load(&waits) > 0; }

// Whether this request halted, and is to be refused. It is asked at each request.
int was_halted(void) {
    if (requests_left == 0 || --requests_left != 0) return 0;
    unsigned number = __atomic_add_fetch(&halts, 1, __ATOMIC_SEQ_CST);
    while (load(&released) < number) sched_yield();
    return 1;
}

// The C library's, which the program calls to sleep.
long syscall(long number, long a, long b, long c, long d, long e, long f) {
    long command = b & COMMAND;
    if (is_watched && number == FUTEX && (command == WAIT || command == WAIT_BITSET))
        __atomic_add_fetch(&waits, 1, __ATOMIC_SEQ_CST);
    register long fourth __asm__("r10") = d;
    register long fifth __asm__("r8") = e;
    register long sixth __asm__("r9") = f;
    long answer;
    __asm__ volatile("syscall"
                     : "=a"(answer)
                     : "a"(number), "D"(a), "S"(b), "d"(c), "r"(fourth), "r"(fifth), "r"(sixth)
                     : "rcx", "r11", "memory");
    if (answer >= 0 || answer < -4095) return answer;
    *__errno_location() = (int)-answer;
    return -1;
}
