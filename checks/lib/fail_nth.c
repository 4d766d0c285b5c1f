// Lets requests for memory of a program fail. LD_PRELOAD loads it before the C library; compiled with
// SANITIZED it is a part of the program, before the sanitizer's runtime.
//
// The Nth request fails, where N is FAIL_ALLOC in the environment, and a line on descriptor 3 says so. In
// a sanitized program N is what chosen.c says, the line goes to standard output, and the program's own
// requests are counted, from one for ORDER bytes on: the sanitizer's runtime has to get what it asks for.
// There halt_nth.c has a request halt, too, and be refused then.
// Where N is 0, or not there, the program orders what fails: a request for ORDER bytes and 16 N more has the
// Nth request after it fail, and none where N is 0.
// A sanitized program may go on to another N itself, and ask whether its Nth request was made.
typedef unsigned long size;
extern void *dlsym(void *library, const char *name);
extern char *getenv(const char *name);
extern long atol(const char *text);
extern long write(int descriptor, const void *bytes, size count);

// refusals/src/rooms.rs has the same number, as that of the ids in a ring.
static const size ORDER = 1 << 20, MOST_ORDERED = 64;

static void *const NEXT_LIBRARY = (void *)-1L;
static long requests, refused = -1, ordered;

static int is_refused_by_order(size bytes) {
    size order = (bytes - ORDER) / 16;
    if (bytes < ORDER || order > MOST_ORDERED) return ordered > 0 && --ordered == 0;
    ordered = order;
    return 0;
}

#ifdef SANITIZED
extern unsigned long refused_request(void);
extern const char __executable_start[], etext[];
static const int TOLD = 1;
static int is_counted = 0;

static int is_own(const char *caller) { return __executable_start <= caller && caller < etext; }

// That of halt_nth.c.
extern int was_halted(void);

void refuse_request(unsigned long number) {
    refused = number;
    requests = ordered = is_counted = 0;
}

unsigned was_request_refused(void) { return refused > 0 && requests >= refused; }
#else
static const int TOLD = 3;
static int is_counted = 1;

static int is_own(const char *caller) { return caller != 0; }

static int was_halted(void) { return 0; }

static unsigned long refused_request(void) {
    const char *text = getenv("FAIL_ALLOC");
    return text ? atol(text) : 0;
}
#endif

static int is_refused(size bytes, const char *caller) {
    if (was_halted()) return 1;
    if (refused < 0) refused = refused_request();
    if (refused == 0) return is_refused_by_order(bytes);
    if (!is_counted) {
        is_counted = bytes == ORDER;
        return 0;
    }
    if (!is_own(caller) || ++requests != refused) return 0;
    write(TOLD, "request refused\n", 16);
    return 1;
}

#ifdef SANITIZED
extern void *___interceptor_malloc(size bytes);
extern void *___interceptor_realloc(void *old, size bytes);

static void *next_malloc(size bytes) { return ___interceptor_malloc(bytes); }
static void *next_realloc(void *old, size bytes) { return ___interceptor_realloc(old, bytes); }
#else
static void *next_malloc(size bytes) {
    static void *(*next)(size);
    if (!next) next = (void *(*)(size))dlsym(NEXT_LIBRARY, "malloc");
    return next(bytes);
}

static void *next_realloc(void *old, size bytes) {
    static void *(*next)(void *, size);
    if (!next) next = (void *(*)(void *, size))dlsym(NEXT_LIBRARY, "realloc");
    return next(old, bytes);
}
#endif

void *malloc(size bytes) {
    return is_refused(bytes, __builtin_return_address(0)) ? 0 : next_malloc(bytes);
}

void *realloc(void *old, size bytes) {
    return is_refused(bytes, __builtin_return_address(0)) ? 0 : next_realloc(old, bytes);
}
