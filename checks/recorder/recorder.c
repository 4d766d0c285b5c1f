// Writes down what the threads of a recorded program do, and has one of them halt at a step.
//
// Each line takes the next place of one log, and so its place is its ticket: a step that is written down
// under a lock stands where that lock had its turn. There is no lock here, so threads meet at those of the
// executor as they do without a recorder. A thread writes its own lines alone, and the log is read once all
// have ended.
typedef unsigned long number;
extern int sched_yield(void);
extern long write(int, const void *, number);
extern unsigned chosen(void);

enum { MOST = 1 << 21, ROOM = 1 << 16, LOG = 9 };

struct line {
    unsigned thread, word, answer;
    number of, with, value;
};

static struct line lines[MOST];
static number count, made;
static number refused_each, asked, room, plays;
static unsigned threads, halts, released;
static _Thread_local unsigned thread, halting_word;
static _Thread_local number ticker;

static unsigned load(const unsigned *it) { return __atomic_load_n(it, __ATOMIC_SEQ_CST); }

// Writes a line down: a word and the numbers that it is said of, the answer, and its number. The thread
// halts behind it if it was ordered to.
void write_down(unsigned word, number of, number with, unsigned answer, number value) {
    if (thread == 0) thread = __atomic_add_fetch(&threads, 1, __ATOMIC_SEQ_CST);
    number ticket = __atomic_fetch_add(&count, 1, __ATOMIC_SEQ_CST);
    if (ticket < MOST) lines[ticket] = (struct line){thread, word, answer, of, with, value};
    if (halting_word == 0 || halting_word != word + 1) return;
    halting_word = 0;
    unsigned halt = __atomic_add_fetch(&halts, 1, __ATOMIC_SEQ_CST);
    while (load(&released) < halt) sched_yield();
}

// A number that no other ticker of the process has.
number number_of_ticker(void) { return ticker = __atomic_add_fetch(&made, 1, __ATOMIC_SEQ_CST); }

// The number that this thread drew last.
number last_number_of_ticker(void) { return ticker; }

// Has this thread halt behind its next line of this word.
void halt_behind(unsigned word) { halting_word = word + 1; }

// Whether a thread halts.
unsigned is_halted(void) { return load(&halts) > load(&released); }

// Lets those go on that halt.
void let_go_on(void) { __atomic_store_n(&released, load(&halts), __ATOMIC_SEQ_CST); }

// From now on each copy of a waker is refused whose number this one divides, or none if it is 0, and
// executors have queues for so many tasks, or for the usual number if that is 0.
void restrict_programs(number each, number places) {
    refused_each = each;
    asked = 0;
    room = places;
}

// Whether this copy of a waker is to be refused.
unsigned is_copy_refused(void) {
    return refused_each != 0 && __atomic_add_fetch(&asked, 1, __ATOMIC_SEQ_CST) % refused_each == 0;
}

// For how many tasks the queues of an executor have room, or 0.
number room_of_queues(void) { return room; }

// What is played from now on has the numbers from this one on.
void number_tables_from(number it) { plays = it; }

// The number of what was played.
number number_of_play(void) { return plays++; }

static char text[ROOM];
static number length;

static void flush(void) {
    for (number at = 0; at < length;) {
        long written = write(LOG, text + at, length - at);
        if (written <= 0) break;
        at += written;
    }
    length = 0;
}

static void put_number(number it, char end) {
    char digits[24];
    int left = sizeof digits;
    do digits[--left] = '0' + it % 10;
    while (it /= 10);
    while (left < (int)sizeof digits) text[length++] = digits[left++];
    text[length++] = end;
}

// Prints the log to the file that is open as number 9: the numbers of the wrong body, of the kind of the
// program and of the program, and its ending, then all lines in order, each as the numbers of its thread, its
// word, what it is said of, the answer and the answer's own number. A new log begins. No other thread may
// write meanwhile. It says whether there was room for all.
unsigned print_log(unsigned kind, number of, unsigned ending) {
    number all = count < MOST ? count : MOST;
    put_number(chosen(), ' ');
    put_number(kind, ' ');
    put_number(of, ' ');
    put_number(ending, '\n');
    for (number at = 0; at < all; at++) {
        if (length > ROOM - 200) flush();
        put_number(lines[at].thread, ' ');
        put_number(lines[at].word, ' ');
        put_number(lines[at].of, ' ');
        put_number(lines[at].with, ' ');
        put_number(lines[at].answer, ' ');
        put_number(lines[at].value, '\n');
    }
    flush();
    unsigned is_whole = count <= MOST;
    count = 0;
    return is_whole;
}
