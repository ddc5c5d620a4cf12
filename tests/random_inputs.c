// Runs the program on random inputs, a process for each, from inside the program itself.
// tests/random_inputs preloads this, so that the C library starts `serve` in place of the program's `main`.
// `serve` forks for every input: the child runs that `main` untouched and ends when it returns, and the
// parent looks at what came of it. So nothing is loaded twice, nor translated twice under an emulator.
// No headers of C are at hand; what is needed of its library is declared here.

#include "random_texts.h"

typedef int Main(int count, char **arguments, char **environment);
typedef int Start(Main *, int, char **, void (*)(void), void (*)(void), void (*)(void), void *);

int fork(void), waitpid(int, int *, int), dup(int), dup2(int, int), ftruncate(int, long), memfd_create(const char *, unsigned);
int setrlimit(int, const Word *), dprintf(int, const char *, ...), strncmp(const char *, const char *, Word);
long write(int, const void *, Word), pread(int, void *, Word, long), pwrite(int, const void *, Word, long);
long lseek(int, long, int), time(long *);
Word strlen(const char *), strtoul(const char *, char **, int);
unsigned alarm(unsigned);
void *mmap(void *, Word, int, int, int, long), *dlsym(void *, const char *);
_Noreturn void exit(int), _exit(int);

enum { FROM_START = 0, FROM_END = 2, FILE_SIZE = 1, READ_WRITE = 3, SHARED_ANONYMOUS = 0x21 }; // of the C library
enum {
    WORKERS = 2,       // so many inputs side by side
    SEEN = 4096,       // bytes of an output that are looked at; a line has 2,048 at most
    SECONDS = 60,      // that an input may take
    WARMING = 400,     // so many inputs are run once more by the workers themselves
    WRITTEN = 1 << 20, // bytes that a child may write; one that goes on is ended
    SHOWN = 10,        // failures that a worker shows
};
enum { RANGES = 0, REFUSALS = 10, EMPTY, KINDS, BAD }; // the answers; 1 to 10 are the refusals

struct tally { Word passed, failed, kinds[KINDS]; long slowest; };

static Main *program;
static char **arguments, **environment;
static int report; // the standard output that the program was started with

// ---- answers

// The place after `what`, or 0 where it does not stand there.
static const char *after(const char *at, const char *what) {
    return at != 0 && strncmp(at, what, strlen(what)) == 0 ? at + strlen(what) : 0;
}

// The place after a number of at most `most`, in digits with no nought before it, or 0.
static const char *after_number(const char *at, Word most, Word *value) {
    const char *start = at;
    *value = 0;
    while (at != 0 && *at >= '0' && *at <= '9' && *value <= most) *value = *value * 10 + (Word)(*at++ - '0');
    return at == start || *value > most || (*start == '0' && at > start + 1) ? 0 : at;
}

// The place after {A}, {A, ..., B} with A below B, or {A, ...}, or 0.
static const char *after_range(const char *at) {
    Word from, to;
    at = after_number(after(at, "{"), 4294967295, &from);
    if (after(at, "}") != 0) return after(at, "}");
    at = after(at, ", ...");
    if (after(at, "}") != 0) return after(at, "}");
    at = after(after_number(after(at, ", "), 4294967295, &to), "}");
    return at != 0 && from < to ? at : 0;
}

// The kind of answer that a line is. The program never refuses with 7, and no place is beyond the text.
static int kind_of(const char *line) {
    Word refusal, place;
    const char *at = after_number(after(line, "refused "), REFUSALS, &refusal);
    at = after_number(after(at, " at "), length, &place);
    if (at != 0) return *at == 0 && refusal > 0 && refusal != 7 ? (int)refusal : BAD;
    if (strncmp(line, "empty", sizeof "empty") == 0) return EMPTY;
    if (*line == 0) return RANGES;
    for (at = after_range(line); after(at, ", ") != 0;) at = after_range(after(at, ", "));
    return at != 0 && *at == 0 ? RANGES : BAD;
}

// The kind of answer that the last run gave: it ended by itself with status 0, one line and nothing else.
static int answer(int status) {
    static char line[SEEN];
    long size = pread(1, line, SEEN, 0);
    if (status != 0 || lseek(2, 0, FROM_END) != 0 || size < 1 || size == SEEN || line[size - 1] != '\n') return BAD;
    line[size - 1] = 0;
    return strlen(line) == (Word)size - 1 ? kind_of(line) : BAD;
}

// ---- processes

// Makes the standard files ready: the input to be read, nothing written.
static void set_files(void) {
    for (int file = 0; file < 3; file++) ftruncate(file, 0), lseek(file, 0, FROM_START);
    pwrite(0, text, length, 0);
}

// Runs the program on the input in a process of its own; its status, or -1 where none could be started.
static int run(void) {
    int status = -1;
    set_files();
    int child = fork();
    if (child == 0) {
        alarm(SECONDS);
        setrlimit(FILE_SIZE, (Word[]){WRITTEN, WRITTEN});
        int result = program(1, arguments, environment);
        if (one_in(16)) exit(result); // not always: under an emulator it takes longer than all the rest
        _exit(result);
    }
    return child > 0 && waitpid(child, &status, 0) == child ? status : -1;
}

// Bytes as the shell's printf takes them.
static const char *escaped(char *to, const Byte *bytes, long count) {
    long size = 0;
    for (long i = 0; i < count; i++) {
        int plain = bytes[i] >= ' ' && bytes[i] < 127 && bytes[i] != '\\' && bytes[i] != '\'' && bytes[i] != '%' && bytes[i] != '-';
        size += snprintf(to + size, 5, plain ? "%c" : "\\%03o", bytes[i]);
    }
    to[size] = 0;
    return to;
}

// Shows an input that failed, so that it can be repeated, and what was seen. Signal 14 came after a minute.
static void show_failure(int status) {
    static char input[4 * LONGEST + 1], printed[801], said[801], shown[sizeof input + 2000];
    Byte line[200], error[200];
    int size = snprintf(shown, sizeof shown, "failed: printf '%s' | ./woolquern: status %d, signal %d, printed '%s', said '%s'\n",
                        escaped(input, text, (long)length), status >> 8 & 255, status & 127,
                        escaped(printed, line, pread(1, line, 200, 0)), escaped(said, error, pread(2, error, 200, 0)));
    write(report, shown, (Word)size);
}

// Runs a worker's share of the inputs. What passed among the first is run once more without a child, so
// that an emulator has it translated for the children to come.
static void work(Word worker, Word count, Word seed, struct tally *tally) {
    for (int file = 0; file < 3; file++) dup2(memfd_create("", 0), file);
    for (Word index = worker; index < count; index += WORKERS) {
        make_input(seed, index);
        long start = time(0);
        int status = run(), kind = answer(status);
        if (time(0) - start > tally->slowest) tally->slowest = time(0) - start;
        if (kind != BAD) tally->passed++, tally->kinds[kind]++;
        else if (tally->failed++ < SHOWN) show_failure(status);
        if (kind == BAD || index >= WARMING) continue;
        set_files();
        program(1, arguments, environment);
    }
}

// Prints what the workers saw; an input that was not run counts as failed. Gives the status.
static int summary(Word count, const struct tally *tallies) {
    struct tally sum = {0};
    for (int i = 0; i < WORKERS; i++) {
        sum.passed += tallies[i].passed;
        sum.failed += tallies[i].failed;
        if (tallies[i].slowest > sum.slowest) sum.slowest = tallies[i].slowest;
        for (int kind = 0; kind < KINDS; kind++) sum.kinds[kind] += tallies[i].kinds[kind];
    }
    dprintf(report, "ranges %lu, empty %lu", sum.kinds[RANGES], sum.kinds[EMPTY]);
    for (int kind = 1; kind <= REFUSALS; kind++) dprintf(report, ", refused %d: %lu", kind, sum.kinds[kind]);
    dprintf(report, "; each within %ld s\n", sum.slowest + 1);
    if (sum.passed + sum.failed != count) dprintf(report, "a worker ended early: %lu inputs were not run\n", count - sum.passed - sum.failed);
    dprintf(report, "%lu passed, %lu failed\n", sum.passed, count - sum.passed);
    return count != sum.passed;
}

// Stands in for the program's `main`: has the workers run COUNT inputs from SEED, its two arguments.
static int serve(int argument_count, char **argument_list, char **environment_list) {
    if (argument_count != 3) return 2;
    Word count = strtoul(argument_list[1], 0, 10), seed = strtoul(argument_list[2], 0, 10);
    struct tally *tallies = mmap(0, WORKERS * sizeof *tallies, READ_WRITE, SHARED_ANONYMOUS, -1, 0);
    arguments = argument_list;
    arguments[1] = 0;
    environment = environment_list;
    report = dup(1);
    for (Word worker = 0; worker < WORKERS; worker++) {
        if (fork() != 0) continue;
        work(worker, count, seed, &tallies[worker]);
        _exit(0);
    }
    while (waitpid(-1, 0, 0) > 0) continue;
    return summary(count, tallies);
}

// The C library's start of a program, which the loader finds here first: it keeps `main` and starts `serve`.
int __libc_start_main(Main *main, int count, char **list, void (*init)(void), void (*fini)(void), void (*unload)(void), void *stack) {
    Start *start = (Start *)dlsym((void *)-1, "__libc_start_main");
    program = main;
    return start(serve, count, list, init, fini, unload, stack);
}
