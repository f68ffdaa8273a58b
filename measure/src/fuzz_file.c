/* The histogram file's reader and writer under libFuzzer, beside a small reader made from document 01; `measure/fuzz` builds and runs it.
   Whatever it lends ends at a page that faults. The port is not compiled for a fuzzer: each of its instructions is a breakpoint until it
   is first run, and the breakpoint counts as coverage. The variable FUZZ_PLACES names the file of their addresses. */
#define _GNU_SOURCE
#include "fogatise.h"
#include <signal.h>
#include <stdio.h>
#include <stdlib.h>
#include <string.h>
#include <sys/mman.h>
#include <ucontext.h>

enum { PAGE = 4096, ROOM = 16 * PAGE, MOST_BINS = 2047, MARK = 0xa5, MOST_PLACES = 4096 };

/* ---- a reader made from document 01 */

/* The number at *at, which moves behind it; 0 where it is missing, cut short, too long or outside its range. */
static int number(const uint8_t *file, size_t length, size_t *at, uint64_t least, uint64_t most, uint64_t *value)
{
    size_t last = *at;
    while (last < length && file[last] >= 128) last++;
    if (last == length) return 0;
    if (last > *at && file[last] == 0) return 0;
    if (last - *at >= 5) return 0;
    *value = 0;
    for (size_t i = last + 1; i-- > *at;) *value = *value * 128 + file[i] % 128;
    if (*value < least || *value > most) return 0;
    *at = last + 1;
    return 1;
}

/* The number of bins, or 0 and the place of the first fault. */
static size_t read_file(const uint8_t *file, size_t length, uint32_t bins[MOST_BINS], size_t *at)
{
    uint64_t form, count, bin;
    *at = 0;
    if (!number(file, length, at, 1, 1, &form) || !number(file, length, at, 2, MOST_BINS, &count)) return 0;
    for (size_t i = 0; i < count; i++) {
        if (!number(file, length, at, 0, UINT32_MAX, &bin)) return 0;
        bins[i] = (uint32_t)bin;
    }
    return *at == length ? count : 0;
}

/* ---- lent memory */

struct lent {
    uint8_t *end; /* the page that faults */
};

static struct lent file_lent, bins_lent, bytes_lent;
static uint8_t marks[ROOM];

static void map(struct lent *lent)
{
    uint8_t *start = mmap(NULL, ROOM + PAGE, PROT_READ | PROT_WRITE, MAP_PRIVATE | MAP_ANONYMOUS, -1, 0);
    if (start == MAP_FAILED || mprotect(start + ROOM, PAGE, PROT_NONE)) abort();
    lent->end = start + ROOM;
}

/* So many marked bytes, with a marked page before them. */
static void *lend(struct lent *lent, size_t bytes)
{
    memset(lent->end - bytes - PAGE, MARK, bytes + PAGE);
    return lent->end - bytes;
}

/* Of so many lent bytes the first are `answer`, and the rest and the page before are as they were. */
static int stands(const struct lent *lent, size_t bytes, const void *answer, size_t written)
{
    const uint8_t *start = lent->end - bytes;
    return !memcmp(start - PAGE, marks, PAGE) && !memcmp(start, answer, written) && !memcmp(start + written, marks, bytes - written);
}

static void must(int holds, const char *what)
{
    if (holds) return;
    fprintf(stderr, "DIFFERENCE: %s\n", what);
    abort();
}

/* ---- the port's coverage */

__attribute__((section("__libfuzzer_extra_counters"))) static uint8_t reached[MOST_PLACES];
static uint8_t *places[MOST_PLACES], first_byte[MOST_PLACES];
static size_t place_count, run_count;

static void on_trap(int signal, siginfo_t *info, void *context)
{
    greg_t *rip = &((ucontext_t *)context)->uc_mcontext.gregs[REG_RIP];
    (void)signal, (void)info;
    for (size_t i = 0; i < place_count; i++) {
        if (places[i] != (uint8_t *)*rip - 1) continue;
        *places[i] = first_byte[i];
        *rip -= 1;
        reached[i] = 1;
        run_count++;
        return;
    }
    abort();
}

static void set_places(const char *name)
{
    FILE *file = fopen(name, "r");
    void *place;
    struct sigaction action = {.sa_sigaction = on_trap, .sa_flags = SA_SIGINFO};
    if (!file) abort();
    while (place_count < MOST_PLACES && fscanf(file, "%p", &place) == 1) {
        places[place_count++] = place;
        if (mprotect((void *)((uintptr_t)place / PAGE * PAGE), PAGE + 16, PROT_READ | PROT_WRITE | PROT_EXEC)) abort();
    }
    fclose(file);
    sigaction(SIGTRAP, &action, NULL);
    for (size_t i = 0; i < place_count; i++) {
        first_byte[i] = *places[i];
        *places[i] = 0xcc;
    }
}

/* ---- the run */

static size_t accepted, refused;

static void report(void)
{
    fprintf(stderr, "files accepted: %zu, refused: %zu\n", accepted, refused);
    fprintf(stderr, "instructions of the port run: %zu of %zu\n", run_count, place_count);
    for (size_t i = 0; i < place_count; i++)
        if (*places[i] == 0xcc && first_byte[i] != 0xcc) fprintf(stderr, "never run: %p\n", (void *)places[i]);
}

int LLVMFuzzerInitialize(int *count, char ***words)
{
    (void)count, (void)words;
    map(&file_lent);
    map(&bins_lent);
    map(&bytes_lent);
    memset(marks, MARK, ROOM);
    if (getenv("FUZZ_PLACES")) set_places(getenv("FUZZ_PLACES"));
    atexit(report);
    return 0;
}

/* Reads into so many lent bins and compares. */
static void read_into(const uint8_t *file, size_t length, size_t room, const uint32_t *bins, size_t count, size_t place)
{
    const int number = count == 0 ? 3 : room < count ? 10 : 0;
    const fog_file answer = fog_read_histogram(file, length, lend(&bins_lent, room * 4), room);
    must(answer.number == number, "the reader's number");
    must(answer.items == (number ? 0 : count), "the reader's items");
    must(answer.place == (number == 3 ? place : 0), "the reader's place");
    must(stands(&bins_lent, room * 4, bins, number ? 0 : count * 4), "the lent bins");
}

/* Writes into so many lent bytes: the file again, or 10. */
static void write_into(const uint8_t *file, size_t length, size_t room, const uint32_t *bins, size_t count)
{
    const int number = room < length ? 10 : 0;
    const fog_written answer = fog_write_histogram(bins, count, lend(&bytes_lent, room), room);
    must(answer.number == number, "the writer's number");
    must(answer.items == (number ? 0 : length), "the writer's items");
    must(stands(&bytes_lent, room, file, number ? 0 : length), "the lent bytes");
}

/* Bins that no file holds. */
static void write_refused(const uint32_t *bins, size_t count, size_t room, int number)
{
    const fog_written answer = fog_write_histogram(bins, count, lend(&bytes_lent, room), room);
    must(answer.number == number && answer.items == 0, "the writer's refusal");
    must(stands(&bytes_lent, room, marks, room), "the lent bytes of a refusal");
}

int LLVMFuzzerTestOneInput(const uint8_t *data, size_t length)
{
    static uint32_t bins[MOST_BINS + 1];
    size_t place;
    if (length > ROOM - PAGE) return -1;
    uint8_t *file = lend(&file_lent, length);
    memcpy(file, data, length);
    const size_t count = read_file(data, length, bins, &place);
    read_into(file, length, MOST_BINS, bins, count, place);
    read_into(file, length, count, bins, count, place);
    if (count) {
        read_into(file, length, count - 1, bins, count, place);
        write_into(file, length, length, bins, count);
        write_into(file, length, length + 3, bins, count);
        write_into(file, length, length - 1, bins, count);
        write_into(file, length, 3 + 5 * count, bins, count);
    }
    write_refused(bins, length % 2, length, 1);
    write_refused(bins, MOST_BINS + 1, length, 2);
    must(stands(&file_lent, length, data, length), "the file");
    if (count) accepted++;
    else refused++;
    return 0;
}
