// What the kit's libraries have in C, for a program that oracle/native builds: a kit for x86-64 has it for x86-64 alone.
#include <errno.h>
#include <stdbool.h>
#include <stdlib.h>
#include <string.h>

static int count;
static char **words;

__attribute__((constructor)) static void keep(int argc, char **argv) {
    count = argc;
    words = argv;
}

unsigned long rattle_arg_count(void) { return (unsigned long)count; }

// The length of a word that fits, -1 where there is none, -2 where it is longer.
long rattle_arg(unsigned long i, unsigned char *to, unsigned long room) {
    if (i >= (unsigned long)count) return -1;
    unsigned long size = strlen(words[i]);
    memcpy(to, words[i], size < room ? size : room);
    return size <= room ? (long)size : -2;
}

int rattle_errno(void) { return errno; }

void rattle_set_errno(int error) { errno = error; }

// Whether there is memory, and where: at a byte that is nobody's if there is none.
struct tried {
    bool is_there;
    void *place;
};

static char nowhere;

static struct tried tried(void *place) { return (struct tried){place != NULL, place ? place : &nowhere}; }

struct tried rattle_alloc(size_t size, size_t alignment) { return tried(malloc(size ? size : alignment)); }

struct tried rattle_realloc(void *place, size_t kept, size_t size, size_t alignment) {
    (void)kept;
    return tried(realloc(place, size ? size : alignment));
}

void rattle_dealloc(void *place) { free(place); }
