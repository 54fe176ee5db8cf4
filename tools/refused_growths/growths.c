/* Counts the growths of the program that it is linked into, and refuses those that the environment names.

   A quick build (`rt try`) links the address sanitizer's runtime, whose malloc calls __interceptor_malloc. A program
   may define that itself, and so it does here, for realloc and free too, and for pthread_create, whose threads count
   as growths. What the C library or the sanitizer ask for isn't counted. The program says on its standard error where
   growths count:

   "case begins"       blocks are counted from here on,
   "refuse from here"  growths are numbered from 1, and some refused,
   "refuse to here"    none is refused,
   "case ends"         the counts are told.

   REFUSE_FROM is the number of the first growth that is refused, and REFUSE_COUNT how many are, 0 for all from there
   on. */
#define _GNU_SOURCE
#include <errno.h>
#include <pthread.h>
#include <stdatomic.h>
#include <stdint.h>
#include <stdio.h>
#include <stdlib.h>
#include <string.h>
#include <unistd.h>

typedef void *(*Body)(void *);

void *___interceptor_malloc(size_t size);
void *___interceptor_realloc(void *block, size_t size);
void ___interceptor_free(void *block);
ssize_t ___interceptor_write(int file, const void *text, size_t size);
int ___interceptor_pthread_create(pthread_t *thread, const pthread_attr_t *attributes, Body body, void *argument);

#define PLACES (1 << 18)

static _Atomic uintptr_t blocks[PLACES];
static atomic_long made, refused, kept, refuse_from, refuse_count;
static atomic_int is_refusing;

static size_t place_after(size_t place) { return (place + 1) % PLACES; }

static size_t first_place(const void *block) { return ((uintptr_t)block >> 4) * 0x9e3779b97f4a7c15u % PLACES; }

/* Keeps a block in the first place that is free for it. */
static void *note(void *block) {
    uintptr_t none = 0;
    if (!block) return block;
    size_t place = first_place(block);
    while (!atomic_compare_exchange_strong(&blocks[place], &none, (uintptr_t)block)) {
        if (none == 1 && atomic_compare_exchange_strong(&blocks[place], &none, (uintptr_t)block)) break;
        none = 0;
        place = place_after(place);
    }
    kept++;
    return block;
}

/* Forgets a block, if it was noted. */
static int forget(const void *block) {
    uintptr_t found;
    for (size_t place = first_place(block); (found = blocks[place]) != 0; place = place_after(place)) {
        if (found == (uintptr_t)block) {
            blocks[place] = 1;
            kept--;
            return 1;
        }
    }
    return 0;
}

extern const char __executable_start, etext;

/* Whether the program asks for it, from this place: a library isn't inside the program's file. */
static int is_own(const void *caller) {
    return (const char *)caller >= &__executable_start && (const char *)caller < &etext;
}

static int is_refused(void) {
    if (!is_refusing) return 0;
    long number = ++made;
    if (refuse_from == 0 || number < refuse_from) return 0;
    if (refuse_count != 0 && number >= refuse_from + refuse_count) return 0;
    refused++;
    return 1;
}

void *__interceptor_malloc(size_t size) {
    if (!is_own(__builtin_return_address(0))) return ___interceptor_malloc(size);
    if (is_refused()) return errno = ENOMEM, NULL;
    return note(___interceptor_malloc(size));
}

void *__interceptor_realloc(void *block, size_t size) {
    if (!is_own(__builtin_return_address(0))) return ___interceptor_realloc(block, size);
    if (is_refused()) return errno = ENOMEM, NULL;
    int was_noted = block && forget(block);
    void *moved = ___interceptor_realloc(block, size);
    if (moved) return note(moved);
    if (was_noted) note(block);
    return NULL;
}

void __interceptor_free(void *block) {
    if (block) forget(block);
    ___interceptor_free(block);
}

int __interceptor_pthread_create(pthread_t *thread, const pthread_attr_t *attributes, Body body, void *argument) {
    if (is_refused()) return EAGAIN;
    return ___interceptor_pthread_create(thread, attributes, body, argument);
}

static long number_of(const char *name) {
    const char *text = getenv(name);
    return text ? atol(text) : 0;
}

static void tell(void) {
    char text[120];
    int length = snprintf(text, sizeof text, "growths %ld refused %ld kept %ld\n", (long)made, (long)refused,
                          (long)kept);
    ___interceptor_write(STDERR_FILENO, text, (size_t)length);
}

static int is_word(const char *word, const void *text, size_t size) {
    return size == strlen(word) && memcmp(word, text, size) == 0;
}

/* Takes the words of which the program's standard error is made, and passes all else on. */
ssize_t __interceptor_write(int file, const void *text, size_t size) {
    if (file != STDERR_FILENO) return ___interceptor_write(file, text, size);
    if (is_word("case begins\n", text, size)) {
        refuse_from = number_of("REFUSE_FROM");
        refuse_count = number_of("REFUSE_COUNT");
        kept = 0;
    } else if (is_word("refuse from here\n", text, size)) {
        is_refusing = 1;
    } else if (is_word("refuse to here\n", text, size)) {
        is_refusing = 0;
    } else if (is_word("case ends\n", text, size)) {
        tell();
    } else {
        return ___interceptor_write(file, text, size);
    }
    return (ssize_t)size;
}
