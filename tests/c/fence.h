/* Lists on pages of their own, between pages that nobody can touch; and calls that touch such a page, caught. */
#ifndef FENCE_H
#define FENCE_H
#include <stdbool.h>
#include <stddef.h>

/* How a list lies on its pages: its end at the page behind, its start at the page before, or its start one byte further on. An
 * empty list is then at no address. */
typedef enum { BEHIND, BEFORE, ODD, SIDES } side;
extern const char *const side_names[SIDES];

/* n bytes from `at` on; the mapping that they lie in, and how many of its bytes are open. */
typedef struct {
    unsigned char *at;
    size_t n;
    unsigned char *mapped;
    size_t whole, open;
} fenced;

/* n bytes copied to pages of their own. */
fenced fence(const void *from, size_t n, side where);

/* .. the first `open` of them with their end at a page that is closed, the others on it and on those behind it. */
fenced fence_part(const void *from, size_t n, size_t open);

/* From now on the list can only be read, as far as it is open. */
void only_read(fenced l);

/* From now on all of the list can be read. */
void open_all(fenced l);

void unfence(fenced l);

/* Makes the call. False where it is broken off because it touches what it must not, at this address. */
bool stays_inside(void (*call)(void *), void *with, const unsigned char **touched);
#endif
