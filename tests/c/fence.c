/* Lists between pages that nobody can touch: fence.h. */
#define _DEFAULT_SOURCE
#include "fence.h"
#include <setjmp.h>
#include <signal.h>
#include <stdio.h>
#include <stdlib.h>
#include <string.h>
#include <sys/mman.h>
#include <unistd.h>

const char *const side_names[SIDES] = {"its end at a closed page", "its start at a closed page", "at an odd address"};

static size_t page(void) { return (size_t)sysconf(_SC_PAGESIZE); }

static void require(bool ok, const char *what) {
    if (ok) return;
    perror(what);
    exit(2);
}

static size_t pages(size_t n) { return (n + page() - 1) / page() * page(); }

/* So many bytes behind the first page. */
static void protect(fenced l, size_t n, int protection) {
    require(!n || !mprotect(l.mapped + page(), n, protection), "mprotect");
}

/* Room for so many bytes of whole pages, all of it open. */
static fenced mapped(size_t n, size_t room) {
    fenced l = {NULL, n, NULL, room + 2 * page(), room};
    l.mapped = mmap(NULL, l.whole, PROT_NONE, MAP_PRIVATE | MAP_ANONYMOUS, -1, 0);
    require(l.mapped != MAP_FAILED, "mmap");
    protect(l, room, PROT_READ | PROT_WRITE);
    return l;
}

fenced fence(const void *from, size_t n, side where) {
    if (where == BEHIND) return fence_part(from, n, n);
    size_t gap = where == ODD && n;
    fenced l = mapped(n, pages(gap + n));
    if (n || where != ODD) l.at = l.mapped + page() + gap;
    if (n) memcpy(l.at, from, n);
    return l;
}

fenced fence_part(const void *from, size_t n, size_t open) {
    fenced l = mapped(n, pages(open) + pages(n - open));
    l.at = l.mapped + page() + pages(open) - open;
    if (n) memcpy(l.at, from, n);
    protect(l, l.open, PROT_NONE);
    l.open = pages(open);
    protect(l, l.open, PROT_READ | PROT_WRITE);
    return l;
}

void only_read(fenced l) { protect(l, l.open, PROT_READ); }

void open_all(fenced l) { protect(l, l.whole - 2 * page(), PROT_READ); }

void unfence(fenced l) { require(!munmap(l.mapped, l.whole), "munmap"); }

static sigjmp_buf back;
static volatile sig_atomic_t inside;
static const unsigned char *volatile address;

static void on_touch(int number, siginfo_t *info, void *context) {
    (void)context;
    address = info->si_addr;
    if (inside) siglongjmp(back, 1);
    signal(number, SIG_DFL);
    raise(number);
}

bool stays_inside(void (*call)(void *), void *with, const unsigned char **touched) {
    struct sigaction action = {.sa_sigaction = on_touch, .sa_flags = SA_SIGINFO};
    sigaction(SIGSEGV, &action, NULL), sigaction(SIGBUS, &action, NULL);
    if (sigsetjmp(back, 1)) {
        inside = 0;
        *touched = address;
        return false;
    }
    inside = 1;
    call(with);
    inside = 0;
    return true;
}
