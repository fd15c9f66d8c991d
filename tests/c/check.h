/* What the C tests share: checks that are counted, and lent memory with forbidden pages around it. */
#ifndef CHECK_H
#define CHECK_H

#include <stdint.h>
#include <stdio.h>
#include <stdlib.h>
#include <string.h>
#include <sys/mman.h>

static unsigned checks_done, checks_failed;

#define CHECK(condition) check((condition) != 0, #condition, __FILE__, __LINE__)

static void check(int holds, const char *what, const char *file, int line)
{
    checks_done++;
    if (!holds) {
        checks_failed++;
        fprintf(stderr, "%s:%d: %s\n", file, line, what);
    }
}

/* The last line of a test program, and its exit status. */
static int checks_end(const char *name)
{
    printf("%s: %u checks, %u wrong\n", name, checks_done, checks_failed);
    return checks_done > 0 && checks_failed == 0 ? EXIT_SUCCESS : EXIT_FAILURE;
}

/* Memory lent to the library: `bytes` lie against a page that nobody may touch. */
struct lent {
    uint8_t *bytes;
    size_t length;
    uint8_t *pages;
    size_t room;
};

enum side { PAGE_BEFORE, PAGE_BEHIND };

enum { PAGE = 4096 };

static struct lent lend(const void *bytes, size_t length, enum side side)
{
    struct lent lent;
    size_t inside = (length + PAGE - 1) / PAGE * PAGE;

    lent.length = length;
    lent.room = inside + 2 * PAGE;
    lent.pages = mmap(NULL, lent.room, PROT_NONE, MAP_PRIVATE | MAP_ANONYMOUS, -1, 0);
    if (lent.pages == MAP_FAILED || (inside > 0 && mprotect(lent.pages + PAGE, inside, PROT_READ | PROT_WRITE))) {
        perror("mmap");
        exit(2);
    }
    lent.bytes = lent.pages + PAGE + (side == PAGE_BEHIND ? inside - length : 0);
    if (length > 0) {
        memcpy(lent.bytes, bytes, length);
    }
    return lent;
}

/* The same, and its bytes may be read only. */
static struct lent lend_to_read(const void *bytes, size_t length, enum side side)
{
    struct lent lent = lend(bytes, length, side);

    if (lent.room > 2 * PAGE && mprotect(lent.pages + PAGE, lent.room - 2 * PAGE, PROT_READ)) {
        perror("mprotect");
        exit(2);
    }
    return lent;
}

static void take_back(struct lent *lent)
{
    munmap(lent->pages, lent->room);
}

#endif
