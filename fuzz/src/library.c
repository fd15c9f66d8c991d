/*
 * The library under the fuzzer. It is machine code without counters, so each of its instructions gets a
 * breakpoint before the first input. The first input to reach one takes it away and is new to libFuzzer, which
 * keeps it. At the end it is said how many instructions were reached.
 *
 * TRUSTED_BLOCK_PLACES names a file with a line for each: the address as linked, and function+offset; fuzz/run
 * makes it, with tb_read's own address in a line before them. The names of those that were not reached go to a
 * file beside it, with .unreached behind its name.
 */
#define _GNU_SOURCE
#include <signal.h>
#include <stdint.h>
#include <stdio.h>
#include <stdlib.h>
#include <string.h>
#include <sys/mman.h>
#include <ucontext.h>
#include <unistd.h>

enum { MOST = 16384, NAME = 80, BREAKPOINT = 0xCC, PAGE = 4096, LENT = 4 * PAGE };

uint32_t tb_read(const uint8_t *token, size_t token_len, uint32_t *second);

__attribute__((section("__libfuzzer_extra_counters"), used)) static uint8_t reached_now[MOST];
static uint8_t *places[MOST];
static char names[MOST][NAME];
static uint8_t bytes_there[MOST];
static uint8_t reached[MOST];
static size_t count, count_reached;

static _Noreturn void fail(const char *what)
{
    fprintf(stderr, "fuzz: %s\n", what);
    _Exit(2);
}

static size_t index_of(const uint8_t *place)
{
    size_t low = 0, high = count;
    while (low < high) {
        size_t middle = (low + high) / 2;
        if (places[middle] < place)
            low = middle + 1;
        else
            high = middle;
    }
    return low;
}

static void on_breakpoint(int signal, siginfo_t *info, void *context)
{
    greg_t *next = &((ucontext_t *)context)->uc_mcontext.gregs[REG_RIP];
    uint8_t *place = (uint8_t *)*next - 1;
    size_t index = index_of(place);
    (void)signal;
    (void)info;
    if (index == count || places[index] != place || reached[index])
        fail("a breakpoint that is not ours");
    *place = bytes_there[index];
    *next = (greg_t)(intptr_t)place;
    reached_now[index] = 1;
    reached[index] = 1;
    count_reached += 1;
}

static void report(void)
{
    char name[4096];
    FILE *file;
    size_t index;
    fprintf(stderr, "library: %zu of %zu instructions reached\n", count_reached, count);
    snprintf(name, sizeof name, "%s.unreached", getenv("TRUSTED_BLOCK_PLACES"));
    file = fopen(name, "w");
    if (file == NULL)
        return;
    for (index = 0; index < count; index++)
        if (!reached[index])
            fprintf(file, "%s\n", names[index]);
    fclose(file);
}

static void read_places(const char *name)
{
    FILE *file = fopen(name, "r");
    unsigned long address = 0;
    intptr_t moved;
    char here[NAME];
    if (file == NULL || fscanf(file, "%lx", &address) != 1)
        fail("no list of places");
    moved = (intptr_t)tb_read - (intptr_t)address;
    while (fscanf(file, "%lx %79s", &address, here) == 2) {
        if (count == MOST)
            fail("too many places");
        strcpy(names[count], here);
        places[count++] = (uint8_t *)(intptr_t)address + moved;
    }
    fclose(file);
}

static void set_breakpoints(void)
{
    struct sigaction action;
    uintptr_t first = (uintptr_t)places[0] / PAGE * PAGE;
    uintptr_t last = (uintptr_t)places[count - 1] + PAGE;
    size_t index;
    memset(&action, 0, sizeof action);
    action.sa_sigaction = on_breakpoint;
    action.sa_flags = SA_SIGINFO;
    if (sigaction(SIGTRAP, &action, NULL) != 0)
        fail("no breakpoints");
    if (mprotect((void *)first, last - first, PROT_READ | PROT_WRITE | PROT_EXEC) != 0)
        fail("the code cannot be changed");
    for (index = 0; index < count; index++) {
        bytes_there[index] = *places[index];
        *places[index] = BREAKPOINT;
    }
}

int LLVMFuzzerInitialize(int *argc, char ***argv)
{
    const char *name = getenv("TRUSTED_BLOCK_PLACES");
    (void)argc;
    (void)argv;
    if (name == NULL)
        return 0;
    read_places(name);
    if (count == 0)
        fail("no places");
    set_breakpoints();
    atexit(report);
    return 0;
}

/* A copy of the bytes whose end lies against a page that nobody may touch. */
const uint8_t *against_a_wall(const uint8_t *bytes, size_t length)
{
    static uint8_t *wall;
    if (wall == NULL) {
        uint8_t *pages = mmap(NULL, LENT + PAGE, PROT_READ | PROT_WRITE, MAP_PRIVATE | MAP_ANONYMOUS, -1, 0);
        if (pages == MAP_FAILED || mprotect(pages + LENT, PAGE, PROT_NONE) != 0)
            fail("no memory");
        wall = pages + LENT;
    }
    if (length > LENT)
        return bytes;
    if (length > 0)
        memcpy(wall - length, bytes, length);
    return wall - length;
}
