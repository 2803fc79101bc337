/* A stack of its own, with a guard that cannot be read or written directly below. */
#define _GNU_SOURCE
#include <sys/mman.h>
#include <ucontext.h>

#include "stack.h"

#define GUARD ((size_t)4 << 20)
#define PAGE ((size_t)4096)

static ucontext_t before, own;

/* The stack's lowest byte. Only whole pages can be mapped, so the stack ends below the end of the last one. */
static uint8_t *mapped(size_t size)
{
    size_t pages = (size + PAGE - 1) / PAGE * PAGE;
    uint8_t *all = mmap(NULL, GUARD + pages, PROT_NONE, MAP_PRIVATE | MAP_ANONYMOUS, -1, 0);
    if (all == MAP_FAILED || mprotect(all + GUARD, pages, PROT_READ | PROT_WRITE) != 0)
        stop("no memory for a stack", "");
    return all + GUARD;
}

static void call_on(uint8_t *low, size_t size, void (*function)(void))
{
    if (getcontext(&own) != 0)
        stop("getcontext", "");
    own.uc_stack.ss_sp = low;
    own.uc_stack.ss_size = size;
    own.uc_link = &before;
    makecontext(&own, function, 0);
    if (swapcontext(&before, &own) != 0)
        stop("swapcontext", "");
}

void on_own_stack(size_t size, void (*function)(void))
{
    call_on(mapped(size), size, function);
}

size_t used_of_own_stack(size_t size, uint8_t paint, void (*function)(void))
{
    uint8_t *low = mapped(size);
    size_t unused = 0;
    for (size_t n = 0; n < size; n++)
        ((volatile uint8_t *)low)[n] = paint;
    call_on(low, size, function);
    while (unused < size && ((volatile uint8_t *)low)[unused] == paint)
        unused++;
    return size - unused;
}
