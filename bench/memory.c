/* What a call takes besides the memory it is lent: heap allocations, counted by standing in for
   the C library's allocator, and stack, seen by running the call on a painted stack. */

#include <stddef.h>
#include <stdint.h>
#include <string.h>
#include <ucontext.h>

void *__libc_malloc(size_t size);
void *__libc_calloc(size_t count, size_t size);
void *__libc_realloc(void *memory, size_t size);
void *__libc_memalign(size_t alignment, size_t size);

static uint64_t allocations;

void *malloc(size_t size)
{
    allocations++;
    return __libc_malloc(size);
}

void *calloc(size_t count, size_t size)
{
    allocations++;
    return __libc_calloc(count, size);
}

void *realloc(void *memory, size_t size)
{
    allocations++;
    return __libc_realloc(memory, size);
}

void *aligned_alloc(size_t alignment, size_t size)
{
    allocations++;
    return __libc_memalign(alignment, size);
}

int posix_memalign(void **memory, size_t alignment, size_t size)
{
    allocations++;
    *memory = __libc_memalign(alignment, size);
    return *memory == NULL ? 12 : 0;
}

uint64_t allocations_so_far(void)
{
    return allocations;
}

enum { STACK = 256 * 1024, PAINT = 0xA5 };

static uint8_t stack[STACK] __attribute__((aligned(64)));
static ucontext_t caller, painted;
static void (*call)(void *);
static void *argument;

static void run_call(void)
{
    call(argument);
}

static void no_call(void *nothing)
{
    (void)nothing;
}

static size_t depth_of(void (*function)(void *), void *its_argument)
{
    size_t untouched = 0;
    memset(stack, PAINT, STACK);
    call = function;
    argument = its_argument;
    getcontext(&painted);
    painted.uc_stack.ss_sp = stack;
    painted.uc_stack.ss_size = STACK;
    painted.uc_link = &caller;
    makecontext(&painted, run_call, 0);
    swapcontext(&caller, &painted);
    while (untouched < STACK && stack[untouched] == PAINT)
        untouched++;
    return STACK - untouched;
}

/* The bytes of stack below what an empty function takes. */
size_t stack_depth(void (*function)(void *), void *its_argument)
{
    return depth_of(function, its_argument) - depth_of(no_call, NULL);
}
