/* A heap that can be told which request for memory to refuse.
 *
 * It is a shared library that is loaded into a program by LD_PRELOAD, so that its `malloc`, `realloc` and `free` are found
 * before those of the C library. A Rattle program asks these three for all of its memory. What the C library itself asks for
 * is no request, and is always granted. It includes no header, since the toolchain's clang comes without them.
 *
 * A request for 2^60 bytes or more, which no heap grants, is an order. Its upper bits say what is ordered, and the lower
 * sixty bits are the order's number n:
 *
 *   REFUSE_ONE   from here on the n-th request is refused, once; none for n = 0
 *   REFUSE_REST  from here on the n-th request and all after it are refused
 *   WAS_REFUSED  granted if a request was refused since the last order to refuse
 *   ONE_ABOVE    granted if a single request since then was for more than n bytes
 *   SUM_ABOVE    granted if the requests since then were for more than n bytes together
 *   NOTE_BLOCKS  from here on blocks are compared with those that there are now
 *   ARE_OTHER    granted if there are more blocks or fewer than at the last such order
 *
 * A granted order has no memory behind it. An ordinary heap refuses every order, so a test that gives them makes its
 * calls there with ample memory.
 *
 * A program without such orders is told by its environment: REFUSE=n refuses one request, REFUSE=n.. all from the n-th
 * on. At its end it writes to the file descriptor HEAP_REPORT how many requests came, how many of them were refused, and
 * how many blocks were never freed.
 */
typedef __SIZE_TYPE__ size_t;
void *__libc_malloc(size_t);
void *__libc_realloc(void *, size_t);
void __libc_free(void *);
unsigned long getauxval(unsigned long);
char *getenv(const char *);
int dprintf(int, const char *, ...);

enum { ORDER_SHIFT = 60 };

enum order { REFUSE_ONE = 1, REFUSE_REST, WAS_REFUSED, ONE_ABOVE, SUM_ABOVE, NOTE_BLOCKS, ARE_OTHER };

/* How many requests are granted until one is refused, counting that one; 0 where none is. */
static size_t countdown;
static _Bool refuses_rest;

/* Since the last order to refuse. */
static size_t refused, largest, sum;

/* Since the program began. */
static size_t requests, all_refused, blocks;

/* How many blocks there were when they were noted. */
static size_t noted;

static char granted_order;

static void refuse(size_t n, _Bool rest) {
    countdown = n;
    refuses_rest = rest;
    refused = largest = sum = 0;
}

static void *obey(size_t order, size_t n) {
    _Bool granted = 0;
    switch (order) {
    case REFUSE_ONE:
    case REFUSE_REST:
        refuse(n, order == REFUSE_REST);
        break;
    case WAS_REFUSED:
        granted = refused > 0;
        break;
    case ONE_ABOVE:
        granted = largest > n;
        break;
    case SUM_ABOVE:
        granted = sum > n;
        break;
    case NOTE_BLOCKS:
        noted = blocks;
        break;
    case ARE_OTHER:
        granted = blocks != noted;
        break;
    }
    return granted ? &granted_order : 0;
}

static _Bool is_refused(size_t size) {
    requests++;
    sum += size;
    if (size > largest)
        largest = size;
    if (countdown == 0)
        return 0;
    if (countdown > 1) {
        countdown--;
        return 0;
    }
    if (!refuses_rest)
        countdown = 0;
    refused++;
    all_refused++;
    return 1;
}

/* Whether the program itself made the call that returns to `caller`, and not the C library, which lies far from it. */
static _Bool is_request(const void *caller) {
    enum { ADDRESS_OF_PROGRAM_HEADERS = 3 };
    size_t program = getauxval(ADDRESS_OF_PROGRAM_HEADERS);
    return (size_t)caller >= program && (size_t)caller - program < (size_t)1 << 30;
}

void *malloc(size_t size) {
    if (!is_request(__builtin_return_address(0)))
        return __libc_malloc(size);
    if (size >> ORDER_SHIFT)
        return obey(size >> ORDER_SHIFT, size & (((size_t)1 << ORDER_SHIFT) - 1));
    void *block = is_refused(size) ? 0 : __libc_malloc(size);
    blocks += block != 0;
    return block;
}

void *realloc(void *block, size_t size) {
    if (!is_request(__builtin_return_address(0)))
        return __libc_realloc(block, size);
    return is_refused(size) ? 0 : __libc_realloc(block, size);
}

void free(void *block) {
    if (block == &granted_order)
        return;
    blocks -= block != 0 && is_request(__builtin_return_address(0));
    __libc_free(block);
}

/* The number that the text begins with; afterwards the text is what follows it. */
static size_t number(const char **text) {
    size_t n = 0;
    for (; **text >= '0' && **text <= '9'; ++*text)
        n = 10 * n + (size_t)(**text - '0');
    return n;
}

__attribute__((constructor)) static void begin(void) {
    const char *text = getenv("REFUSE");
    if (!text)
        return;
    size_t n = number(&text);
    refuse(n, *text == '.');
}

__attribute__((destructor)) static void end(void) {
    const char *text = getenv("HEAP_REPORT");
    if (text)
        dprintf((int)number(&text), "%lu %lu %lu\n", requests, all_refused, blocks);
}
