/* A heap that refuses an allocation where a test asks for it. tools/refuse/run puts it before the C library's.

   A request of one of five sizes, which no heap can grant, is a word of the test (crates/test_support/src/heap.rt):
     MARK         from here on blocks are counted; granted
     REFUSE + n   from here on requests are counted, and the one of number n (malloc, calloc or realloc) is refused,
                  once; granted
     ABOVE + n    from here on each request of more than n bytes is refused; granted
     REFUSED      from here on no request is refused; granted if one was refused since REFUSE or ABOVE
     LEAKED       granted if more blocks are held than at MARK
   A program says no word: with REFUSE_AT=n in the environment the request of number n of the whole process is refused,
   once; with REFUSE_FROM=n that one and each after it. At the end of the process one line goes to the descriptor REFUSE_TO: 'asked=A refused=R peak=P', A being the
   words REFUSE + n and ABOVE + n, R the refusals, and P the most bytes that were held at a time. It needs no header, so
   that the kit's clang alone compiles it. */
typedef unsigned long size;
extern void *__libc_malloc(size), *__libc_calloc(size, size), *__libc_realloc(void *, size);
extern void *__libc_memalign(size, size);
extern void __libc_free(void *);
extern size malloc_usable_size(void *);
extern char *getenv(const char *);
extern long write(int, const void *, size);
extern int *__errno_location(void);
extern void _Exit(int) __attribute__((noreturn));

static const size REFUSE = 0x5EED000100000000, REFUSED = 0x5EED000200000000, LEAKED = 0x5EED000300000000;
static const size MARK = 0x5EED000400000000;
static const size ABOVE = 0x5EED000500000000, ANY = 0xFFFFFFFFFFFFFFFF;
static const int NO_MEMORY = 12, BAD_ALIGNMENT = 22;

/* What a word is granted. */
static char granted[64] __attribute__((aligned(64)));

static _Atomic long refused_number, requests, held, words, refusals;
static _Atomic size most, bytes, peak;
static _Atomic int counts, was_refused, is_for_good;

/* From here on the request of this number is refused, and each that is larger. */
static void refuse_from_here(long number, size larger) {
    refused_number = number;
    most = larger;
    requests = 0;
    was_refused = 0;
    counts = 1;
    words++;
}

/* Whether a request is a word, and what it is answered. */
static int is_word(size n, void **answer) {
    switch (n & 0xFFFFFFFF00000000) {
    case MARK:
        held = 0;
        *answer = granted;
        return 1;
    case REFUSE:
        refuse_from_here(n - REFUSE, ANY);
        *answer = granted;
        return 1;
    case ABOVE:
        refuse_from_here(0, n - ABOVE);
        *answer = granted;
        return 1;
    case REFUSED:
        counts = 0;
        *answer = was_refused ? granted : 0;
        return 1;
    case LEAKED:
        *answer = held > 0 ? granted : 0;
        return 1;
    }
    return 0;
}

static int is_due(void) {
    const long at = ++requests;
    return is_for_good ? at >= refused_number : at == refused_number;
}

static int refuses(size n) {
    if (!counts || (!is_due() && n <= most)) return 0;
    was_refused = 1;
    refusals++;
    *__errno_location() = NO_MEMORY;
    return 1;
}

static void *counted(void *block) {
    if (!block) return 0;
    held++;
    const size now = bytes += malloc_usable_size(block);
    if (now > peak) peak = now;
    return block;
}

static void uncounted(void *block) {
    held--;
    bytes -= malloc_usable_size(block);
}

void *malloc(size n) {
    void *answer;
    if (is_word(n, &answer)) return answer;
    return refuses(n) ? 0 : counted(__libc_malloc(n));
}

void *calloc(size n, size m) {
    return refuses(n * m) ? 0 : counted(__libc_calloc(n, m));
}

void *realloc(void *block, size n) {
    if (block == granted || refuses(n)) return 0;
    const size before = block ? malloc_usable_size(block) : 0;
    void *moved = __libc_realloc(block, n);
    if (moved && block) {
        held--;
        bytes -= before;
    }
    return counted(moved);
}

void *memalign(size to, size n) {
    return refuses(n) ? 0 : counted(__libc_memalign(to, n));
}

void *aligned_alloc(size to, size n) {
    return memalign(to, n);
}

int posix_memalign(void **block, size to, size n) {
    if (to % sizeof(void *) || to & (to - 1)) return BAD_ALIGNMENT;
    void *made = memalign(to, n);
    if (!made) return NO_MEMORY;
    *block = made;
    return 0;
}

void free(void *block) {
    if (!block || block == granted) return;
    uncounted(block);
    __libc_free(block);
}

static char *put(char *to, const char *name, long n) {
    char digits[24];
    int k = 0;
    while (*name) *to++ = *name++;
    do digits[k++] = '0' + n % 10; while (n /= 10);
    while (k) *to++ = digits[--k];
    return to;
}

/* The number that the environment has by this name, or -1. */
static long number(const char *name) {
    const char *digit = getenv(name);
    if (!digit || *digit < '0' || '9' < *digit) return -1;
    long n = 0;
    while ('0' <= *digit && *digit <= '9') n = 10 * n + (*digit++ - '0');
    return n;
}

static __attribute__((constructor)) void begin(void) {
    const long from = number("REFUSE_FROM");
    is_for_good = from > 0;
    refused_number = is_for_good ? from : number("REFUSE_AT");
    most = ANY;
    counts = refused_number > 0;
}

static __attribute__((destructor)) void tell(void) {
    char line[80], *to = line;
    int file = number("REFUSE_TO");
    if (file < 0) return;
    to = put(to, "asked=", words);
    to = put(to, " refused=", refusals);
    to = put(to, " peak=", peak);
    *to++ = '\n';
    if (write(file, line, to - line) < 0) return;
}

/* A program that may start threads ends by this, which calls no destructor. */
void _exit(int status) {
    tell();
    _Exit(status);
}
