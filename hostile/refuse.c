// Counts the requests for memory of a program, and refuses one. hostile/refuse puts this before the C library (LD_PRELOAD).
//
// REFUSE is the number of the request that is refused, from 1 on; what asks again later is given memory. With 0 none is
// refused. Each call of malloc, calloc, realloc, reallocarray, aligned_alloc, memalign and posix_memalign is a request.
// They are counted from the moment on at which the C library and this file are ready and the program's `main` comes next:
// what the loader asks for before is not the program's. A refusal is told by a line on file descriptor 9, and where none
// is refused the number of all requests, at the end.
//
// No header is read, so that a compiler without those of the C library does.
typedef __SIZE_TYPE__ count;

enum { NO_MEMORY = 12, TOLD_TO = 9 };

void *__libc_malloc(count);
void *__libc_calloc(count, count);
void *__libc_realloc(void *, count);
void *__libc_memalign(count, count);
int *__errno_location(void);
char *getenv(const char *);
unsigned long strtoul(const char *, char **, int);
int dprintf(int, const char *, ...);
long write(int, const void *, count);

static unsigned long number, met;

__attribute__((constructor)) static void begin(void) {
  const char *wanted = getenv("REFUSE");
  number = wanted ? strtoul(wanted, 0, 10) : 0;
  met = 0;
}

__attribute__((destructor)) static void end(void) {
  unsigned long all = met;
  if (number == 0) dprintf(TOLD_TO, "%lu\n", all);
}

static int refused(void) {
  if (++met != number) return 0;
  if (write(TOLD_TO, "refused\n", 8) != 8) __builtin_trap();
  *__errno_location() = NO_MEMORY;
  return 1;
}

void *malloc(count bytes) { return refused() ? 0 : __libc_malloc(bytes); }

void *calloc(count cells, count bytes) { return refused() ? 0 : __libc_calloc(cells, bytes); }

void *realloc(void *block, count bytes) { return refused() ? 0 : __libc_realloc(block, bytes); }

void *reallocarray(void *block, count cells, count bytes) {
  count whole;
  if (__builtin_mul_overflow(cells, bytes, &whole)) whole = (count)-1;
  return realloc(block, whole);
}

void *memalign(count align, count bytes) { return refused() ? 0 : __libc_memalign(align, bytes); }

void *aligned_alloc(count align, count bytes) { return memalign(align, bytes); }

int posix_memalign(void **block, count align, count bytes) {
  void *found = memalign(align, bytes);
  if (found == 0) return NO_MEMORY;
  *block = found;
  return 0;
}
