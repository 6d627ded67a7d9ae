/* A library that is loaded before the C library's (LD_PRELOAD) and sees each request for memory.
   REFUSE=K refuses the request with that number, counted from 1. Where the program made fewer
   requests, a line on standard error says so at its end.
   REFUSE_EACH=N refuses every N-th request, from the first on, each in a copy of the process, which
   goes on to its end without that block. Then the process itself goes on with it. A line on standard
   output says how the copy ended: `request 17: status 0`. What it read of standard input is read
   again.
   COUNT=1 counts requests. A request of 5555551 bytes sets the count to 0; one of 5555553 bytes
   writes it, in digits and a line feed, to standard error. These two are not counted themselves.
   TOTAL=1 writes, at the program's end, how many requests it made in all.
   LEFT=1 says on standard error, at the program's end, how many blocks weren't given back.
   tools/gate/shim.sh builds it without any header, so its names of the C library are declared
   here. */
typedef unsigned long size;

extern void *dlsym(void *library, const char *name);
extern char *getenv(const char *name);
extern long write(int file, const void *bytes, size length);
extern long lseek(int file, long offset, int whence);
extern int fork(void);
extern int waitpid(int process, int *status, int options);

#define NEXT ((void *)-1l)
#define SETS_TO_ZERO 5555551ul
#define WRITES 5555553ul
#define OUT_OF_MEMORY 12
#define FROM_START 0
#define FROM_HERE 1

static long refused, each;
/* Threads may ask at the same time. */
static _Atomic long made, counted, held;
static int counts, totals, leaks;

static long number_of(const char *digits) {
  long number = 0;
  while (digits && *digits >= '0' && *digits <= '9') number = number * 10 + (*digits++ - '0');
  return number;
}

/* Writes words and a number behind them. */
static void write_words(int file, const char *words, long number) {
  char digits[24];
  size length = 0, start = sizeof digits;
  while (words[length]) length++;
  do digits[--start] = (char)('0' + number % 10); while (number /= 10);
  (void)!write(file, words, length);
  (void)!write(file, digits + start, sizeof digits - start);
}

static void write_line(const char *words, long number) {
  write_words(2, words, number);
  (void)!write(2, "\n", 1);
}

/* Copies the process, and says whether this is the copy. The process itself waits for its end. */
static int is_copy(void) {
  long at = lseek(0, 0, FROM_HERE);
  int status = 0, copy = fork();
  if (copy == 0) {
    refused = made;
    each = totals = 0;
    return 1;
  }
  if (waitpid(copy, &status, 0) != copy) status = 255 << 8;
  lseek(0, at, FROM_START);
  write_words(1, "request ", made);
  write_words(1, ": status ", status & 127 ? 128 + (status & 127) : status >> 8);
  (void)!write(1, "\n", 1);
  return 0;
}

/* Sees a request, and says whether it is refused. */
static int is_refused(size bytes) {
  if (counts && bytes == SETS_TO_ZERO) counted = 0;
  else if (counts && bytes == WRITES) write_line("", counted);
  else counted++;
  if (++made == refused) return 1;
  return each && (made - 1) % each == 0 && is_copy();
}

__attribute__((constructor)) static void begin(void) {
  refused = number_of(getenv("REFUSE"));
  each = number_of(getenv("REFUSE_EACH"));
  counts = number_of(getenv("COUNT")) != 0;
  totals = number_of(getenv("TOTAL")) != 0;
  leaks = number_of(getenv("LEFT")) != 0;
  made = 0;
  counted = 0;
  held = 0;
}

__attribute__((destructor)) static void end(void) {
  if (totals) write_line("", made);
  if (made < refused) (void)!write(2, "fewer requests\n", 15);
  if (leaks) write_line("blocks left: ", held);
}

/* Counts a block that was given. */
static void *hands_out(void *block) {
  if (block) held++;
  return block;
}

void *malloc(size bytes) {
  static void *(*next)(size);
  if (!next) next = (void *(*)(size))dlsym(NEXT, "malloc");
  return is_refused(bytes) ? 0 : hands_out(next(bytes));
}

/* dlsym itself may ask for memory before the C library's own function is known: it gets this. */
static char early[4096];
static size early_taken;

void *calloc(size count, size bytes) {
  static void *(*next)(size, size);
  static int is_asking;
  if (!next && is_asking) {
    void *block = early + early_taken;
    early_taken += (count * bytes + 15) & ~15ul;
    return early_taken <= sizeof early ? block : 0;
  }
  if (!next) {
    is_asking = 1;
    next = (void *(*)(size, size))dlsym(NEXT, "calloc");
    is_asking = 0;
  }
  return is_refused(count * bytes) ? 0 : hands_out(next(count, bytes));
}

void *realloc(void *block, size bytes) {
  static void *(*next)(void *, size);
  if (!next) next = (void *(*)(void *, size))dlsym(NEXT, "realloc");
  if (is_refused(bytes)) return 0;
  return block ? next(block, bytes) : hands_out(next(block, bytes));
}

void *aligned_alloc(size alignment, size bytes) {
  static void *(*next)(size, size);
  if (!next) next = (void *(*)(size, size))dlsym(NEXT, "aligned_alloc");
  return is_refused(bytes) ? 0 : hands_out(next(alignment, bytes));
}

int posix_memalign(void **block, size alignment, size bytes) {
  static int (*next)(void **, size, size);
  if (!next) next = (int (*)(void **, size, size))dlsym(NEXT, "posix_memalign");
  if (is_refused(bytes)) return OUT_OF_MEMORY;
  int status = next(block, alignment, bytes);
  if (!status) hands_out(*block);
  return status;
}

void free(void *block) {
  static void (*next)(void *);
  if (!next) next = (void (*)(void *))dlsym(NEXT, "free");
  if ((char *)block >= early && (char *)block < early + sizeof early) return;
  if (block) held--;
  next(block);
}
