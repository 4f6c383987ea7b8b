// Refuses requests for memory, for tests: a library that a program is started with (LD_PRELOAD), so that its malloc,
// calloc and realloc stand before the C library's. It takes its orders from the size of a request that no machine can
// grant: so a proved program can give them, and has no code of C in it. Without this library such a request is
// refused, and that is all.
//
//   a request of 2^50 + n bytes, n below 2^40    from now on the n-th request is refused, and no other
//   a request of 2^52 bytes                      from now on none is; it is granted where one was since the order
//
// What is granted so has one byte: the program writes nothing to it. With REFUSE=n in the environment the n-th request
// of the program is refused, and with REFUSED=FILE a byte is then added to that file.
//
// It includes no header, so that the toolchain's own clang compiles it, which has none.
typedef __SIZE_TYPE__ size_t;
#define NULL ((void *)0)
#define ENOMEM 12
#define O_WRONLY_O_CREAT_O_APPEND 02101

extern void *__libc_malloc(size_t);
extern void *__libc_calloc(size_t, size_t);
extern void *__libc_realloc(void *, size_t);
extern int *__errno_location(void);
extern char *getenv(const char *);
extern long atol(const char *);
extern int open(const char *, int, ...);
extern long write(int, const void *, size_t);
extern int close(int);

static long left;        // how many requests there are up to the one that is refused; 0: none is
static int was_refused;  // whether one was since the last order

__attribute__((constructor)) static void begin(void) {
  const char *number = getenv("REFUSE");
  if (number) left = atol(number);
}

// Adds a byte to the file that the environment names, if it names one.
static void note(void) {
  const char *name = getenv("REFUSED");
  if (!name) return;
  int file = open(name, O_WRONLY_O_CREAT_O_APPEND, 0600);
  if (file >= 0 && write(file, "!", 1) == 1) close(file);
}

// Whether a request is refused. Threads may ask at once.
static int is_refused(void) {
  long now = __atomic_load_n(&left, __ATOMIC_SEQ_CST);
  while (now > 0 && !__atomic_compare_exchange_n(&left, &now, now - 1, 0, __ATOMIC_SEQ_CST, __ATOMIC_SEQ_CST)) {}
  if (now != 1) return 0;
  __atomic_store_n(&was_refused, 1, __ATOMIC_SEQ_CST);
  note();
  *__errno_location() = ENOMEM;  // the C library's own calls, as that which starts a thread, rest on it
  return 1;
}

// Does what a request of so many bytes orders. No other thread of the program asks meanwhile.
static void *ordered(size_t size) {
  __atomic_store_n(&left, 0, __ATOMIC_SEQ_CST);
  if (size >> 52 && was_refused) return __libc_malloc(1);
  *__errno_location() = ENOMEM;
  if (size >> 52) return NULL;
  was_refused = 0;
  __atomic_store_n(&left, size & ((1L << 40) - 1), __ATOMIC_SEQ_CST);
  return NULL;
}

void *malloc(size_t size) {
  if (size >> 50) return ordered(size);
  return is_refused() ? NULL : __libc_malloc(size);
}

void *calloc(size_t count, size_t size) { return is_refused() ? NULL : __libc_calloc(count, size); }

void *realloc(void *block, size_t size) { return is_refused() ? NULL : __libc_realloc(block, size); }
