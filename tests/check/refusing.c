/* Put in front of the C library (LD_PRELOAD), this refuses calls of a program by their numbers, from 1, as the environment names them:
 * REFUSED_MEMORY for memory, REFUSED_READ, REFUSED_WRITE, and REFUSED_THREAD for a thread. Of each call that it refuses it writes a letter
 * (m, r, w, t) to the file of descriptor REFUSED_TOLD. It uses no header, so that any C compiler for Linux builds it. */
typedef __SIZE_TYPE__ size;

extern void *__libc_malloc(size bytes);
extern void *__libc_realloc(void *block, size bytes);
extern long __read(int file, void *room, size bytes);
extern long __write(int file, const void *bytes, size length);
extern int *__errno_location(void);
extern char *getenv(const char *name);
extern long strtol(const char *text, char **end, int base);
extern void *dlsym(void *library, const char *name);

enum { EIO = 5, EAGAIN = 11, ENOMEM = 12 };

static long requests, reads, writes, threads;

static long number(const char *name) {
  const char *text = getenv(name);
  return text ? strtol(text, 0, 10) : 0;
}

/* Counts a call; whether it is the one to refuse. */
static int is_refused(const char *name, long *count, const char *letter, int error) {
  long first = number(name);
  if (__atomic_add_fetch(count, 1, __ATOMIC_SEQ_CST) != first) return 0;
  __write((int)number("REFUSED_TOLD"), letter, 1);
  *__errno_location() = error;
  return 1;
}

void *malloc(size bytes) { return is_refused("REFUSED_MEMORY", &requests, "m", ENOMEM) ? 0 : __libc_malloc(bytes); }

void *realloc(void *block, size bytes) {
  return is_refused("REFUSED_MEMORY", &requests, "m", ENOMEM) ? 0 : __libc_realloc(block, bytes);
}

long read(int file, void *room, size bytes) {
  return is_refused("REFUSED_READ", &reads, "r", EIO) ? -1 : __read(file, room, bytes);
}

long write(int file, const void *bytes, size length) {
  return is_refused("REFUSED_WRITE", &writes, "w", EIO) ? -1 : __write(file, bytes, length);
}

int pthread_create(void *thread, const void *attributes, void *(*start)(void *), void *argument) {
  if (is_refused("REFUSED_THREAD", &threads, "t", EAGAIN)) return EAGAIN;
  int (*create)(void *, const void *, void *(*)(void *), void *) =
      (int (*)(void *, const void *, void *(*)(void *), void *))dlsym((void *)-1L, "pthread_create");
  return create(thread, attributes, start, argument);
}
