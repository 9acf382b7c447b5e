// Refuses one request for memory: preloaded, it answers that of number REFUSED with nothing. At the
// end it writes how many requests there were to the file REQUESTS.
#define _GNU_SOURCE
#include <stdio.h>
#include <stdlib.h>
#include <sys/syscall.h>
#include <unistd.h>

extern void *__libc_malloc(size_t);
extern void *__libc_calloc(size_t, size_t);
extern void *__libc_realloc(void *, size_t);

static long requests, refused;

static int is_refused(void) { return __atomic_add_fetch(&requests, 1, __ATOMIC_SEQ_CST) == refused; }

void *malloc(size_t size) { return is_refused() ? NULL : __libc_malloc(size); }
void *calloc(size_t count, size_t size) { return is_refused() ? NULL : __libc_calloc(count, size); }
void *realloc(void *old, size_t size) { return is_refused() ? NULL : __libc_realloc(old, size); }

__attribute__((constructor)) static void begin(void) {
  const char *number = getenv("REFUSED");
  if (number) refused = atol(number);
  requests = 0;
}

// The program ends by this call, so no destructor is run.
void _exit(int status) {
  long made = requests;
  const char *path = getenv("REQUESTS");
  refused = 0;
  FILE *file = path ? fopen(path, "w") : NULL;
  if (file) {
    fprintf(file, "%ld\n", made);
    fclose(file);
  }
  for (;;) syscall(SYS_exit_group, status);
}
