/* Times the look-ups of a libjimage, the JDK's or another: `lookups LIBRARY IMAGE THREADS`.
 *
 * Puts the nanoseconds of opening, and of a look-up in one process that is warm: all resources in
 * random order, and as many names that are not there. Each thread looks up all of them. The times
 * are of a processor, the least of some rounds, so that other work on the machine shows least. The
 * names lie in pages of their own, so that no library's use of the heap moves them apart. */
#include <dlfcn.h>
#include <pthread.h>
#include <stdbool.h>
#include <stdint.h>
#include <stdio.h>
#include <stdlib.h>
#include <string.h>
#include <sys/mman.h>
#include <time.h>

enum { ROUNDS = 9, MOST_THREADS = 64, PAGES = 1 << 20 };

struct asked { char *module, *there, *absent; };
static struct asked *names;
static size_t count, room;
static void *image;
static int64_t (*find)(void *, const char *, const char *, const char *, int64_t *);

static double now(void) {
  struct timespec time;
  clock_gettime(CLOCK_THREAD_CPUTIME_ID, &time);
  return 1e9 * (double)time.tv_sec + (double)time.tv_nsec;
}

static char *kept(const char *text) {
  static char *page, *end;
  size_t size = strlen(text) + 1;
  if (page == NULL || (size_t)(end - page) < size) {
    page = mmap(NULL, PAGES, PROT_READ | PROT_WRITE, MAP_PRIVATE | MAP_ANONYMOUS, -1, 0);
    if (page == MAP_FAILED) exit(7);
    end = page + PAGES;
  }
  char *place = page;
  page += size;
  return memcpy(place, text, size);
}

static bool take(void *from, const char *module, const char *version, const char *package,
                 const char *name, const char *extension, void *more) {
  (void)from, (void)version, (void)more;
  if (count == room) names = realloc(names, (room = 2 * room + 1024) * sizeof *names);
  char text[8192];
  const char *slash = *package ? "/" : "", *dot = *extension ? "." : "";
  snprintf(text, sizeof text, "%s%s%s%s%s", package, slash, name, dot, extension);
  struct asked *asked = &names[count++];
  asked->module = kept(module);
  asked->there = kept(text);
  snprintf(text, sizeof text, "%s%s%s-%s%s", package, slash, name, dot, extension);
  asked->absent = kept(text);
  return true;
}

static void *look(void *absent) {
  for (size_t i = 0; i < count; i++) {
    int64_t size = 0;
    const char *name = absent ? names[i].absent : names[i].there;
    bool found = find(image, names[i].module, "9", name, &size) != 0;
    if (found == (absent != NULL)) {
      fprintf(stderr, "lookups: %s/%s: wrong answer\n", names[i].module, name);
      exit(1);
    }
  }
  return NULL;
}

/* The least time of some rounds for one look-up of the first of so many threads. */
static double timed(int threads, void *absent) {
  double least = 1e300;
  for (int round = 0; round < ROUNDS; round++) {
    pthread_t others[MOST_THREADS];
    double start = now();
    for (int i = 1; i < threads; i++) pthread_create(&others[i], NULL, look, absent);
    look(absent);
    double time = (now() - start) / (double)count;
    for (int i = 1; i < threads; i++) pthread_join(others[i], NULL);
    if (time < least) least = time;
  }
  return least;
}

int main(int words, char **word) {
  if (words != 4) return 2;
  void *library = dlopen(word[1], RTLD_NOW);
  if (library == NULL) return fprintf(stderr, "lookups: %s\n", dlerror()), 1;
  void *(*open)(const char *, int32_t *) = (void *(*)(const char *, int32_t *))dlsym(library, "JIMAGE_Open");
  void (*all)(void *, bool (*)(), void *) =
      (void (*)(void *, bool (*)(), void *))dlsym(library, "JIMAGE_ResourceIterator");
  find = (int64_t (*)(void *, const char *, const char *, const char *, int64_t *))dlsym(
      library, "JIMAGE_FindResource");
  int32_t error = 0;
  double start = now();
  image = open(word[2], &error);
  double opening = now() - start;
  if (image == NULL) return fprintf(stderr, "lookups: not opened, %d\n", error), 1;
  all(image, (bool (*)())take, NULL);
  srand(1);
  for (size_t i = count - 1; i > 0; i--) {
    size_t j = (size_t)rand() % (i + 1);
    struct asked other = names[i];
    names[i] = names[j], names[j] = other;
  }
  int threads = atoi(word[3]);
  printf("%zu %.0f %.1f %.1f\n", count, opening, timed(threads, NULL), timed(threads, &count));
  return 0;
}
