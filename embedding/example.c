/* Checks an image, and puts the content of each entry that is named: `example IMAGE NAME..`. */
#include <fcntl.h>
#include <stdio.h>
#include <string.h>
#include <sys/mman.h>
#include <sys/stat.h>
#include <unistd.h>
#include "jm_image.h"

int main(int count, char **words) {
  if (count < 2) {
    fprintf(stderr, "usage: example IMAGE NAME..\n");
    return 2;
  }
  int file = open(words[1], O_RDONLY);
  struct stat about;
  if (file < 0 || fstat(file, &about) != 0 || about.st_size == 0) {
    fprintf(stderr, "%s: not there, or empty\n", words[1]);
    return 5;
  }
  size_t length = (size_t)about.st_size;
  const uint8_t *bytes = mmap(NULL, length, PROT_READ, MAP_PRIVATE, file, 0);
  if (bytes == MAP_FAILED) return 7;
  struct jm_verdict verdict = jm_image_check(bytes, length);
  if (verdict.kind != JM_VALID) {
    fprintf(stderr, "%s: damage %u %u %u\n", words[1], verdict.kind, verdict.first, verdict.second);
    return 4;
  }
  struct jm_totals totals = jm_image_totals(bytes, length);
  fprintf(stderr, "%u entries in %u slots\n", totals.entries, totals.slots);
  for (int i = 2; i < count; i++) {
    const uint8_t *name = (const uint8_t *)words[i];
    struct jm_content content = jm_image_find(bytes, length, name, strlen(words[i]));
    if (!content.found) {
      fprintf(stderr, "%s: not there\n", words[i]);
      return 5;
    }
    fwrite(bytes + content.place, 1, content.size, stdout);
  }
  return 0;
}
