/* What a JVM asks of its library `libjimage`, answered by the proved reader of jm_image_c.
 *
 * An image is mapped for reading alone and checked once, when it is opened; a damaged one is told on
 * the standard error and not opened. This file is C and trusted: that it maps a file that nobody
 * changes, and calls the exports as jm_image.h asks. Everything behind an export is proved. */
#include <fcntl.h>
#include <jni.h>
#include <pthread.h>
#include <stdio.h>
#include <stdlib.h>
#include <string.h>
#include <sys/mman.h>
#include <sys/stat.h>
#include <unistd.h>
#include "jm_image.h"

#define SHOWN __attribute__((visibility("default")))

enum { NOT_FOUND = -1, BAD_MAGIC = -2, BAD_VERSION = -3, CORRUPTED = -4 };
enum { LONGEST_NAME = 4096, LONGEST_MODULE = 1024 };

/* A module's name that was handed out, which lives as long as its image. */
struct name {
  struct name *next;
  char text[];
};

/* An open image. */
struct image {
  struct image *next;
  char *path;
  const uint8_t *bytes;
  size_t length;
  unsigned uses;
  struct name *names;
};

static pthread_mutex_t lock = PTHREAD_MUTEX_INITIALIZER; /* of the list, the uses and the names */
static struct image *images;

static const char *const damages[] = {
  "valid", "Short", "Magic", "Version", "Sizes", "Offset", "Row", "Compressed", "Text", "Range",
  "Count", "Overlap", "no memory",
};
static const int numbers[] = {0, 0, 0, 1, 0, 1, 1, 1, 2, 1, 2, 2, 0};

static void tell(const char *path, struct jm_verdict verdict) {
  fprintf(stderr, "%s: %s", path, damages[verdict.kind]);
  if (numbers[verdict.kind] > 0) fprintf(stderr, " %u", verdict.first);
  if (numbers[verdict.kind] > 1) fprintf(stderr, " %u", verdict.second);
  fprintf(stderr, "\n");
}

static jint error_of(uint32_t kind) {
  if (kind == JM_MAGIC) return BAD_MAGIC;
  return kind == JM_VERSION ? BAD_VERSION : CORRUPTED;
}

static struct image *find_image(const char *path) {
  for (struct image *image = images; image != NULL; image = image->next)
    if (strcmp(image->path, path) == 0) return image;
  return NULL;
}

/* The file's bytes, or NULL where there is none or it is empty. */
static const uint8_t *map_file(const char *path, size_t *length) {
  int file = open(path, O_RDONLY | O_CLOEXEC);
  if (file < 0) return NULL;
  struct stat about;
  void *bytes = MAP_FAILED;
  if (fstat(file, &about) == 0 && about.st_size > 0) {
    *length = (size_t)about.st_size;
    bytes = mmap(NULL, *length, PROT_READ, MAP_PRIVATE, file, 0);
  }
  close(file);
  return bytes == MAP_FAILED ? NULL : bytes;
}

static struct image *open_image(const char *path, jint *error) {
  size_t length = 0;
  const uint8_t *bytes = map_file(path, &length);
  if (bytes == NULL) {
    *error = NOT_FOUND;
    return NULL;
  }
  struct jm_verdict verdict = jm_image_check(bytes, length);
  struct image *image = verdict.kind == JM_VALID ? calloc(1, sizeof *image) : NULL;
  char *copy = image != NULL ? strdup(path) : NULL;
  if (copy == NULL) {
    if (verdict.kind == JM_VALID) verdict.kind = JM_NO_MEMORY;
    tell(path, verdict);
    *error = error_of(verdict.kind);
    free(image);
    munmap((void *)bytes, length);
    return NULL;
  }
  *image = (struct image){.next = images, .path = copy, .bytes = bytes, .length = length};
  images = image;
  return image;
}

/* The image at a path, opened once for all that ask for it. */
SHOWN struct image *JIMAGE_Open(const char *path, jint *error) {
  *error = 0;
  pthread_mutex_lock(&lock);
  struct image *image = find_image(path);
  if (image == NULL) image = open_image(path, error);
  if (image != NULL) image->uses++;
  pthread_mutex_unlock(&lock);
  return image;
}

SHOWN void JIMAGE_Close(struct image *image) {
  pthread_mutex_lock(&lock);
  if (--image->uses == 0) {
    struct image **at = &images;
    while (*at != image) at = &(*at)->next;
    *at = image->next;
    for (struct name *name = image->names, *next; name != NULL; name = next) {
      next = name->next;
      free(name);
    }
    munmap((void *)image->bytes, image->length);
    free(image->path);
    free(image);
  }
  pthread_mutex_unlock(&lock);
}

/* The place of the content of /MODULE/NAME, which no content has at 0, or 0. */
SHOWN jlong JIMAGE_FindResource(struct image *image, const char *module, const char *version,
                                const char *name, jlong *size) {
  (void)version;
  uint8_t whole[LONGEST_NAME];
  size_t front = strlen(module), back = strlen(name);
  if (front >= LONGEST_NAME || back >= LONGEST_NAME || front + back + 2 >= LONGEST_NAME) return 0;
  whole[0] = '/';
  memcpy(whole + 1, module, front);
  whole[front + 1] = '/';
  memcpy(whole + front + 2, name, back);
  struct jm_content content = jm_image_find(image->bytes, image->length, whole, front + back + 2);
  if (!content.found) return 0;
  *size = (jlong)content.size;
  return (jlong)content.place;
}

/* Copies a content of which the place and the size were found; its size. */
SHOWN jlong JIMAGE_GetResource(struct image *image, jlong place, char *buffer, jlong size) {
  if (place < 0 || size < 0 || (size_t)place > image->length
      || (size_t)size > image->length - (size_t)place)
    return 0;
  memcpy(buffer, image->bytes + place, (size_t)size);
  return size;
}

/* A module's name as a text that lives as long as the image; NULL where there is no memory. */
static const char *keep_name(struct image *image, const uint8_t *text, size_t length) {
  pthread_mutex_lock(&lock);
  struct name *name = image->names;
  while (name != NULL && (strncmp(name->text, (const char *)text, length) != 0
                          || name->text[length] != 0))
    name = name->next;
  if (name == NULL && (name = malloc(sizeof *name + length + 1)) != NULL) {
    memcpy(name->text, text, length);
    name->text[length] = 0;
    name->next = image->names;
    image->names = name;
  }
  pthread_mutex_unlock(&lock);
  return name == NULL ? NULL : name->text;
}

/* The module that has the package, whose name comes with slashes; NULL where none has it. */
SHOWN const char *JIMAGE_PackageToModule(struct image *image, const char *package) {
  static const char front[] = "/packages/";
  uint8_t path[LONGEST_NAME], module[LONGEST_MODULE];
  size_t start = sizeof front - 1, length = strlen(package);
  if (length > sizeof path - start) return NULL;
  memcpy(path, front, start);
  for (size_t i = 0; i < length; i++)
    path[start + i] = package[i] == '/' ? '.' : (uint8_t)package[i];
  struct jm_owner owner =
      jm_image_owner(image->bytes, image->length, path, start + length, module, sizeof module);
  if (owner.kind != JM_OWNED || owner.number > sizeof module) return NULL;
  return keep_name(image, module, owner.number);
}

typedef bool (*visitor)(struct image *image, const char *module, const char *version,
                        const char *package, const char *name, const char *extension, void *more);

/* Shows each resource, by rising slot, until one is answered by false; no node of the two trees. */
SHOWN void JIMAGE_ResourceIterator(struct image *image, visitor visit, void *more) {
  struct jm_totals totals = jm_image_totals(image->bytes, image->length);
  const char *bytes = (const char *)image->bytes;
  for (uint32_t slot = 0; slot < totals.slots; slot++) {
    struct jm_entry entry = jm_image_entry(image->bytes, image->length, slot);
    if (!entry.found) continue;
    const char *module = bytes + entry.module;
    if (*module == 0 || strcmp(module, "modules") == 0 || strcmp(module, "packages") == 0) continue;
    if (!visit(image, module, "9", bytes + entry.parent, bytes + entry.base, bytes + entry.ext, more))
      return;
  }
}

/* The bytes of an open image for the JVM's own reader in Java, or null. */
SHOWN jobject JNICALL Java_jdk_internal_jimage_NativeImageBuffer_getNativeMap(JNIEnv *env,
                                                                              jclass class,
                                                                              jstring text) {
  (void)class;
  const char *path = (*env)->GetStringUTFChars(env, text, NULL);
  if (path == NULL) return NULL;
  pthread_mutex_lock(&lock);
  struct image *image = find_image(path);
  pthread_mutex_unlock(&lock);
  (*env)->ReleaseStringUTFChars(env, text, path);
  if (image == NULL) return NULL;
  return (*env)->NewDirectByteBuffer(env, (void *)image->bytes, (jlong)image->length);
}
