/* The proved reader of jimage files (version 1.0, uncompressed) as a static library: jm_image_c.
 *
 * Each call says what it promises, which is proved, and what it asks of its caller, which nothing
 * checks. Bytes come as a pointer and a length; a pointer is not null, not even for no byte, and
 * the bytes stay as they are while the call runs. Places count bytes from the front of the image.
 * Names and paths are taken byte for byte, as the image has them: in Modified UTF-8.
 *
 * VALID stands for: jm_image_check gave the kind JM_VALID for exactly these bytes, and they were
 * not changed since. Calls that ask for it take no memory and change nothing but their answer, so
 * any number of threads may make them at one time. */
#ifndef JM_IMAGE_H
#define JM_IMAGE_H
#include <stdbool.h>
#include <stddef.h>
#include <stdint.h>

/* What a check found. The first damage stands for all: a slot's comes before those of later slots. */
enum {
  JM_VALID = 0,
  JM_SHORT = 1,      /* fewer than 28 bytes */
  JM_MAGIC = 2,      /* the first word is the magic in neither byte order */
  JM_VERSION = 3,    /* first: the version word */
  JM_SIZES = 4,      /* the index ends behind the end of the file */
  JM_OFFSET = 5,     /* first: a slot whose offset lies outside the locations */
  JM_ROW = 6,        /* first: a slot at whose offset no row is spelled */
  JM_COMPRESSED = 7, /* first: a slot whose content is compressed */
  JM_TEXT = 8,       /* first: a slot; second: its text that doesn't end in the strings: 1 module,
                        2 parent, 3 base, 4 extension */
  JM_RANGE = 9,      /* first: a slot whose content reaches past the end of the file */
  JM_COUNT = 10,     /* first: the entries that the header states; second: those found */
  JM_OVERLAP = 11,   /* first: the least slot whose content shares a byte with another's; second:
                        the least of those others */
  JM_NO_MEMORY = 12  /* no memory was found; it says nothing of the bytes */
};
struct jm_verdict { uint32_t kind, first, second; };

/* Promises: JM_VALID only for a valid image; a damage only where it is the first one; each of first
 * and second that the kind above doesn't name is 0.
 * Asks: malloc, realloc and free of one allocator, aligned to 16; not to be called in a signal
 * handler, nor in the forked child of a process with threads. */
struct jm_verdict jm_image_check(const uint8_t *bytes, size_t length);

/* Where a content stands. Promises: place + size is at most the image's length. */
struct jm_content { uint64_t place, size; bool found; };

/* Promises: found exactly where an entry has the name, such as /java.base/java/lang/Object.class,
 * and then its content are the size bytes from place on; else place and size are 0.
 * Asks: VALID.
 * What the call costs is no promise of its own. It makes one call of find_row (jm_reader), which is
 * proved to take at most 2 hashes and to read at most as many bytes as the name has and 76 more. */
struct jm_content jm_image_find(const uint8_t *bytes, size_t length,
                                const uint8_t *name, size_t name_length);

/* What stands at a path of the trees /modules and /packages. */
enum { JM_NOTHING = 0, JM_FOLDER = 1, JM_FILE = 2, JM_LINK = 3, JM_BAD_NODE = 4 };
struct jm_standing {
  uint32_t kind;
  uint64_t number; /* children of the folder; bytes of the file; bytes of the module's name, which
                      ends the link's path; place of the bad word in the node's content; else 0 */
};

/* Promises: what stands there. A file's content is had by jm_image_find of the path without its
 * front /modules. Asks: VALID. */
struct jm_standing jm_image_stat(const uint8_t *bytes, size_t length,
                                 const uint8_t *path, size_t path_length);

/* The module that has a package. */
enum { JM_OWNED = 1, JM_EMPTY = 2 };
struct jm_owner {
  uint32_t kind;   /* JM_NOTHING, JM_OWNED, JM_EMPTY (it is empty for all) or JM_BAD_NODE */
  uint64_t number; /* bytes of the owner's name; place of the bad word; else 0 */
};

/* Promises: the first owner, of the package at a path such as /packages/java.lang, for which it
 * isn't empty. As much of its name as there is room for is put into the front of the room, with no
 * zero byte; the rest of the room stays, all of it where the kind isn't JM_OWNED.
 * Asks: VALID, and room bytes at name that nobody else uses. */
struct jm_owner jm_image_owner(const uint8_t *bytes, size_t length,
                               const uint8_t *path, size_t path_length,
                               uint8_t *name, size_t room);

struct jm_totals { uint32_t entries, slots; };

/* Promises: the number of entries, and that of the slots, each of which holds one or none.
 * Asks: VALID. */
struct jm_totals jm_image_totals(const uint8_t *bytes, size_t length);

/* Where the four texts of an entry's name and its content stand; each text ends at a zero byte. */
struct jm_entry { uint64_t module, parent, base, ext, place, size; bool found; };

/* Promises: the entry that the slot holds; found is false, and all else 0, exactly where it holds
 * none or there is no such slot. Asks: VALID. */
struct jm_entry jm_image_entry(const uint8_t *bytes, size_t length, uint32_t slot);

#endif
