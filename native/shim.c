/* What the texts of this folder ask of a machine beside its C library: memory, errors, and the program's words. None of it is proved.
 * The library's text takes the first four functions, the program's all. */
#include <errno.h>
#include <stddef.h>
#include <stdint.h>
#include <stdlib.h>

/* Whether there is a place, and the place: what the texts are given. */
struct given {
  uint64_t is_there;
  void *place;
};

static struct given given_of(void *place) {
  static uint64_t nothing[2];
  struct given given = {place != NULL, place == NULL ? nothing : place};
  return given;
}

struct given rattle_alloc(size_t size, size_t align) { return given_of(malloc(size == 0 ? align : size)); }

struct given rattle_realloc(void *place, size_t before, size_t size, size_t align) {
  (void)before;
  return given_of(realloc(place, size == 0 ? align : size));
}

void rattle_dealloc(void *place) { free(place); }

int32_t rattle_errno(void) { return errno; }

#ifdef PROGRAM
static int word_count;
static char **words;

/* glibc hands a constructor what it hands main. */
__attribute__((constructor)) static void keep_words(int count, char **all) {
  word_count = count;
  words = all;
}

void rattle_set_errno(int32_t error) { errno = error; }

size_t rattle_arg_count(void) { return (size_t)word_count; }

/* Puts a word into the room and gives its length: -1 where there is no such word, -2 where it does not fit, and then the room is full. */
ptrdiff_t rattle_arg(size_t number, uint8_t *room, size_t room_size) {
  const char *word;
  size_t at;
  if (number >= (size_t)word_count) return -1;
  word = words[number];
  for (at = 0; word[at] != '\0'; at += 1) {
    if (at == room_size) return -2;
    room[at] = (uint8_t)word[at];
  }
  return (ptrdiff_t)at;
}
#endif
