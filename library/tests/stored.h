/* Stored cases of the library's commands: NAME.words, NAME.in, NAME.out and NAME.status, as tests/cases has them. */
#ifndef STORED_H
#define STORED_H

#include "../dex.h"
#include <stdio.h>
#include <string.h>

enum { MARK = 0xa5 };

typedef struct {
  uint8_t *bytes;
  size_t size;
} text;

typedef struct {
  const char *name;
  char command[16];
  unsigned long long numbers[2];
  text input, wanted;
  int status;
} stored_case;

/* A file's bytes; none where it is not there. Each file has a block of just its size, one byte where it is empty. */
static text read_file(const char *name, const char *ending) {
  char path[4096];
  text found = {NULL, 0};
  snprintf(path, sizeof path, "%s%s", name, ending);
  FILE *file = fopen(path, "rb");
  if (file != NULL) {
    fseek(file, 0, SEEK_END);
    found.size = (size_t)ftell(file);
    rewind(file);
  }
  found.bytes = malloc(found.size > 0 ? found.size : 1);
  if (file != NULL) {
    found.size = fread(found.bytes, 1, found.size, file);
    fclose(file);
  }
  return found;
}

static void read_case(stored_case *it, const char *name) {
  text words = read_file(name, ".words"), status = read_file(name, ".status");
  char line[256] = {0};
  memcpy(line, words.bytes, words.size < 255 ? words.size : 255);
  it->name = name;
  sscanf(line, "%15s %llu %llu", it->command, &it->numbers[0], &it->numbers[1]);
  it->input = read_file(name, ".in");
  it->wanted = read_file(name, ".out");
  it->status = status.size > 0 ? status.bytes[0] - '0' : -1;
  free(words.bytes);
  free(status.bytes);
}

/* The command of a case, with this room. */
static int call(const stored_case *it, uint8_t *room, size_t room_size, size_t *size) {
  const uint8_t *bytes = it->input.bytes;
  size_t length = it->input.size;
  if (strcmp(it->command, "replay") == 0) return dex_replay(bytes, length, room, room_size, size);
  if (strcmp(it->command, "dump") == 0) return dex_dump(bytes, length, room, room_size, size);
  if (strcmp(it->command, "audit") == 0) return dex_audit(bytes, length, room, room_size, size);
  if (strcmp(it->command, "worth") == 0) return dex_worth(bytes, length, room, room_size, size);
  if (strcmp(it->command, "migrate") == 0)
    return dex_migrate((uint32_t)it->numbers[0], (uint32_t)it->numbers[1], bytes, length, room, room_size, size);
  if (strcmp(it->command, "make") == 0) return dex_make(it->numbers[0], (uint32_t)it->numbers[1], room, room_size, size);
  if (strcmp(it->command, "bulk") == 0) return dex_bulk(it->numbers[0], (uint32_t)it->numbers[1], room, room_size, size);
  return -1;
}

static int is_marked(const uint8_t *bytes, size_t size) {
  for (size_t at = 0; at < size; at++)
    if (bytes[at] != MARK) return 0;
  return 1;
}

#endif
