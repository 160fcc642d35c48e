/* Prints the report of a script on standard input, and ends with the command's status. From the top of the repository:
 *   cc -o replay_c library/examples/replay.c library/out/libdex.a && ./replay_c < examples/two_traders.csv */
#include "../dex.h"
#include <stdio.h>

/* All bytes of standard input, or null where memory is wanting. */
static uint8_t *read_all(size_t *length) {
  size_t room = 65536;
  uint8_t *bytes = malloc(room);
  *length = 0;
  while (bytes != NULL) {
    size_t took = fread(bytes + *length, 1, room - *length, stdin);
    if (took == 0) return bytes;
    *length += took;
    if (*length == room) {
      uint8_t *more = realloc(bytes, room *= 2);
      if (more == NULL) free(bytes);
      bytes = more;
    }
  }
  return NULL;
}

int main(void) {
  size_t length, size;
  uint8_t *script = read_all(&length), *report;
  if (script == NULL) return DEX_NO_MEMORY;
  uint8_t status = dex_text_of(dex_replay, script, length, &report, &size);
  if (report != NULL) fwrite(report, 1, size, stdout);
  free(report);
  free(script);
  return status;
}
