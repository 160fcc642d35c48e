/* Memory that is refused: refusals CASE.. calls each stored case once for each request for memory that it makes, in one process, and refuses
 * that request. A call ends with its answer whole, where it can do without; else it tells DEX_NO_MEMORY and the length 0, and leaves
 * the room as it was. Either way it gives back every block that it took. Prints 'N passed, M failed'. It is linked with --wrap=malloc,
 * --wrap=realloc and --wrap=free, so that the functions below stand in front of the C library's. */
#include "stored.h"

static long requests, refused, blocks;

void *__real_malloc(size_t size);
void *__real_realloc(void *block, size_t size);
void __real_free(void *block);

void *__wrap_malloc(size_t size) {
  void *block = ++requests == refused ? NULL : __real_malloc(size);
  blocks += block != NULL;
  return block;
}

void *__wrap_realloc(void *block, size_t size) {
  if (++requests == refused) return NULL;
  void *moved = __real_realloc(block, size);
  blocks += block == NULL && moved != NULL;
  return moved;
}

void __wrap_free(void *block) {
  blocks -= block != NULL;
  __real_free(block);
}

/* Calls a case whose request of this number is refused, from 1 on; 0 refuses none. Whether it ended as it should. */
static int ends(const stored_case *it, long number, uint8_t *room) {
  size_t size = 77, whole = it->wanted.size;
  memset(room, MARK, whole);
  requests = blocks = 0;
  refused = number;
  int status = call(it, room, whole, &size);
  refused = 0;
  if (blocks != 0) return 0;
  if (number != 0 && status == DEX_NO_MEMORY) return size == 0 && is_marked(room, whole);
  return status == it->status && size == whole && memcmp(room, it->wanted.bytes, whole) == 0;
}

int main(int count, char **words) {
  long passed = 0, failed = 0;
  for (int at = 1; at < count; at++) {
    stored_case it;
    read_case(&it, words[at]);
    uint8_t *room = malloc(it.wanted.size + 1);
    int holds = ends(&it, 0, room);
    long most = requests;
    if (!holds) printf("%s: where nothing is refused\n", it.name);
    for (long number = 1; holds && number <= most; number++) {
      holds = ends(&it, number, room);
      if (!holds) printf("%s: where request %ld of %ld is refused\n", it.name, number, most);
    }
    passed += holds;
    failed += !holds;
    free(room);
    free(it.input.bytes);
    free(it.wanted.bytes);
  }
  printf("%ld passed, %ld failed\n", passed, failed);
  return failed > 0;
}
