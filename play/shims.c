/* What the library's module asks of its surroundings, for a browser: memory from the page's WebAssembly memory, and numbers of 128 bits.
 * None of it is proved. tests/check/play tries it in the very module that the page has, which shows these functions for that. */
typedef __UINT64_TYPE__ uint64_t;
typedef __UINT32_TYPE__ uint32_t;
typedef __UINTPTR_TYPE__ uintptr_t;

/* ---- memory: blocks of some hundred sizes, each behind a head that tells its size, with a list of free blocks for each size */

enum { PAGE = 65536, HEAD = 16, SIZES = 256 };

/* The most bytes that a block may have: what lies above 4 GiB no page can have. */
#define MOST 0xffff0000ull

/* The head of a block: the number of its size, and, while it is free, the next free one. */
struct block {
  uint64_t size_number;
  struct block *next;
};

/* A place, and whether there is one: what the kit's allocator gives. */
struct given {
  uint64_t is_there;
  uint64_t place;
};

extern unsigned char __heap_base;
static struct block *free_blocks[SIZES];
static uint64_t top;

/* The number of the smallest size that has room for so many bytes: four sizes from each power of two to the next, from 64 on, so that all
 * are multiples of 16. */
static uint64_t number_of(uint64_t bytes) {
  uint64_t power, step;
  if (bytes <= 64) return 0;
  power = 63 - (uint64_t)__builtin_clzll(bytes - 1);
  step = (bytes - 1 - (1ull << power)) >> (power - 2);
  return 4 * (power - 6) + step + 1;
}

/* How many bytes the size of a number has, with its head. */
static uint64_t bytes_of(uint64_t number) {
  uint64_t power = 6 + number / 4;
  return (1ull << power) + (number % 4) * (1ull << (power - 2));
}

/* Lets the memory reach up to an end; tells whether it does. Asked for more than there can be, a lowered memory.grow would look at the
 * number's lower half alone, so that is refused here. */
static int reach(uint64_t end) {
  uint64_t pages = __builtin_wasm_memory_size(0), wanted = (end + PAGE - 1) / PAGE;
  uint64_t before;
  if (wanted <= pages) return 1;
  if (end > MOST) return 0;
  before = (uint64_t)__builtin_wasm_memory_grow(0, wanted - pages);
  return before == pages;
}

/* A new block of a size at the top; null where memory is wanting. */
static struct block *new_block(uint64_t number) {
  struct block *block;
  if (top == 0) top = ((uint64_t)(uintptr_t)&__heap_base + HEAD - 1) / HEAD * HEAD;
  if (!reach(top + bytes_of(number))) return 0;
  block = (struct block *)(uintptr_t)top;
  top += bytes_of(number);
  block->size_number = number;
  return block;
}

/* A block with room for so many bytes behind its head; null where memory is wanting. */
static struct block *block_for(uint64_t bytes) {
  uint64_t number;
  struct block *block;
  if (bytes > MOST) return 0;
  number = number_of(bytes + HEAD);
  block = free_blocks[number];
  if (block == 0) return new_block(number);
  free_blocks[number] = block->next;
  return block;
}

static struct given given_of(struct block *block) {
  struct given given = {block != 0, block == 0 ? HEAD : (uint64_t)(uintptr_t)block + HEAD};
  return given;
}

static struct block *block_at(void *place) { return (struct block *)((uintptr_t)place - HEAD); }

struct given rattle_alloc(uint64_t bytes, uint64_t least) { return given_of(block_for(bytes == 0 ? least : bytes)); }

void rattle_dealloc(void *place) {
  struct block *block = block_at(place);
  block->next = free_blocks[block->size_number];
  free_blocks[block->size_number] = block;
}

struct given rattle_realloc(void *place, uint64_t before, uint64_t bytes, uint64_t least) {
  struct block *block = block_at(place), *other;
  uint64_t room = bytes_of(block->size_number) - HEAD, wanted = bytes == 0 ? least : bytes;
  (void)before;
  if (wanted <= room) return given_of(block);
  other = block_for(wanted);
  if (other == 0) return given_of(0);
  __builtin_memcpy((char *)other + HEAD, place, room);
  rattle_dealloc(place);
  return given_of(other);
}

/* Memory for the page's own texts and answers, by the same blocks; 0 where it is wanting. */
uint64_t play_alloc(uint64_t bytes) {
  struct given given = rattle_alloc(bytes, 1);
  return given.is_there ? given.place : 0;
}

uint64_t play_realloc(void *place, uint64_t bytes) {
  struct given given = rattle_realloc(place, 0, bytes, 1);
  return given.is_there ? given.place : 0;
}

void play_free(void *place) { rattle_dealloc(place); }

/* ---- numbers of 128 bits, as compilers call for them: product, shifts, quotient, rest; none may use its own operator */

typedef unsigned __int128 wide;

static uint64_t low_of(wide number) { return (uint64_t)number; }

static uint64_t high_of(wide number) { return (uint64_t)(number >> 64); }

static wide wide_of(uint64_t high, uint64_t low) { return ((wide)high << 64) | low; }

/* The whole product of two numbers of 64 bits, by halves. */
static wide product(uint64_t one, uint64_t other) {
  uint64_t one_low = (uint32_t)one, one_high = one >> 32, other_low = (uint32_t)other, other_high = other >> 32;
  uint64_t low = one_low * other_low, first = one_high * other_low + (low >> 32), second = one_low * other_high + (uint32_t)first;
  return wide_of(one_high * other_high + (first >> 32) + (second >> 32), (second << 32) | (uint32_t)low);
}

wide __multi3(wide one, wide other) {
  return product(low_of(one), low_of(other)) + wide_of(low_of(one) * high_of(other) + high_of(one) * low_of(other), 0);
}

/* A number shifted by 0 to 127 places. */
wide __ashlti3(wide number, int places) {
  uint64_t low = low_of(number), high = high_of(number);
  if (places == 0) return number;
  if (places >= 64) return wide_of(low << (places - 64), 0);
  return wide_of((high << places) | (low >> (64 - places)), low << places);
}

wide __lshrti3(wide number, int places) {
  uint64_t low = low_of(number), high = high_of(number);
  if (places == 0) return number;
  if (places >= 64) return wide_of(0, high >> (places - 64));
  return wide_of(high >> places, (low >> places) | (high << (64 - places)));
}

/* The bit of a number at a place. */
static uint64_t bit_of(wide number, int place) { return (place < 64 ? low_of(number) >> place : high_of(number) >> (place - 64)) & 1; }

/* The quotient and the rest, digit by digit from the first that can be set; of numbers below 2^64 by the machine's own. A divisor is not 0. */
static wide divide(wide number, wide divisor, wide *rest) {
  wide quotient = 0, left = 0;
  int place;
  if (high_of(number) == 0 && high_of(divisor) == 0) {
    *rest = low_of(number) % low_of(divisor);
    return low_of(number) / low_of(divisor);
  }
  for (place = high_of(number) == 0 ? 63 : 127 - __builtin_clzll(high_of(number)); place >= 0; place -= 1) {
    uint64_t carried = high_of(left) >> 63;
    left = left + left + bit_of(number, place);
    quotient += quotient;
    if (carried != 0 || left >= divisor) {
      left -= divisor;
      quotient += 1;
    }
  }
  *rest = left;
  return quotient;
}

wide __udivti3(wide number, wide divisor) {
  wide rest;
  return divide(number, divisor, &rest);
}

wide __umodti3(wide number, wide divisor) {
  wide rest;
  divide(number, divisor, &rest);
  return rest;
}
