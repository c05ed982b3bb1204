/* The heap of the page's module: the three functions that the proved program takes memory by, and two for the page. No proof covers
 * them. That program is proved under what they have to do (`rattle/libc/src/heap.rt` of the toolchain):
 *
 * - a block that was handed out has at least the bytes that were asked for, at a multiple of 16, and is nobody else's until it is
 *   given back;
 * - a block that is made larger or smaller keeps its first bytes, and where that fails it is as it was.
 *
 * Blocks have the sizes 32, 48, 64, 96, 128, 192, ..: a power of two, or half as much again. Before each stands the number of its
 * size. Those that were given back wait in a list for each size; where it is empty, one is cut from the end of memory, which grows.
 */
typedef unsigned long size;

// Whether there is memory, as 1 or 0, and the block. A struct of two numbers goes back through memory, as the module takes it.
typedef struct {
  size ok;
  void *p;
} Tried;

typedef struct Head {
  size kind;         // the number of its size
  struct Head *next; // of the same size, given back before
} Head;

enum { KINDS = 80, PAGE = 65536, LEAST_PAGES = 64 };

extern unsigned char __heap_base;

static Head *given_back[KINDS];
static size top;  // where the next block is cut from
static size end;  // the end of memory
static char none; // what the pointer of an answer without memory points to

static size bytes_of(size kind) { return (kind & 1 ? 48UL : 32UL) << (kind >> 1); }

// The least kind that has room for so many bytes, or KINDS.
static size kind_for(size bytes) {
  size kind = 0;
  while (kind < KINDS && bytes_of(kind) < bytes) kind++;
  return kind;
}

// Memory up to `limit`.
static _Bool has_room(size limit) {
  if (limit <= end) return 1;
  size pages = (limit - end + PAGE - 1) / PAGE;
  if (pages < LEAST_PAGES) pages = LEAST_PAGES;
  if (__builtin_wasm_memory_grow(0, pages) == (size)-1) return 0;
  end += pages * PAGE;
  return 1;
}

static Head *cut_block(size kind) {
  if (top == 0) {
    top = ((size)&__heap_base + 15) & ~15UL;
    end = __builtin_wasm_memory_size(0) * PAGE;
  }
  size limit = top + sizeof(Head) + bytes_of(kind);
  if (limit < top || !has_room(limit)) return 0;
  Head *head = (Head *)top;
  top = limit;
  head->kind = kind;
  return head;
}

static void *block_of(size bytes) {
  size kind = kind_for(bytes);
  if (kind == KINDS) return 0;
  Head *head = given_back[kind];
  if (head) given_back[kind] = head->next;
  else head = cut_block(kind);
  return head ? head + 1 : 0;
}

static void give_back(void *block) {
  Head *head = (Head *)block - 1;
  head->next = given_back[head->kind];
  given_back[head->kind] = head;
}

static Tried tried(void *block) {
  Tried answer = {block != 0, block ? block : &none};
  return answer;
}

Tried rattle_alloc(size bytes, size align) {
  (void)align; // it divides 16
  return tried(block_of(bytes));
}

Tried rattle_realloc(void *block, size kept, size bytes, size align) {
  (void)align;
  if (bytes <= bytes_of(((Head *)block - 1)->kind)) return tried(block);
  void *larger = block_of(bytes);
  if (larger) {
    __builtin_memcpy(larger, block, kept);
    give_back(block);
  }
  return tried(larger);
}

void rattle_dealloc(void *block) { give_back(block); }

// For the page: a block of so many bytes, or 0, and its way back.
__attribute__((export_name("take"))) void *take(size bytes) { return block_of(bytes); }

__attribute__((export_name("give"))) void give(void *block) { give_back(block); }
