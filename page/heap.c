// The heap of the page's module, in place of the C library's, and the room that the page lends. Nothing here is proved; tests/page tries it.
//
// A block's size is a power of two of at least 32 bytes. Its first 16 bytes hold the exponent. A block that is given back goes to the list
// of its size. A new block is cut from the end of the memory, which grows by 1 MiB or more.
typedef unsigned long word;

// What the proved code reads of an allocation: whether there is memory, and its address.
struct tried {
  word ok;
  word at;
};

enum { HEAD = 16, LEAST = 5, SIZES = 48, PAGE = 65536, STEP = 16 * PAGE, MOST_PAGES = 32768 };

static word given_back[SIZES];
static word next, end;

#ifdef FAILING
// For tests: the allocation of this number, counted from 1, and each later one fails. 0 lets all succeed.
static word failing, count;

void fail_from(word number) {
  failing = number;
  count = 0;
}

static int fails(void) {
  count++;
  return failing && count >= failing;
}
#endif

static word exponent_of(word size) {
  word exponent = LEAST;
  while (((word)1 << exponent) < size) exponent++;
  return exponent;
}

// Returns an address with `size` free bytes, or 0.
static word cut(word size) {
  if (end - next < size) {
    word pages = (size + STEP - 1) / STEP * (STEP / PAGE);
    // At most 2 GiB, so each address fits 32 bits.
    if (__builtin_wasm_memory_size(0) + pages > MOST_PAGES) return 0;
    word at = __builtin_wasm_memory_grow(0, pages);
    // If memory doesn't grow, a module lowered to 32 bits returns 2^32 - 1.
    if (at >= MOST_PAGES) return 0;
    if (at * PAGE != end) next = at * PAGE;
    end = (at + pages) * PAGE;
  }
  word block = next;
  next += size;
  return block;
}

// Returns the address of `size` bytes, or 0.
static word taken(word size) {
  if (size > ((word)1 << (SIZES - 2))) return 0;
  word exponent = exponent_of(size + HEAD);
  word block = given_back[exponent];
  if (block) {
    given_back[exponent] = *(word *)(block + HEAD);
  } else {
    block = cut((word)1 << exponent);
    if (!block) return 0;
    *(word *)block = exponent;
  }
  return block + HEAD;
}

static void give_back(word at) {
  word block = at - HEAD;
  word exponent = *(word *)block;
  *(word *)at = given_back[exponent];
  given_back[exponent] = block;
}

static struct tried answer(word at) {
  // Without memory the address is any but 0.
  return at ? (struct tried){1, at} : (struct tried){0, HEAD};
}

struct tried rattle_alloc(word size, word align) {
  // A block is aligned to 16, and the proved code asks for no more.
  if (align > HEAD) return answer(0);
#ifdef FAILING
  if (fails()) return answer(0);
#endif
  return answer(taken(size));
}

struct tried rattle_realloc(word old, word kept, word size, word align) {
  if (align > HEAD) return answer(0);
#ifdef FAILING
  if (fails()) return answer(0);
#endif
  word room = ((word)1 << *(word *)(old - HEAD)) - HEAD;
  if (size <= room) return answer(old);
  word at = taken(size);
  if (at) {
    __builtin_memcpy((void *)at, (void *)old, kept);
    give_back(old);
  }
  return answer(at);
}

void rattle_dealloc(word at) {
  give_back(at);
}

// Returns the address of `size` bytes for the page, or 0.
word lend(word size) {
  return taken(size);
}
