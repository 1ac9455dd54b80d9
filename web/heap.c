/* The heap of the program that is compiled for WebAssembly, and the few functions that a machine's
 * libraries would give it. Nothing else is linked to the module of the program.
 *
 * A block has room for a power of two of bytes, at least 16, behind a head of 16 bytes. So each
 * block is aligned to 16. A block that is given back goes on the list of its size, and the next
 * request of that size takes it from there. If the list is empty, the block comes from the end of
 * the heap. If the memory can't grow so far, the request is refused: the program says `memory`. */

typedef unsigned char byte;
typedef unsigned long word;
/* The memory grows by a multiple of 64 pages of 65,536 bytes. */
enum { PAGE = 1 << 16, GROWTH = 64 * PAGE, SMALLEST_SHIFT = 4, LARGEST_SHIFT = 40 };

/* The head of a block, which has room for 1 << shift bytes. */
struct head { word shift; struct head *next; };

/* What the program's calls for memory answer: whether there is memory, and where. */
struct answer { _Bool is_there; byte *at; };

/* The linker's symbol for the first byte behind the program's data and stack. */
extern byte __heap_base;

static struct head *free_blocks[LARGEST_SHIFT + 1];
static word heap_end, memory_end;

/* A build for tests defines this as whether the request is to be refused. */
#ifndef IS_REFUSED
#define IS_REFUSED() 0
#endif

/* Answers whether the memory now has `end` bytes. A lowered memory fails by the low word alone. */
static _Bool reach(word end) {
    if (end <= memory_end) return 1;
    word more = (end - memory_end + GROWTH - 1) / GROWTH * GROWTH;
    if ((unsigned)__builtin_wasm_memory_grow(0, more / PAGE) == ~0u) return 0;
    memory_end += more;
    return 1;
}

/* A block from the end of the heap, or 0. */
static struct head *new_block(word shift) {
    if (heap_end == 0) {
        heap_end = ((word)&__heap_base + 15) & ~15ul;
        memory_end = __builtin_wasm_memory_size(0) * PAGE;
    }
    word end = heap_end + sizeof(struct head) + (1ul << shift);
    if (!reach(end)) return 0;
    struct head *block = (struct head *)heap_end;
    block->shift = shift;
    heap_end = end;
    return block;
}

/* The shift of a block of `size` bytes, or one above the largest. */
static word shift_of(word size) {
    word shift = SMALLEST_SHIFT;
    while (shift <= LARGEST_SHIFT && 1ul << shift < size) shift++;
    return shift;
}

/* A block of this shift, or 0. */
static byte *take(word shift) {
    if (shift > LARGEST_SHIFT) return 0;
    struct head *block = free_blocks[shift];
    if (block) free_blocks[shift] = block->next;
    else block = new_block(shift);
    return block ? (byte *)(block + 1) : 0;
}

static struct answer answer(byte *at) {
    static byte nothing;
    return (struct answer){at != 0, at ? at : &nothing};
}

/* Stands for malloc. No more than an alignment of 16 is asked for. */
struct answer rattle_alloc(word size, word alignment) {
    return answer(IS_REFUSED() ? 0 : take(shift_of(size)));
}

/* Stands for free. */
void rattle_dealloc(byte *at) {
    struct head *block = (struct head *)at - 1;
    block->next = free_blocks[block->shift];
    free_blocks[block->shift] = block;
}

/* Stands for realloc. If it is refused, the block at `at` stays as it was. */
struct answer rattle_realloc(byte *at, word old_size, word size, word alignment) {
    if (IS_REFUSED()) return answer(0);
    word shift = shift_of(size);
    if (((struct head *)at - 1)->shift == shift) return answer(at);
    byte *moved = take(shift);
    if (!moved) return answer(0);
    __builtin_memcpy(moved, at, old_size < size ? old_size : size);
    rattle_dealloc(at);
    return answer(moved);
}

/* A number of 128 bits, which WebAssembly doesn't have. The compiler calls the next four functions
 * with the place of the result first, and with each number as its low and its high word. */
struct wide { word low, high; };

/* Stands for the compiler's shift to the left, by 0 to 127 places. */
void __ashlti3(struct wide *result, word low, word high, int places) {
    if (places >= 64) *result = (struct wide){0, low << (places - 64)};
    else if (places == 0) *result = (struct wide){low, high};
    else *result = (struct wide){low << places, high << places | low >> (64 - places)};
}

/* Stands for the compiler's shift to the right, by 0 to 127 places. */
void __lshrti3(struct wide *result, word low, word high, int places) {
    if (places >= 64) *result = (struct wide){high >> (places - 64), 0};
    else if (places == 0) *result = (struct wide){low, high};
    else *result = (struct wide){low >> places | high << (64 - places), high >> places};
}

/* Stands for the compiler's product, by the four products of the halves of both low words. */
void __multi3(struct wide *result, word low, word high, word by_low, word by_high) {
    word a0 = low & ~0u, a1 = low >> 32, b0 = by_low & ~0u, b1 = by_low >> 32;
    word first = a1 * b0 + (a0 * b0 >> 32), second = a0 * b1 + (first & ~0u);
    word top = a1 * b1 + (first >> 32) + (second >> 32);
    *result = (struct wide){low * by_low, top + high * by_low + low * by_high};
}

/* Stands for the compiler's quotient, bit by bit as on paper: each round shifts the dividend into
 * the rest, which is less than 2^127 before, and a bit of the quotient into the dividend. The
 * program never divides by 0. */
void __udivti3(struct wide *result, word low, word high, word by_low, word by_high) {
    word rest_low = 0, rest_high = 0;
    for (int round = 0; round < 128; round++) {
        rest_high = rest_high << 1 | rest_low >> 63;
        rest_low = rest_low << 1 | high >> 63;
        _Bool is_less = rest_high < by_high || (rest_high == by_high && rest_low < by_low);
        high = high << 1 | low >> 63;
        low <<= 1;
        if (is_less) continue;
        rest_high -= by_high + (rest_low < by_low);
        rest_low -= by_low;
        low |= 1;
    }
    *result = (struct wide){low, high};
}

/* Stands for glibc's table of the processor's features, all present. A proved program asks at its
 * start whether the processor is the one that it was compiled for. Here that is WebAssembly. */
const void *__x86_get_cpuid_feature_leaf(unsigned leaf) {
    static const unsigned features[8] = {~0u, ~0u, ~0u, ~0u, ~0u, ~0u, ~0u, ~0u};
    return features;
}
