/* The functions of web/heap.c in a form that a test can call: with words alone, and no structs. */

#ifndef HEAP
#define HEAP "../heap.c"
#endif
#include HEAP

static struct wide result;

/* A block of `size` bytes, or 0 if it is refused. */
byte *test_alloc(word size) {
    struct answer made = rattle_alloc(size, 16);
    return made.is_there ? made.at : 0;
}

/* The block at `at` with `size` bytes, or 0 if that is refused. */
byte *test_realloc(byte *at, word old_size, word size) {
    struct answer made = rattle_realloc(at, old_size, size, 16);
    return made.is_there ? made.at : 0;
}

void test_free(byte *at) { rattle_dealloc(at); }

/* Each of these keeps a result of 128 bits, of which the last two give the words. */
void test_shift_left(word high, word low, int places) { __ashlti3(&result, low, high, places); }
void test_shift_right(word high, word low, int places) { __lshrti3(&result, low, high, places); }
void test_multiply(word high, word low, word by_high, word by_low) {
    __multi3(&result, low, high, by_low, by_high);
}
void test_divide(word high, word low, word by_high, word by_low) {
    __udivti3(&result, low, high, by_low, by_high);
}
word test_high(void) { return result.high; }
word test_low(void) { return result.low; }

/* The same by the operators of C, for which the compiler calls the functions above. */
typedef unsigned __int128 operand;
static operand number(word high, word low) { return (operand)high << 64 | low; }
static void keep(operand value) { result = (struct wide){(word)value, (word)(value >> 64)}; }
void test_c_shift_left(word high, word low, int places) { keep(number(high, low) << places); }
void test_c_shift_right(word high, word low, int places) { keep(number(high, low) >> places); }
void test_c_multiply(word high, word low, word by_high, word by_low) {
    keep(number(high, low) * number(by_high, by_low));
}
void test_c_divide(word high, word low, word by_high, word by_low) {
    keep(number(high, low) / number(by_high, by_low));
}
