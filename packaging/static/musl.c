/*
 * What the program calls of the C library of GNU and musl 1.2 doesn't have, for the program that is
 * linked statically (tools/static_program.sh). It needs no header.
 */

typedef unsigned long size_t;
typedef long ssize_t;
typedef void (*start)(int count, char **words, char **more);

extern long syscall(long number, ...);
extern ssize_t write(int file, const void *bytes, size_t length);
extern start __init_array_start[], __init_array_end[];
extern int __real_main(int count, char **words, char **more);

#define SYS_STATX 332

/* Asks the kernel for the status of a file, as musl does from release 1.2.5 on. */
int statx(int folder, const char *path, int flags, unsigned mask, void *found) {
    return (int)syscall(SYS_STATX, folder, path, flags, mask, found);
}

ssize_t __write(int file, const void *bytes, size_t length) { return write(file, bytes, length); }

/* The registers a, b, c and d of a leaf of `cpuid`, and which of their bits a program may use. */
struct leaf {
    unsigned told[4];
    unsigned active[4];
};

/*
 * Returns what the processor has, for the leaves that the program asks for at its start: 0 is leaf
 * 1 of `cpuid`, and 2 is leaf 0x80000001. Of the bits that it looks at, those of c, a program may
 * use each that the processor tells. Of other leaves nothing is told.
 */
const struct leaf *__x86_get_cpuid_feature_leaf(unsigned number) {
    static const unsigned leaves[3] = {1, 0, 0x80000001u};
    static struct leaf found[3];
    static const struct leaf none;
    if (number != 0 && number != 2)
        return &none;
    struct leaf *here = &found[number];
    __asm__("cpuid"
            : "=a"(here->told[0]), "=b"(here->told[1]), "=c"(here->told[2]), "=d"(here->told[3])
            : "a"(leaves[number]), "c"(0));
    here->active[2] = here->told[2];
    return here;
}

/*
 * Runs the program. The C library of GNU gives the functions that run before `main` the words of the
 * command, and the kit's keeps them. musl has run it without, so it is run once more.
 */
int __wrap_main(int count, char **words, char **more) {
    for (start *one = __init_array_start; one < __init_array_end; one++)
        (*one)(count, words, more);
    return __real_main(count, words, more);
}
