/* Where the program begins, in the place of the file Scrt1.o of the C library. Neither proved nor large.
 *
 * A program linked with the start file of glibc 2.34 or later runs with no glibc before 2.34, for the sake of two
 * names. One is __libc_start_main. This file asks for the first version of that name, which every glibc for x86-64
 * has, and does what start files did before 2.34: it hands over `before_main`, which makes the calls that are due
 * before `main`. One of these keeps the words of the command line for the program. The other name is
 * __x86_get_cpuid_feature_leaf, which stands here.
 */
typedef void call(int words, char **word, char **environment);

extern void _init(void);
extern __attribute__((visibility("hidden"))) call *__init_array_start[], *__init_array_end[];

__attribute__((used)) static void before_main(int words, char **word, char **environment)
{
    _init();
    for (call **each = __init_array_start; each != __init_array_end; each++)
        (*each)(words, word, environment);
}

/* What the processor can do, as glibc from 2.33 on tells it, of which `main` asks whether it is of x86-64-v2. A leaf has
 * what the instruction cpuid says, and what of that may be used: here leaf 0 is cpuid's 1, leaf 2 its 0x80000001, each
 * without what also wants the system's leave (AVX, FMA, F16C and the like), and all others are empty. */
struct leaf {
    unsigned said[4], usable[4];
};

static struct leaf asked(unsigned number)
{
    struct leaf leaf = {{0}, {0}};
    unsigned a, most, c, d;
    __asm__("cpuid" : "=a"(most), "=b"(a), "=c"(c), "=d"(d) : "a"(number & 0x80000000u), "c"(0));
    if (number > most)
        return leaf;
    __asm__("cpuid"
            : "=a"(leaf.said[0]), "=b"(leaf.said[1]), "=c"(leaf.said[2]), "=d"(leaf.said[3])
            : "a"(number), "c"(0));
    leaf.usable[2] = leaf.said[2] & ~(1u << 12 | 1u << 26 | 1u << 27 | 1u << 28 | 1u << 29);
    leaf.usable[3] = leaf.said[3];
    return leaf;
}

__attribute__((visibility("hidden"))) const struct leaf *__x86_get_cpuid_feature_leaf(unsigned number)
{
    static struct leaf leaves[3];
    if (number != 0 && number != 2) {
        leaves[1] = (struct leaf){{0}, {0}};
        return &leaves[1];
    }
    leaves[number] = asked(number == 0 ? 1u : 0x80000001u);
    return &leaves[number];
}

/* __libc_start_main(main, words, word, before_main, nothing after main, the linker's end, the stack's end) */
__asm__(".symver __libc_start_main, __libc_start_main@GLIBC_2.2.5\n"
        ".text\n"
        ".globl _start\n"
        ".type _start, @function\n"
        "_start:\n"
        "    endbr64\n"
        "    xorl %ebp, %ebp\n"
        "    movq %rdx, %r9\n"
        "    popq %rsi\n"
        "    movq %rsp, %rdx\n"
        "    andq $-16, %rsp\n"
        "    pushq %rax\n"
        "    pushq %rsp\n"
        "    xorl %r8d, %r8d\n"
        "    leaq before_main(%rip), %rcx\n"
        "    leaq main(%rip), %rdi\n"
        "    call *__libc_start_main@GOTPCREL(%rip)\n"
        "    hlt\n"
        ".size _start, . - _start\n");
