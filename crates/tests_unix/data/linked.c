/* A program with every kind of part that a linker makes: text, constants, data, zeros and a note. It looks at what its parts
   hold, says so on the console, and exits with 42. */
typedef unsigned int word;

__asm__(".section .note.told, \"a\", @note\n"
        ".word 5, 4, 1\n"
        ".ascii \"told\\0\\0\\0\\0\"\n"
        ".word 7\n"
        ".text\n"
        ".globl _start\n"
        "_start:\n"
        ".option push\n"
        ".option norelax\n"
        "la gp, __global_pointer$\n"
        ".option pop\n"
        "call check\n"
        "li a7, 1\n"
        "ecall\n");

static const char right[] = "all parts are there\n";
static const char wrong[] = "a part is missing\n";
static const word constants[2000] = { 1, [1999] = 77 };
static word numbers[1500] = { 5, [1499] = 66 };
static word zeros[50000];

static word call(word number, word first, word second, word third)
{
    register word a0 __asm__("a0") = first;
    register word a1 __asm__("a1") = second;
    register word a2 __asm__("a2") = third;
    register word a7 __asm__("a7") = number;
    __asm__ volatile("ecall" : "+r"(a0) : "r"(a1), "r"(a2), "r"(a7) : "memory");
    return a0;
}

word check(void)
{
    volatile const word *from = constants;
    volatile word *to = numbers;
    volatile word *zero = zeros;
    word sum = from[0] + from[1999] + to[0] + to[1499];
    for (word n = 0; n < 50000; n += 100)
        sum += zero[n];
    to[7] = 1;
    zero[49999] = 1;
    if (sum != 149 || to[7] != 1 || zero[49999] != 1) {
        call(12, 1, (word)wrong, sizeof wrong - 1);
        return 1;
    }
    call(12, 1, (word)right, sizeof right - 1);
    return 42;
}
