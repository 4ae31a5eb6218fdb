/*
 * What a program without a C library needs of Linux on each machine: where it starts, with its stack in an array of its own, and system
 * calls of three arguments. Trusted here: the numbers of the system calls, and the registers that they go by.
 */
#ifndef START_H
#define START_H

#define TEXT(x) #x
#define TEXT_OF(x) TEXT(x)
#define STACK_TOP "stack + " TEXT_OF(STACK_BYTES)

#if defined(__x86_64__)

enum { SYSTEM_READ = 0, SYSTEM_WRITE = 1, SYSTEM_EXIT = 60, SYSTEM_CLOCK = 228 };
#define STACK_POINTER "movq %%rsp, %0"

__asm__(".globl _start\n"
        "_start:\n"
        "    leaq " STACK_TOP "(%rip), %rsp\n"
        "    call run\n");

static long system_call(long number, long a, long b, long c) {
    long given;
    __asm__ volatile("syscall" : "=a"(given) : "a"(number), "D"(a), "S"(b), "d"(c) : "rcx", "r11", "memory");
    return given;
}

#elif defined(__aarch64__)

enum { SYSTEM_READ = 63, SYSTEM_WRITE = 64, SYSTEM_EXIT = 93, SYSTEM_CLOCK = 113 };
#define STACK_POINTER "mov %0, sp"

__asm__(".globl _start\n"
        "_start:\n"
        "    adrp x0, " STACK_TOP "\n"
        "    add x0, x0, :lo12:" STACK_TOP "\n"
        "    mov sp, x0\n"
        "    bl run\n");

static long system_call(long number, long a, long b, long c) {
    register long x8 __asm__("x8") = number;
    register long x0 __asm__("x0") = a;
    register long x1 __asm__("x1") = b;
    register long x2 __asm__("x2") = c;
    __asm__ volatile("svc 0" : "+r"(x0) : "r"(x8), "r"(x1), "r"(x2) : "memory");
    return x0;
}

#elif defined(__riscv)

enum { SYSTEM_READ = 63, SYSTEM_WRITE = 64, SYSTEM_EXIT = 93, SYSTEM_CLOCK = 113 };
#define STACK_POINTER "mv %0, sp"

__asm__(".globl _start\n"
        "_start:\n"
        "    lla sp, " STACK_TOP "\n"
        "    call run\n");

static long system_call(long number, long a, long b, long c) {
    register long a7 __asm__("a7") = number;
    register long a0 __asm__("a0") = a;
    register long a1 __asm__("a1") = b;
    register long a2 __asm__("a2") = c;
    __asm__ volatile("ecall" : "+r"(a0) : "r"(a7), "r"(a1), "r"(a2) : "memory");
    return a0;
}

#elif defined(__arm__)

enum { SYSTEM_READ = 3, SYSTEM_WRITE = 4, SYSTEM_EXIT = 1, SYSTEM_CLOCK = 263 };
#define STACK_POINTER "mov %0, sp"

__asm__(".globl _start\n"
        "_start:\n"
        "    ldr sp, 1f\n"
        "    bl run\n"
        "1:  .word " STACK_TOP "\n");

static long system_call(long number, long a, long b, long c) {
    register long r7 __asm__("r7") = number;
    register long r0 __asm__("r0") = a;
    register long r1 __asm__("r1") = b;
    register long r2 __asm__("r2") = c;
    __asm__ volatile("svc 0" : "+r"(r0) : "r"(r7), "r"(r1), "r"(r2) : "memory");
    return r0;
}

#elif defined(__mips__)

enum { SYSTEM_READ = 4003, SYSTEM_WRITE = 4004, SYSTEM_EXIT = 4001, SYSTEM_CLOCK = 4263 };
#define STACK_POINTER "move %0, $29"

/* A function is called through register 25, from where it finds its globals; it may use 16 bytes above its stack. */
__asm__(".globl __start\n"
        ".globl _start\n"
        ".set push\n"
        ".set noreorder\n"
        "__start:\n"
        "_start:\n"
        "    lui $29, %hi(" STACK_TOP ")\n"
        "    addiu $29, $29, %lo(" STACK_TOP ")\n"
        "    addiu $29, $29, -16\n"
        "    lui $25, %hi(run)\n"
        "    addiu $25, $25, %lo(run)\n"
        "    jalr $25\n"
        "    nop\n"
        ".set pop\n");

static long system_call(long number, long a, long b, long c) {
    register long v0 __asm__("$2") = number;
    register long a0 __asm__("$4") = a;
    register long a1 __asm__("$5") = b;
    register long a2 __asm__("$6") = c;
    register long a3 __asm__("$7");
    __asm__ volatile("syscall"
                     : "+r"(v0), "=r"(a3)
                     : "r"(a0), "r"(a1), "r"(a2)
                     : "$1", "$3", "$8", "$9", "$10", "$11", "$12", "$13", "$14", "$15", "$24", "$25", "memory");
    return a3 == 0 ? v0 : -1;
}

#else
#error "the runner does not know this machine"
#endif

/* Where the stack of the function that asks ends. */
__attribute__((always_inline)) static inline uint8_t *stack_pointer(void) {
    uint8_t *here;
    __asm__ volatile(STACK_POINTER : "=r"(here));
    return here;
}

#endif
