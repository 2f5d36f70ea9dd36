/*
 * How deep a call uses the stack. The stack below it is painted, and behind it the lowest byte is looked for that is no paint any more.
 *
 * tests/run writes stack_figures.h from the table of bench/stack, with a line FIGURE(name, bytes) for each function of include/ujamniq.h, and has the linker
 * lead every call of such a function to __wrap_NAME, which stands here; the function itself is __real_NAME then. So the calls in the headers of the other
 * tests are measured as they are.
 *
 * Seen is what a call writes. A byte that it only reads or keeps free is not, and neither is one deeper than the paint, with nothing written in between.
 */
#ifndef PAINTED_H
#define PAINTED_H

#include "guarded.h"

/* The bytes below a call that are painted, and the paint of each. The next call of the same function has the other paint, with every bit turned. */
#define PAINTED 4096
#define PAINT 0xA5

/* A function, its figure, and how deep its last call and its deepest call went; all from the stack pointer before the call, so that the return address is
 * in them. */
typedef struct function {
    uint64_t paint; /* of eight bytes below its next call; it stands first, where `measured` looks for it */
    const char *name, *fault;
    size_t figure, last, deepest;
} function;

/* Takes the depth of a call from `measured`. A byte that was written with the paint's own value shows under the other paint: the headers make each call
 * once for each place of guarded.h, and so under both. */
void note(function *f, size_t depth) __attribute__((used));
void note(function *f, size_t depth)
{
    count_check(depth <= f->figure, __LINE__, f->fault);
    f->last = depth;
    f->deepest = depth > f->deepest ? depth : f->deepest;
    f->paint = ~f->paint;
}

#define TEXT(x) #x
#define TEXT_OF(x) TEXT(x)

/*
 * A call on its way to the function in %rax, whose record is in %r11. The return address is put aside, so that the stack pointer is where it was before the
 * call. Then the stack below it is painted, and the function is called from here: with its arguments where it looks for them, in registers and on the
 * stack, and with nothing of ours below them. Behind the call the paint is looked at before anything else is put on the stack. What the function gave back
 * goes on to the caller.
 */
__asm__(".pushsection .bss\n"
        ".balign 8\n"
        "measured_caller: .zero 8\n"
        "measured_function: .zero 8\n"
        "measured_record: .zero 8\n"
        "measured_result: .zero 16\n"
        ".popsection\n"
        ".pushsection .text\n"
        "measured:\n"
        "    popq  measured_caller(%rip)\n"
        "    movq  %rax, measured_function(%rip)\n"
        "    movq  %r11, measured_record(%rip)\n"
        /* Paint, eight bytes at a time. %rdi and %rcx are arguments, and come back. */
        "    movq  (%r11), %rax\n"
        "    movq  %rdi, %r10\n"
        "    movq  %rcx, %r11\n"
        "    leaq  -" TEXT_OF(PAINTED) "(%rsp), %rdi\n"
        "    movl  $" TEXT_OF(PAINTED) " / 8, %ecx\n"
        "    rep stosq\n"
        "    movq  %r10, %rdi\n"
        "    movq  %r11, %rcx\n"
        "    call  *measured_function(%rip)\n"
        "    movq  %rax, measured_result(%rip)\n"
        "    movq  %rdx, 8 + measured_result(%rip)\n"
        /* Look, from below up to the first eight bytes that are no paint, and in them for the lowest byte that is none. */
        "    movq  measured_record(%rip), %r11\n"
        "    movq  (%r11), %rax\n"
        "    leaq  -" TEXT_OF(PAINTED) "(%rsp), %rdi\n"
        "    movl  $" TEXT_OF(PAINTED) " / 8, %ecx\n"
        "    repe scasq\n"
        "    xorq  -8(%rdi), %rax\n"
        "    bsfq  %rax, %rax\n"
        "    shrl  $3, %eax\n"
        "    leaq  -8(%rdi, %rax), %rax\n"
        "    movq  %rsp, %rsi\n"
        "    subq  %rax, %rsi\n"
        "    movq  %r11, %rdi\n"
        "    call  note\n"
        "    movq  measured_result(%rip), %rax\n"
        "    movq  8 + measured_result(%rip), %rdx\n"
        "    pushq measured_caller(%rip)\n"
        "    ret\n"
        ".popsection\n");

/* The record of a function, and a way to its code through `measured`. */
#define MEASURED(way, code, name, bytes)                                                              \
    __attribute__((used)) function figure_##name = {                                                  \
        PAINT * (UINT64_MAX / 0xFF), #name, #name " went deeper than " #bytes " bytes", bytes, 0, 0}; \
    _Static_assert(2 * (bytes) < PAINTED, #name);                                                     \
    __asm__(".pushsection .text\n"                                                                    \
            ".globl " way "\n" way ":\n"                                                              \
            "    leaq  " code "(%rip), %rax\n"                                                        \
            "    leaq  figure_" #name "(%rip), %r11\n"                                                \
            "    jmp   measured\n"                                                                    \
            ".popsection\n")

#define FIGURE(name, bytes) MEASURED("__wrap_" #name, "__real_" #name, name, bytes);
#include "stack_figures.h"
#undef FIGURE

static const function *const functions[] = {
#define FIGURE(name, bytes) &figure_##name,
#include "stack_figures.h"
#undef FIGURE
};
_Static_assert(sizeof functions != 0, "no figures");

#endif
