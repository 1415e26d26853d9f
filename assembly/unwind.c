/* Unwinds at each instruction of the library for C, by the unwinder of libgcc, as an exception or a backtrace does.

   The processor's trap flag stops a call after each instruction. There the frames must lead to the caller: to the place
   after the call, with the caller's stack pointer and the contents of its registers. The code is between first_of_text
   and end_of_text (unwind.ld). Prints the number of instructions and of those with wrong frames, and returns 1 if there
   are any. For x86-64; assembly/check builds it. SPDX-License-Identifier: MIT */
#define _GNU_SOURCE
#include <signal.h>
#include <stdint.h>
#include <stdio.h>
#include <stdlib.h>
#include <string.h>
#include <ucontext.h>
#include <unwind.h>
#include <xxhash.h>

enum { REGISTERS = 6, VISITS = 3, LONGEST = 20000, SECRET = 200 };

extern const char first_of_text[], end_of_text[], behind_call[];

/* The caller's registers during a call: rbx, rbp, r12 to r15, with DWARF's numbers. */
static const uint64_t held[REGISTERS] = {0x1101, 0x2202, 0x3303, 0x4404, 0x5505, 0x6606};
static const int numbers[REGISTERS] = {3, 6, 12, 13, 14, 15};
static uintptr_t stack_of_caller;
static unsigned char *visits, *wrong;

/* Calls a function with up to five words, with the trap flag set, and stores its own stack pointer. */
void stepped(const void *function, const uint64_t *arguments, uintptr_t *stack, const uint64_t *registers);
__asm__(
    ".text\n.globl stepped\n.type stepped,@function\nstepped:\n.cfi_startproc\n"
    "push %rbp\n.cfi_adjust_cfa_offset 8\npush %rbx\n.cfi_adjust_cfa_offset 8\n"
    "push %r12\n.cfi_adjust_cfa_offset 8\npush %r13\n.cfi_adjust_cfa_offset 8\n"
    "push %r14\n.cfi_adjust_cfa_offset 8\npush %r15\n.cfi_adjust_cfa_offset 8\n"
    "sub $8,%rsp\n.cfi_adjust_cfa_offset 8\n"
    "mov %rdi,%rax\nmov %rsi,%r10\nmov %rsp,(%rdx)\n"
    "mov (%rcx),%rbx\nmov 8(%rcx),%rbp\nmov 16(%rcx),%r12\nmov 24(%rcx),%r13\nmov 32(%rcx),%r14\nmov 40(%rcx),%r15\n"
    "mov (%r10),%rdi\nmov 8(%r10),%rsi\nmov 16(%r10),%rdx\nmov 24(%r10),%rcx\nmov 32(%r10),%r8\n"
    "pushfq\n.cfi_adjust_cfa_offset 8\norq $0x100,(%rsp)\npopfq\n.cfi_adjust_cfa_offset -8\n"
    "call *%rax\n.globl behind_call\nbehind_call:\n"
    "pushfq\n.cfi_adjust_cfa_offset 8\nandq $~0x100,(%rsp)\npopfq\n.cfi_adjust_cfa_offset -8\n"
    "add $8,%rsp\n.cfi_adjust_cfa_offset -8\n"
    "pop %r15\n.cfi_adjust_cfa_offset -8\npop %r14\n.cfi_adjust_cfa_offset -8\n"
    "pop %r13\n.cfi_adjust_cfa_offset -8\npop %r12\n.cfi_adjust_cfa_offset -8\n"
    "pop %rbx\n.cfi_adjust_cfa_offset -8\npop %rbp\n.cfi_adjust_cfa_offset -8\nret\n.cfi_endproc\n");

/* Whether a frame is the caller's with everything in it unchanged: reported through `is_well`. */
static _Unwind_Reason_Code look_at_frame(struct _Unwind_Context *frame, void *is_well)
{
    if (_Unwind_GetIP(frame) != (uintptr_t)behind_call)
        return _URC_NO_REASON;
    *(int *)is_well = _Unwind_GetCFA(frame) == stack_of_caller;
    for (int at = 0; at < REGISTERS; at++)
        *(int *)is_well &= _Unwind_GetGR(frame, numbers[at]) == held[at];
    return _URC_END_OF_STACK;
}

static void on_step(int signal, siginfo_t *info, void *context)
{
    const char *place = (const char *)((ucontext_t *)context)->uc_mcontext.gregs[REG_RIP];
    int is_well = 0;
    (void)signal, (void)info;
    if (place < first_of_text || place >= end_of_text || visits[place - first_of_text] == VISITS)
        return;
    visits[place - first_of_text]++;
    _Unwind_Backtrace(look_at_frame, &is_well);
    if (!is_well && !wrong[place - first_of_text]++)
        printf("wrong at %#lx\n", (unsigned long)(place - first_of_text));
}

#define CALL(function, ...) \
    stepped((const void *)(function), (const uint64_t[5]){__VA_ARGS__}, &stack_of_caller, held)
#define AT(thing) ((uint64_t)(uintptr_t)(thing))

static unsigned char input[LONGEST], secret[256], output[1024];

static void call_one_shots(size_t n, uint64_t seed)
{
    CALL(XXH32, AT(input), n, seed);
    CALL(XXH64, AT(input), n, seed);
    CALL(XXH3_64bits, AT(input), n);
    CALL(XXH3_64bits_withSeed, AT(input), n, seed);
    CALL(XXH3_64bits_withSecret, AT(input), n, AT(secret), SECRET);
    CALL(XXH3_64bits_withSecretandSeed, AT(input), n, AT(secret), SECRET, seed);
    CALL(XXH3_128bits, AT(input), n);
    CALL(XXH3_128bits_withSeed, AT(input), n, seed);
    CALL(XXH3_128bits_withSecret, AT(input), n, AT(secret), SECRET);
    CALL(XXH3_128bits_withSecretandSeed, AT(input), n, AT(secret), SECRET, seed);
}

static void call_plain_streams(size_t n, XXH32_state_t *narrow, XXH64_state_t *wide)
{
    CALL(XXH32_reset, AT(narrow), 1);
    CALL(XXH64_reset, AT(wide), 1);
    for (size_t piece = n / 3; piece <= n; piece += n / 3 + 7) {
        CALL(XXH32_update, AT(narrow), AT(input), piece);
        CALL(XXH64_update, AT(wide), AT(input), piece);
        CALL(XXH32_digest, AT(narrow));
        CALL(XXH64_digest, AT(wide));
    }
}

static void call_stream(size_t n, XXH3_state_t *state, int form)
{
    if (form == 0)
        CALL(XXH3_64bits_reset, AT(state));
    else if (form == 1)
        CALL(XXH3_128bits_reset_withSeed, AT(state), 7);
    else if (form == 2)
        CALL(XXH3_64bits_reset_withSecret, AT(state), AT(secret), SECRET);
    else
        CALL(XXH3_128bits_reset_withSecretandSeed, AT(state), AT(secret), SECRET, 7);
    for (size_t piece = n / 3; piece <= n; piece += n / 3 + 7) {
        CALL(XXH3_64bits_update, AT(state), AT(input), piece);
        CALL(XXH3_128bits_update, AT(state), AT(input), n - piece);
        CALL(XXH3_64bits_digest, AT(state));
        CALL(XXH3_128bits_digest, AT(state));
    }
}

static void call_others(size_t n)
{
    XXH128_hash_t value = {n, 1};
    CALL(XXH128_isEqual, n, 1, 1, n);
    CALL(XXH128_cmp, AT(&value), AT(&value));
    CALL(XXH128_canonicalFromHash, AT(output), n, 1);
    CALL(XXH128_hashFromCanonical, AT(output));
    CALL(XXH64_canonicalFromHash, AT(output), n);
    CALL(XXH32_canonicalFromHash, AT(output), n);
    if (n < sizeof output - 136)
        CALL(XXH3_generateSecret, AT(output), 136 + n, AT(input), n);
    CALL(XXH3_generateSecret_fromSeed, AT(output), n);
}

static int print_result(void)
{
    long places = 0, faults = 0;
    for (long at = 0; at < end_of_text - first_of_text; at++)
        places += visits[at] != 0, faults += wrong[at] != 0;
    printf("%ld places, %ld wrong\n", places, faults);
    return faults || !places;
}

int main(void)
{
    static const size_t lengths[] = { 0,   1,   2,   3,   4,    7,    8,    9,    12,   15,     16,  17,
                                      24,  31,  32,  33,  48,   63,   64,   65,   96,   97,     127, 128,
                                      129, 160, 161, 192, 224,  239,  240,  241,  255,  256,    257, 300,
                                      512, 513, 600, 800, 1024, 1025, 2048, 5000, 9000, LONGEST };
    const struct sigaction action = {.sa_sigaction = on_step, .sa_flags = SA_SIGINFO};
    XXH32_state_t *narrow = XXH32_createState();
    XXH64_state_t *wide = XXH64_createState();
    XXH3_state_t *state = XXH3_createState();
    visits = calloc(2, end_of_text - first_of_text);
    wrong = visits + (end_of_text - first_of_text);
    for (size_t at = 0; at < sizeof input; at++)
        input[at] = at * 2654435761u >> 13;
    memcpy(secret, input + 1000, sizeof secret);
    sigaction(SIGTRAP, &action, 0);
    for (size_t at = 0; at < sizeof lengths / sizeof *lengths; at++) {
        call_one_shots(lengths[at], 0);
        call_one_shots(lengths[at], 7);
        call_plain_streams(lengths[at], narrow, wide);
        for (int form = 0; form < 4; form++)
            call_stream(lengths[at], state, form);
        call_others(lengths[at]);
    }
    return print_result();
}
