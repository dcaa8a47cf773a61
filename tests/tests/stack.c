/*
 * Measures the stack that a call of the library takes: how far down the deepest byte is that it
 * writes. Each call has a stack of its own, full of one byte beforehand. As it may write that
 * very byte, it is called twice, over different bytes, and the deeper of the two counts.
 *
 *     stack FILE..
 *
 * prints a line of two numbers for each text, what judge takes and what lay takes. The line
 * before them is of a function whose frame is known: its size, and what was measured.
 */
#define _XOPEN_SOURCE 600

#include "kebrawish.h"

#include <stdio.h>
#include <string.h>
#include <ucontext.h>

#define KNOWN 300000

static uint8_t stack[4 << 20];
static uint8_t text[1 << 20];
static size_t length;
static uint8_t room[65536];
static ucontext_t caller, callee;

static void known(void)
{
    volatile uint8_t frame[KNOWN];
    size_t k;

    for (k = 0; k < sizeof frame; k++)
        frame[k] = 0xA5;
}

static void judge(void)
{
    kebrawish_judge(text, length);
}

static void lay(void)
{
    kebrawish_lay(text, length, room, sizeof room);
}

/* What a call takes of a stack that is full of a byte. */
static size_t taken_over(void (*call)(void), uint8_t byte)
{
    size_t left = 0;

    memset(stack, byte, sizeof stack);
    getcontext(&callee);
    callee.uc_stack.ss_sp = stack;
    callee.uc_stack.ss_size = sizeof stack;
    callee.uc_link = &caller;
    makecontext(&callee, call, 0);
    swapcontext(&caller, &callee);
    while (left < sizeof stack && stack[left] == byte)
        left++;
    return sizeof stack - left;
}

static size_t taken(void (*call)(void))
{
    size_t one = taken_over(call, 0xA5);
    size_t other = taken_over(call, 0x5A);

    return one > other ? one : other;
}

int main(int count, char **names)
{
    int k;

    printf("%d %zu\n", KNOWN, taken(known));
    for (k = 1; k < count; k++) {
        FILE *file = fopen(names[k], "rb");

        if (file == NULL)
            return 1;
        length = fread(text, 1, sizeof text, file);
        fclose(file);
        printf("%zu", taken(judge));
        printf(" %zu\n", taken(lay));
    }
    return 0;
}
