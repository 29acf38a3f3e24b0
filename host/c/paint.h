/*
 * paint.h: how much stack a call uses, for x86-64.
 *
 * The call runs on a stack of its own, every byte of which has been painted; the lowest byte that has lost its paint shows how deep it
 * went. It is measured with two paints, since a byte that is written in the colour of one paint is seen with the other. A place that is
 * reserved and never written is not seen.
 *
 * To be included once, after `static inline __attribute__((always_inline)) uint64_t ask(void)`, the call, which is inlined so that nothing
 * stands on the painted stack between the place that is measured and the function; and in a program that begins with _XOPEN_SOURCE 700.
 */
#ifndef PAINT_H
#define PAINT_H

#include <stdint.h>
#include <stdio.h>
#include <stdlib.h>
#include <string.h>
#include <ucontext.h>

static uint8_t room[65536], paint;
static ucontext_t outside, inside;
static uint64_t answer;
static size_t used;

static void fail(const char *words, size_t number) {
    printf("stack: %s (%lu)\n", words, (unsigned long)number);
    exit(1);
}

/* Runs on the painted stack. The paint is looked at before anything else is called there. */
static void call(void) {
    const volatile uint8_t *top, *lowest = room;

    __asm__ volatile("mov %%rsp, %0" : "=r"(top) : : "memory");
    answer = ask();
    while (lowest < top && *lowest == paint) {
        lowest++;
    }
    used = (size_t)(top - lowest);
}

static size_t depth_with(uint8_t colour) {
    paint = colour;
    memset(room, colour, sizeof room);
    if (getcontext(&inside) != 0) {
        fail("a context cannot be made", sizeof room);
    }
    inside.uc_stack.ss_sp = room;
    inside.uc_stack.ss_size = sizeof room;
    inside.uc_link = &outside;
    makecontext(&inside, call, 0);
    if (swapcontext(&outside, &inside) != 0) {
        fail("the painted stack cannot be entered", sizeof room);
    }
    if (room[0] != colour) {
        fail("the painted stack is too small for the call", sizeof room);
    }
    if (used == 0) {
        fail("a call used no stack, so nothing was measured", 0);
    }
    return used;
}

/* The depth of the call, which has to answer this. */
static size_t depth(uint64_t right) {
    size_t one, other;

    /* First on the ordinary stack, so that whatever the linker binds at the first call is bound before anything is measured. */
    if (ask() != right) {
        fail("a call does not answer as it should", (size_t)right);
    }
    one = depth_with(0xA5);
    other = depth_with(0x5A);
    if (answer != right) {
        fail("on the painted stack a call does not answer as it should", (size_t)right);
    }
    return one > other ? one : other;
}

#endif
