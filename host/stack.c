/* The stack that each call takes, on a sheet of 64 by 64: each runs in a thread of its own, on a stack that was filled
 * before, and what is no longer filled is counted; a thread that makes no call is taken off. */
#define _GNU_SOURCE
#include <pthread.h>
#include <stdint.h>
#include <stdio.h>
#include <stdlib.h>
#include <string.h>

#include "wh_panel.h"

enum { SIDE = 64, ROOM = 1 << 20, FILL = 0xA5 };

static uint8_t sheet[WH_SHEET(SIDE, SIDE)], journal[1 << 20], handle[WH_HANDLE], list[8 * WH_LIST], answer;

#define BUFFERS sheet, sizeof sheet, journal, sizeof journal, handle, sizeof handle

static void two(uint8_t *at, unsigned v) {
    at[0] = (uint8_t)v;
    at[1] = (uint8_t)(v >> 8);
}

static void *none(void *x) { return x; }
static void *pixels(void *x) { answer = wh_push_pixels(BUFFERS, 1, list, sizeof list); return x; }
static void *set(void *x) { answer = wh_push_set(BUFFERS, 1, 9, 8, 7); return x; }
static void *add(void *x) { answer = wh_push_add(BUFFERS, 1, 2, 3); return x; }
static void *lock(void *x) { answer = wh_push_lock(BUFFERS, 0, 1); return x; }
static void *undo(void *x) { answer = wh_undo(BUFFERS); return x; }
static void *redo(void *x) { answer = wh_redo(BUFFERS); return x; }
static void *mark(void *x) { answer = wh_mark(BUFFERS); return x; }
static void *removal(void *x) { answer = wh_push_remove(BUFFERS, 1, list, sizeof list); return x; }

static size_t used(void *(*call)(void *)) {
    uint8_t *stack = aligned_alloc(4096, ROOM);
    pthread_attr_t a;
    pthread_t t;
    size_t low = 0;
    memset(stack, FILL, ROOM);
    pthread_attr_init(&a);
    pthread_attr_setstack(&a, stack, ROOM);
    if (pthread_create(&t, &a, call, NULL) != 0) exit(1);
    pthread_join(t, NULL);
    while (low < ROOM && stack[low] == FILL) low++;
    free(stack);
    return ROOM - low;
}

static void told(const char *name, void *(*call)(void *), size_t idle) {
    size_t n = used(call);
    printf("%s %zu bytes, answer %d\n", name, n - idle, answer);
}

int main(void) {
    size_t idle = used(none);
    two(sheet, SIDE);
    two(sheet + 2, SIDE);
    two(sheet + 4, 3);
    /* every pixel is painted with entry 1, then goes to entry 0 as entry 1 is removed */
    for (unsigned i = 0; i < WH_LIST; i++) {
        two(list + 8 * i, i % SIDE);
        two(list + 8 * i + 2, i / SIDE);
        two(list + 8 * i + 4, 1);
        two(list + 8 * i + 6, 1);
    }
    told("wh_push_pixels", pixels, idle);
    told("wh_push_set", set, idle);
    told("wh_undo", undo, idle);
    told("wh_redo", redo, idle);
    told("wh_push_add", add, idle);
    told("wh_undo", undo, idle);
    told("wh_redo", redo, idle);
    for (unsigned i = 0; i < WH_LIST; i++) two(list + 8 * i + 6, 0);
    told("wh_push_remove", removal, idle);
    told("wh_undo", undo, idle);
    told("wh_redo", redo, idle);
    told("wh_push_lock", lock, idle);
    told("wh_undo", undo, idle);
    told("wh_redo", redo, idle);
    told("wh_mark", mark, idle);
    return 0;
}
