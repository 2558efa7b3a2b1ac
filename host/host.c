/* A host in C: document 01's example of `panel`, played through the flat calls. Prints the lines that `panel` prints,
 * then the numbers of some calls that are refused, and whether these left every byte. */
#include <stdint.h>
#include <stdio.h>
#include <string.h>

#include "wh_panel.h"

enum { W = 3, H = 1 };

static uint8_t sheet[WH_SHEET(W, H)], journal[4096], handle[WH_HANDLE];

#define BUFFERS sheet, sizeof sheet, journal, sizeof journal, handle, sizeof handle

static void put(uint8_t *at, uint64_t v, int n) {
    for (int i = 0; i < n; i++) at[i] = (uint8_t)(v >> (8 * i));
}

static uint64_t get(const uint8_t *at, int n) {
    uint64_t v = 0;
    for (int i = 0; i < n; i++) v |= (uint64_t)at[i] << (8 * i);
    return v;
}

/* answer, position (2), dirty, k, indices */
static void print_line(uint8_t answer) {
    uint64_t position = get(handle + 16, 8), saved = get(handle + 32, 8);
    printf("%02X%02X%02X%02X%02X", answer, (unsigned)(position % 256), (unsigned)(position / 256 % 256),
           saved != position, sheet[4]);
    for (int i = 0; i < W * H; i++) printf("%02X", sheet[WH_INDICES + 2 * i]);
    printf("\n");
}

/* a merge: each pixel of `from` goes to `into`, then `from` is removed */
static uint8_t merge(unsigned from, unsigned into) {
    uint8_t list[8 * W * H];
    size_t n = 0;
    for (int y = 0; y < H; y++)
        for (int x = 0; x < W; x++)
            if (get(sheet + WH_INDICES + 2 * (y * W + x), 2) == from) {
                put(list + n, (uint64_t)x, 2);
                put(list + n + 2, (uint64_t)y, 2);
                put(list + n + 4, from, 2);
                put(list + n + 6, into, 2);
                n += 8;
            }
    return wh_push_remove(BUFFERS, from, list, n);
}

/* 3 by 1, three entries, pixels 0, 1, 2; LAB is the host's to give, here zeros */
static void open_sheet(void) {
    static const uint8_t palette[9] = {0, 0, 0, 255, 255, 255, 255, 0, 0};
    put(sheet, W, 2);
    put(sheet + 2, H, 2);
    put(sheet + 4, 3, 2);
    memcpy(sheet + WH_PALETTE, palette, sizeof palette);
    for (int i = 0; i < W * H; i++) put(sheet + WH_INDICES + 2 * i, (uint64_t)i, 2);
}

int main(void) {
    uint8_t kept_sheet[sizeof sheet], kept_journal[sizeof journal], kept_handle[sizeof handle];
    static const uint8_t seven[7] = {0};
    open_sheet();
    print_line(WH_DONE);
    print_line(merge(1, 2));
    print_line(wh_mark(BUFFERS));
    print_line(wh_undo(BUFFERS));
    print_line(wh_undo(BUFFERS));
    print_line(wh_redo(BUFFERS));
    print_line(wh_push_add(BUFFERS, 0x10, 0x20, 0x30));
    /* refused: a sheet and a handle one byte short, a mark of 2, a list of seven bytes, no such entry */
    memcpy(kept_sheet, sheet, sizeof sheet);
    memcpy(kept_journal, journal, sizeof journal);
    memcpy(kept_handle, handle, sizeof handle);
    printf("%d", wh_undo(sheet, sizeof sheet - 1, journal, sizeof journal, handle, sizeof handle));
    printf(" %d", wh_mark(sheet, sizeof sheet - 1, journal, sizeof journal, handle, sizeof handle));
    printf(" %d", wh_redo(sheet, sizeof sheet, journal, sizeof journal, handle, sizeof handle - 1));
    printf(" %d", wh_push_lock(BUFFERS, 0, 2));
    printf(" %d", wh_push_pixels(BUFFERS, 1, seven, sizeof seven));
    printf(" %d\n", wh_push_set(BUFFERS, 300, 1, 2, 3));
    printf("%s\n", memcmp(kept_sheet, sheet, sizeof sheet) == 0 && memcmp(kept_journal, journal, sizeof journal) == 0 &&
                           memcmp(kept_handle, handle, sizeof handle) == 0
                       ? "kept"
                       : "written");
    return 0;
}
