/* The panel crate for C hosts: push, undo, redo and mark over one flat sheet, a journal and a handle, all in bytes.
 *
 * Link with crates/c_panel/out/libc_panel.a (rt lib in crates/c_panel; x86-64 Linux). A buffer is a pointer and a length. No
 * call keeps a pointer or allocates. No two buffers of one call may overlap. Calls on different buffers may run at the
 * same time. Every input has its answer; with any answer but WH_DONE every byte of the three buffers keeps.
 * Stack on x86-64, measured: pixels and remove 54 KB, set, add and redo 22 KB, lock 20 KB, undo 16 KB, mark under 1 KB.
 * docs/C.md has the layout and the numbers, crates/c_model/specs/Step.antt what each call does. */
#ifndef WH_PANEL_H
#define WH_PANEL_H

#include <stddef.h>
#include <stdint.h>

#ifdef __cplusplus
extern "C" {
#endif

/* ---- the flat sheet, little-endian: w, h, k (2 bytes each), 765 palette bytes, 765 doubles, w * h indices of 2 bytes
 * (-1 is transparent), 255 lock bytes, 0 or 1 */
#define WH_PALETTE 6u
#define WH_LAB 771u
#define WH_INDICES 6891u
#define WH_LOCKS(w, h) (6891u + 2u * (size_t)(w) * (size_t)(h))
#define WH_SHEET(w, h) (7146u + 2u * (size_t)(w) * (size_t)(h))

/* ---- the handle: standing offset, end, standing position, count, saved position, eight bytes each. Fresh it is 40
 * zeros; no saved position is eight bytes of 255 */
#define WH_HANDLE 40u

#define WH_SIDE 64u   /* a longer side is 1 */
#define WH_LIST 4096u /* more changes are 21 */

/* ---- answers: these, or a number of docs/C.md's table */
#define WH_DONE 0
#define WH_STILL 255
#define WH_LOCKED 24
#define WH_MISFIT 28

/* ---- the calls. A list has eight bytes a change: x, y, old, new, two bytes each; pixels look at no old. `mark` is 1 to
 * lock an entry, 0 to unlock it. */
uint8_t wh_push_pixels(uint8_t *sheet, size_t sheet_len, uint8_t *journal, size_t journal_len, uint8_t *handle,
                       size_t handle_len, uint8_t tool, const uint8_t *list, size_t list_len);
uint8_t wh_push_set(uint8_t *sheet, size_t sheet_len, uint8_t *journal, size_t journal_len, uint8_t *handle,
                    size_t handle_len, size_t index, uint8_t r, uint8_t g, uint8_t b);
uint8_t wh_push_add(uint8_t *sheet, size_t sheet_len, uint8_t *journal, size_t journal_len, uint8_t *handle,
                    size_t handle_len, uint8_t r, uint8_t g, uint8_t b);
uint8_t wh_push_remove(uint8_t *sheet, size_t sheet_len, uint8_t *journal, size_t journal_len, uint8_t *handle,
                       size_t handle_len, size_t index, const uint8_t *list, size_t list_len);
uint8_t wh_push_lock(uint8_t *sheet, size_t sheet_len, uint8_t *journal, size_t journal_len, uint8_t *handle,
                     size_t handle_len, size_t index, uint8_t mark);
uint8_t wh_undo(uint8_t *sheet, size_t sheet_len, const uint8_t *journal, size_t journal_len, uint8_t *handle,
                size_t handle_len);
uint8_t wh_redo(uint8_t *sheet, size_t sheet_len, const uint8_t *journal, size_t journal_len, uint8_t *handle,
                size_t handle_len);
uint8_t wh_mark(const uint8_t *sheet, size_t sheet_len, const uint8_t *journal, size_t journal_len, uint8_t *handle,
                size_t handle_len);

#ifdef __cplusplus
}
#endif

#endif
