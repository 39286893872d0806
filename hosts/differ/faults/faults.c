/* Kernels with one fault each, to see that the comparison finds it. With FAULT = n the archive's function, renamed to
   real_fw_..., is called by one of the same name that spoils what it did. Offsets are those of docs/BOOK.md. */
#include <stddef.h>
#include <stdint.h>
#include <string.h>

typedef uint64_t u64;
#define AREAS uint8_t *b, size_t bl, uint8_t *a, size_t al
#define LENT b, bl, a, al
#define BYTES(name) const uint8_t *name, size_t name##_len
#define PASS(name) name, name##_len

enum { NEXT = 0, ID = 16, KIND = 2064, FIXED = 2576, CLOSURE = 47376, LINK_FROM = 55568, LINK_TO = 56078, AREA_LEN = 16384 };

static uint8_t kept[AREA_LEN];

static void keep(const uint8_t *a, size_t al) {
    if (al == AREA_LEN) memcpy(kept, a, al);
}

static void put_back(uint8_t *a, size_t al) {
    if (al == AREA_LEN) memcpy(a, kept, al);
}

#if FAULT == 1 || FAULT == 2
u64 real_fw_read(AREAS, u64 t, u64 d, u64 s, u64 k, u64 from, u64 count, u64 *place, u64 *length, u64 *value);
u64 fw_read(AREAS, u64 t, u64 d, u64 s, u64 k, u64 from, u64 count, u64 *place, u64 *length, u64 *value) {
    u64 answer = real_fw_read(LENT, t, d, s, k, from, count, place, length, value);
#if FAULT == 1 /* hands out the part one byte too early */
    if (answer == 0 && *length > 0 && *place > 0) *place -= 1;
#else /* gives an empty part a place */
    if (answer == 0 && *length == 0) *place = 64;
#endif
    return answer;
}
#elif FAULT == 3 /* grants a write and writes nothing */
u64 real_fw_write(AREAS, u64 t, u64 d, u64 s, u64 k, u64 from, u64 count, BYTES(x), u64 *value);
u64 fw_write(AREAS, u64 t, u64 d, u64 s, u64 k, u64 from, u64 count, BYTES(x), u64 *value) {
    keep(a, al);
    u64 answer = real_fw_write(LENT, t, d, s, k, from, count, PASS(x), value);
    put_back(a, al);
    return answer;
}
#elif FAULT == 4 || FAULT == 5
u64 real_fw_resize(AREAS, u64 t, u64 d, u64 s, u64 length, u64 *value);
u64 fw_resize(AREAS, u64 t, u64 d, u64 s, u64 length, u64 *value) {
    keep(a, al);
    u64 answer = real_fw_resize(LENT, t, d, s, length, value);
    if (answer == 0) {
#if FAULT == 4 /* neither clears nor frees bytes */
        put_back(a, al);
#else /* gives the first two blocks each other's owner */
        uint8_t *owner = b + 56588;
        uint8_t two[2] = {owner[0], owner[1]};
        owner[0] = owner[2], owner[1] = owner[3], owner[2] = two[0], owner[3] = two[1];
#endif
    }
    return answer;
}
#elif FAULT == 6 || FAULT == 7
u64 real_fw_set_label(AREAS, u64 t, BYTES(label), u64 *value);
u64 fw_set_label(AREAS, u64 t, BYTES(label), u64 *value) {
#if FAULT == 6 /* a refused call keeps its number for the next one */
    uint8_t next[8];
    if (bl > 8) memcpy(next, b + NEXT, 8);
    u64 answer = real_fw_set_label(LENT, t, PASS(label), value);
    if (bl > 8 && answer > 2) memcpy(b + NEXT, next, 8);
#else /* leaves the value unwritten on a refusal */
    u64 own = 0;
    u64 answer = real_fw_set_label(LENT, t, PASS(label), &own);
    if (answer == 0) *value = own;
#endif
    return answer;
}
#elif FAULT == 8 || FAULT == 9
u64 real_fw_look(AREAS, u64 t, u64 d, u64 o, uint8_t *out, size_t out_len, u64 *value);
u64 fw_look(AREAS, u64 t, u64 d, u64 o, uint8_t *out, size_t out_len, u64 *value) {
    u64 answer = real_fw_look(LENT, t, d, o, out, out_len, value);
#if FAULT == 8 /* says that a hidden label is shown */
    if (answer == 0) out[33] = 1;
#else /* refuses an unsound book as if the container were absent */
    if (answer == 1 && bl == 57356 && al == AREA_LEN) answer = 5;
#endif
    return answer;
}
#elif FAULT == 10 || FAULT == 11 || FAULT == 12
u64 real_fw_unreference(AREAS, u64 t, u64 d, u64 o, u64 *value);
u64 fw_unreference(AREAS, u64 t, u64 d, u64 o, u64 *value) {
    keep(a, al);
    u64 answer = real_fw_unreference(LENT, t, d, o, value);
    if (answer == 0) {
#if FAULT == 10 /* a freed segment's bytes stay */
        put_back(a, al);
#elif FAULT == 11 /* moves the last link into the first free one */
        int free = 0, last = 254;
        while (b[LINK_FROM + 2 * free] || b[LINK_FROM + 2 * free + 1]) free++;
        while (last > free && !(b[LINK_FROM + 2 * last] || b[LINK_FROM + 2 * last + 1])) last--;
        if (last > free) {
            memcpy(b + LINK_FROM + 2 * free, b + LINK_FROM + 2 * last, 2);
            memcpy(b + LINK_TO + 2 * free, b + LINK_TO + 2 * last, 2);
            memset(b + LINK_FROM + 2 * last, 0, 2);
        }
#else /* tells a caller that freed itself that it is no live thread */
        if (o == t) answer = 3;
#endif
    }
    return answer;
}
#elif FAULT == 13 || FAULT == 14
u64 real_fw_create_thread(AREAS, u64 t, u64 d, BYTES(l), BYTES(c), BYTES(x), u64 *value);
u64 fw_create_thread(AREAS, u64 t, u64 d, BYTES(l), BYTES(c), BYTES(x), u64 *value) {
    u64 answer = real_fw_create_thread(LENT, t, d, PASS(l), PASS(c), PASS(x), value);
#if FAULT == 13 /* writes where a free row has its closure */
    if (answer == 0 && b[KIND + 255] == 0) b[CLOSURE + 32 * 255] ^= 1;
#else /* answers 5 where the label condition fails */
    if (answer == 7) answer = 5;
#endif
    return answer;
}
#elif FAULT == 15 || FAULT == 16
u64 real_fw_enter_gate(AREAS, u64 t, u64 d, u64 g, BYTES(r), BYTES(c), BYTES(v), uint8_t *out, size_t n, u64 *value);
u64 fw_enter_gate(AREAS, u64 t, u64 d, u64 g, BYTES(r), BYTES(c), BYTES(v), uint8_t *out, size_t n, u64 *value) {
    u64 answer = real_fw_enter_gate(LENT, t, d, g, PASS(r), PASS(c), PASS(v), out, n, value);
#if FAULT == 15 /* clears the output on a refusal */
    if (answer != 0) memset(out, 0, n);
#else /* gives the entry number's low half */
    *value &= 0xFFFFFFFF;
#endif
    return answer;
}
#elif FAULT == 17 /* moves units into a segment whose quota is fixed */
u64 real_fw_move_quota(AREAS, u64 t, u64 d, u64 o, int64_t n, u64 *value);
u64 fw_move_quota(AREAS, u64 t, u64 d, u64 o, int64_t n, u64 *value) {
    u64 answer = real_fw_move_quota(LENT, t, d, o, n, value);
    return answer == 9 ? 0 : answer;
}
#elif FAULT == 18 /* leaves the area as it was lent */
u64 real_fw_start(AREAS, u64 first);
u64 fw_start(AREAS, u64 first) {
    keep(a, al);
    u64 answer = real_fw_start(LENT, first);
    put_back(a, al);
    return answer;
}
#elif FAULT == 19 /* writes a byte after the area */
u64 real_fw_link_segment(AREAS, u64 t, u64 d1, u64 o, u64 d, u64 *value);
u64 fw_link_segment(AREAS, u64 t, u64 d1, u64 o, u64 d, u64 *value) {
    u64 answer = real_fw_link_segment(LENT, t, d1, o, d, value);
    if (answer == 0) a[al] ^= 1;
    return answer;
}
#elif FAULT == 20 /* loses the description's last byte */
u64 real_fw_create_segment(AREAS, u64 t, u64 d, BYTES(l), BYTES(x), u64 quota, u64 *value);
u64 fw_create_segment(AREAS, u64 t, u64 d, BYTES(l), BYTES(x), u64 quota, u64 *value) {
    uint8_t mine[1024];
    if (x_len > sizeof mine) return real_fw_create_segment(LENT, t, d, PASS(l), PASS(x), quota, value);
    if (x_len > 0) memcpy(mine, x, x_len);
    if (x_len == 32) mine[31] = 0;
    return real_fw_create_segment(LENT, t, d, PASS(l), mine, x_len, quota, value);
}
#elif FAULT == 21 /* forgets the clearance's pair of a new category */
u64 real_fw_create_category(AREAS, u64 t, u64 *value);
u64 fw_create_category(AREAS, u64 t, u64 *value) {
    static uint8_t clearances[16384];
    if (bl == 57356) memcpy(clearances, b + 22800, sizeof clearances);
    u64 answer = real_fw_create_category(LENT, t, value);
    if (answer == 0) memcpy(b + 22800, clearances, sizeof clearances);
    return answer;
}
#elif FAULT == 22 /* answers 10 before 9 */
u64 real_fw_link_segment(AREAS, u64 t, u64 d1, u64 o, u64 d, u64 *value);
u64 fw_link_segment(AREAS, u64 t, u64 d1, u64 o, u64 d, u64 *value) {
    u64 answer = real_fw_link_segment(LENT, t, d1, o, d, value);
    return answer == 9 && d == d1 ? 10 : answer;
}
#elif FAULT == 23 || FAULT == 24
static int is_loose(const uint8_t *b, u64 o) {
    for (int row = 0; row < 256; row++) {
        u64 id;
        memcpy(&id, b + ID + 8 * row, 8);
        if (b[KIND + row] != 0 && id == o) return b[FIXED + row] == 0;
    }
    return 0;
}
u64 real_fw_link_segment(AREAS, u64 t, u64 d1, u64 o, u64 d, u64 *value);
u64 fw_link_segment(AREAS, u64 t, u64 d1, u64 o, u64 d, u64 *value) {
    u64 answer = real_fw_link_segment(LENT, t, d1, o, d, value);
#if FAULT == 23 /* answers 10 before 8, which shows only where a link is from before W2 */
    if (answer == 8 && d == d1) answer = 10;
#else /* answers 9 before 8 */
    if (answer == 8 && is_loose(b, o)) answer = 9;
#endif
    return answer;
}
#elif FAULT == 25 /* gives a container of quota 0 the 16 units that it had before W7 */
u64 real_fw_create_container(AREAS, u64 t, u64 d, BYTES(l), BYTES(x), u64 mask, u64 quota, u64 *value);
u64 fw_create_container(AREAS, u64 t, u64 d, BYTES(l), BYTES(x), u64 mask, u64 quota, u64 *value) {
    return real_fw_create_container(LENT, t, d, PASS(l), PASS(x), mask, quota == 0 ? 16 : quota, value);
}
#endif
