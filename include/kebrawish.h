/*
 * Kebrawish: judges one CityJSON 2.0 text and lays it out as a flat byte sheet.
 *
 * Build the library with `tools/archive.sh` and link target/staticlib/libkebrawish.a
 * (x86-64). Of other libraries it needs C's memcpy and memset alone. It allocates nothing,
 * keeps nothing between calls, so that threads may call it at once. A call takes at most
 * 1,440 KiB of stack, or at most 165 KiB for a text of at most 4,096 bytes, as measured
 * (tests/tests/stack.rs). For programs in Rust there is a crate, rust/kebrawish.
 *
 * Both functions answer a struct, by value. If its `rule` is 0, the text is accepted. Else it is
 * refused: the lowest broken rule is given, at its earliest place, and where the fault ends.
 *
 *    1  more than 65,535 bytes           10  wrong word
 *    2  not UTF-8                        11  type not carried
 *    3  not JSON                         12  wrong shape
 *    4  more than 32 levels              13  number out of range
 *    5  unpaired surrogate escape        14  geometry type not permitted for the object type
 *    6  repeated name                    15  linked ID absent, or listed twice
 *    7  wrong JSON kind                  16  second-level object with no parent
 *    8  required member absent           17  one-sided link
 *    9  more than 1,024 city objects     18  sheet longer than the lent room (lay only)
 *
 * docs/RULES.md has each rule with its place, its usual cause and an example, and
 * docs/SHEET.md the bytes of a sheet.
 *
 * Example:
 *
 *     #include <stdio.h>
 *     #include "kebrawish.h"
 *
 *     static const char text[] =
 *         "{\"type\":\"CityJSON\",\"version\":\"2.0\","
 *         "\"transform\":{\"scale\":[1.0,1.0,1.0],\"translate\":[0.0,0.0,0.0]},"
 *         "\"CityObjects\":{},\"vertices\":[]}";
 *
 *     int main(void)
 *     {
 *         static uint8_t sheet[KEBRAWISH_ROOM(sizeof text - 1)];
 *         kebrawish_answer answer = kebrawish_lay((const uint8_t *)text, sizeof text - 1,
 *                                                 sheet, sizeof sheet);
 *
 *         if (answer.rule != 0)
 *             printf("refused %u at %u to %u\n", (unsigned)answer.rule,
 *                    (unsigned)answer.place, (unsigned)answer.end);
 *         else
 *             printf("laid %u bytes, objects %u\n", (unsigned)answer.length,
 *                    (unsigned)answer.objects);
 *         return 0;
 *     }
 *
 * It prints `laid 78 bytes, objects 0`.
 */
#ifndef KEBRAWISH_H
#define KEBRAWISH_H

#include <stddef.h>
#include <stdint.h>

/*
 * How many bytes of room suffice for the sheet of a text of so many bytes, whatever the text:
 * kebrawish_lay never answers 18 in such a room. A sheet has at most half as many.
 */
#define KEBRAWISH_ROOM(text_length) (4 * (size_t)(text_length))

/* How many suffice for any text: a longer one than 65,535 bytes is refused by rule 1. */
#define KEBRAWISH_ROOM_FOR_ANY KEBRAWISH_ROOM(65535)

#ifdef __cplusplus
extern "C" {
#endif

/*
 * An answer. Fields that do not apply are 0: `place` and `end` if the text is accepted, `length`
 * and `objects` if it is refused.
 */
typedef struct kebrawish_answer {
    /* The number of the broken rule, 1 to 18, or 0 if the text is accepted. */
    uint32_t rule;
    /* The place of the refusal, an offset in the text. */
    uint32_t place;
    /*
     * The end of the refusal: one past the last byte of the value or name at that place, or the
     * place itself under the rules 1 to 5 and 18. It is at least the place, and at most the
     * length of the text.
     */
    uint32_t end;
    /* The length of the sheet in bytes, from kebrawish_lay; 0 from kebrawish_judge. */
    uint32_t length;
    /* The number of city objects. */
    uint32_t objects;
} kebrawish_answer;

/*
 * Judges the text of `text_length` bytes at `text` by the rules 1 to 17.
 *
 * The bytes may be any. `text` is not null, also if `text_length` is 0.
 */
kebrawish_answer kebrawish_judge(const uint8_t *text, size_t text_length);

/*
 * Judges a text in the same way and, if it is accepted and its sheet is not longer than
 * `sheet_length` bytes, writes the sheet to `sheet`. Every byte of the room is then settled:
 * the sheet and zeros after it if the text is accepted, zeros throughout if it is refused.
 *
 * The bytes of both may be any, and the room of any length. Neither pointer is null, also if
 * a length is 0, and the room does not overlap the text.
 */
kebrawish_answer kebrawish_lay(const uint8_t *text, size_t text_length, uint8_t *sheet,
                               size_t sheet_length);

#ifdef __cplusplus
}
#endif

#endif
