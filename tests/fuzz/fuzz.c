/*
 * A target of libFuzzer: the library and the independent reader on the same text. It stops at
 * the first text on which they differ, prints both answers, and libFuzzer keeps the text.
 */
#include "kebrawish.h"

#include <stdio.h>
#include <stdlib.h>
#include <string.h>

kebrawish_answer reader_judge(const uint8_t *text, size_t text_length);
kebrawish_answer reader_lay(const uint8_t *text, size_t text_length, uint8_t *sheet,
                            size_t sheet_length);

/*
 * libFuzzer sees the branches of the reader. So that it sees something of the library as well,
 * it is told which rules the library answered at which bytes. It reads these counters by their
 * section, which the compiler does not know; hence volatile.
 */
__attribute__((section("__libfuzzer_extra_counters"))) static volatile uint8_t seen[19][257];

static void print(const char *side, kebrawish_answer answer)
{
    fprintf(stderr, "%s: rule %u, place %u, end %u, length %u, objects %u\n", side,
            (unsigned)answer.rule, (unsigned)answer.place, (unsigned)answer.end,
            (unsigned)answer.length, (unsigned)answer.objects);
}

static void compare(const char *call, kebrawish_answer library, kebrawish_answer reader)
{
    /* Five fields of one size: there are no bytes between them. */
    if (memcmp(&library, &reader, sizeof library) == 0)
        return;
    fprintf(stderr, "%s:\n", call);
    print("library", library);
    print("reader", reader);
    abort();
}

static void see(kebrawish_answer answer, const uint8_t *text, size_t length)
{
    int within = answer.rule != 0 && answer.place < length;
    seen[answer.rule][within ? text[answer.place] : 256] = 1;
}

#ifdef KEBRAWISH_LAY
enum { LARGE = 200000, GUARD = 32 };
static uint8_t library_room[LARGE + GUARD], reader_room[LARGE];

/* Compares lay in a room of so many bytes, and that nothing after it is written. */
static kebrawish_answer compare_room(const uint8_t *text, size_t length, size_t room)
{
    kebrawish_answer library, reader;
    size_t i;

    memset(library_room, 0xA5, room + GUARD);
    memset(reader_room, 0x5A, room);
    library = kebrawish_lay(text, length, library_room, room);
    reader = reader_lay(text, length, reader_room, room);
    compare("lay", library, reader);
    if (memcmp(library_room, reader_room, room) != 0) {
        fprintf(stderr, "lay: the sheets differ in a room of %zu bytes\n", room);
        abort();
    }
    for (i = room; i < room + GUARD; i++) {
        if (library_room[i] != 0xA5) {
            fprintf(stderr, "lay: a byte after a room of %zu bytes is written\n", room);
            abort();
        }
    }
    return library;
}
#endif

int LLVMFuzzerTestOneInput(const uint8_t *text, size_t length)
{
    kebrawish_answer answer = kebrawish_judge(text, length);

    compare("judge", answer, reader_judge(text, length));
    see(answer, text, length);
#ifdef KEBRAWISH_LAY
    if (answer.rule != 0) {
        compare_room(text, length, length % 97);
    } else {
        size_t sheet = compare_room(text, length, LARGE).length;
        compare_room(text, length, sheet - 1);
        compare_room(text, length, sheet);
        compare_room(text, length, sheet / 3);
    }
#endif
    return 0;
}
