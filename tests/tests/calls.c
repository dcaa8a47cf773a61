/*
 * Calls the library through its header. The status is 0 if the answers are those that
 * docs/RULES.md gives, else the number of the first that is not.
 */
#include "kebrawish.h"

#include <string.h>

#define MINIMAL                                                                                \
    "{\"type\":\"CityJSON\",\"version\":\"2.0\","                                              \
    "\"transform\":{\"scale\":[1,1,1],\"translate\":[0,0,0]},\"CityObjects\":{"
#define KIOSK                                                                                  \
    MINIMAL "\"kiosk\":{\"type\":\"CityFurniture\",\"geometry\":[{\"type\":\"MultiPoint\","    \
            "\"lod\":\"1\",\"boundaries\":[0]}]}},\"vertices\":[[0,0,0]]}"

static int refused(kebrawish_answer answer, uint32_t rule, uint32_t place, uint32_t end)
{
    return answer.rule == rule && answer.place == place && answer.end == end &&
           answer.length == 0 && answer.objects == 0;
}

static int accepted(kebrawish_answer answer, uint32_t length, uint32_t objects)
{
    return answer.rule == 0 && answer.place == 0 && answer.end == 0 &&
           answer.length == length && answer.objects == objects;
}

static kebrawish_answer judge(const char *text)
{
    return kebrawish_judge((const uint8_t *)text, strlen(text));
}

#ifdef KEBRAWISH_LAY
static uint8_t room[KEBRAWISH_ROOM_FOR_ANY];

/* Lays a text in a room that is full of other bytes beforehand. */
static kebrawish_answer lay(const char *text, size_t length)
{
    memset(room, 0xA5, sizeof room);
    return kebrawish_lay((const uint8_t *)text, strlen(text), room, length);
}

/* Whether the bytes of the room from one place to another are all of one sort. */
static int all(size_t from, size_t to, uint8_t byte)
{
    for (; from < to; from++)
        if (room[from] != byte)
            return 0;
    return 1;
}
#endif

int main(void)
{
    if (!refused(judge(""), 3, 0, 0))
        return 1;
    if (!refused(judge("{\"type\":1,\"type\":1}"), 6, 10, 16))
        return 2;
    if (!refused(judge(" {}"), 8, 1, 3))
        return 3;
    if (!accepted(judge(MINIMAL "},\"vertices\":[]}"), 0, 0))
        return 4;
    if (!accepted(judge(KIOSK), 0, 1))
        return 5;
#ifdef KEBRAWISH_LAY
    if (!accepted(lay(MINIMAL "},\"vertices\":[]}", 78), 78, 0) || !all(78, sizeof room, 0xA5))
        return 6;
    if (!accepted(lay(KIOSK, sizeof room), 133, 1) || !all(133, sizeof room, 0))
        return 7;
    if (memcmp(room + 92, "kiosk", 5) != 0)
        return 8;
    if (!refused(lay(KIOSK, 132), 18, 0, 0) || !all(0, 132, 0) || !all(132, sizeof room, 0xA5))
        return 9;
    if (!refused(lay("{}", 1000), 8, 0, 2) || !all(0, 1000, 0))
        return 10;
    if (!refused(lay("{\"a\":1,\"a\":2}", 0), 6, 7, 10) || !all(0, sizeof room, 0xA5))
        return 11;
    if (!accepted(lay(KIOSK, KEBRAWISH_ROOM(strlen(KIOSK))), 133, 1))
        return 12;
    if (KEBRAWISH_ROOM(169) != 676 || KEBRAWISH_ROOM_FOR_ANY != 262140)
        return 13;
#endif
    return 0;
}
