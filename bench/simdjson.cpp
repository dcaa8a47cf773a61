// simdjson's DOM parse, with one parser kept between calls. The text is followed by the padding that simdjson asks for.
#include <simdjson.h>

static simdjson::dom::parser parser;

extern "C" void *side_parse(const unsigned char *text, size_t length)
{
    simdjson::dom::element root;
    return parser.parse(text, length, false).get(root) ? nullptr : &parser;
}

extern "C" void side_release(void *) {}
