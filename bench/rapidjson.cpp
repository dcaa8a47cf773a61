// RapidJSON's DOM parse with its default flags (it does not check UTF-8).
#include <rapidjson/document.h>

extern "C" void *side_parse(const unsigned char *text, size_t length)
{
    auto *document = new rapidjson::Document;
    document->Parse(reinterpret_cast<const char *>(text), length);
    if (!document->HasParseError())
        return document;
    delete document;
    return nullptr;
}

extern "C" void side_release(void *document)
{
    delete static_cast<rapidjson::Document *>(document);
}
