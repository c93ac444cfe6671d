// Other readers and writers of JSON in C and C++, for the benchmark alone. A
// reader has a function that reads a text and answers whether it took it, or how
// many nodes it has, keys with them. A writer has functions that make a tree of
// a text, write it as often as one likes, and free it.

#include <cstddef>
#include <cstdint>
#include <cstdlib>

#include <cjson/cJSON.h>
#define RAPIDJSON_SSE2
#include <rapidjson/document.h>
#include <rapidjson/stringbuffer.h>
#include <rapidjson/writer.h>
#include <simdjson.h>
#include <yajl/yajl_parse.h>

namespace {

// ---------------------------------------------------------------- RapidJSON

std::size_t nodes_of(const rapidjson::Value &value)
{
    std::size_t nodes = 1;

    if (value.IsArray()) {
        for (const auto &member : value.GetArray()) {
            nodes += nodes_of(member);
        }
    } else if (value.IsObject()) {
        for (const auto &pair : value.GetObject()) {
            nodes += 1 + nodes_of(pair.value);
        }
    }
    return nodes;
}

template <unsigned flags>
std::size_t rapid(const std::uint8_t *text, std::size_t length, bool count)
{
    rapidjson::Document document;

    document.Parse<flags>(reinterpret_cast<const char *>(text), length);
    if (document.HasParseError()) {
        return 0;
    }
    return count ? nodes_of(document) : 1;
}

// The buffer keeps its memory from one text to the next.
struct RapidTree {
    rapidjson::Document document;
    rapidjson::StringBuffer buffer;
};

template <unsigned flags> const char *rapid_write(void *tree)
{
    using rapidjson::UTF8;
    auto &[document, buffer] = *static_cast<RapidTree *>(tree);

    buffer.Clear();
    rapidjson::Writer<rapidjson::StringBuffer, UTF8<>, UTF8<>, rapidjson::CrtAllocator, flags>
        writer(buffer);
    return document.Accept(writer) ? buffer.GetString() : nullptr;
}

// ----------------------------------------------------------------- simdjson

std::size_t nodes_of(simdjson::dom::element value)
{
    std::size_t nodes = 1;
    simdjson::dom::array list;
    simdjson::dom::object dict;

    if (value.get(list) == simdjson::SUCCESS) {
        for (auto member : list) {
            nodes += nodes_of(member);
        }
    } else if (value.get(dict) == simdjson::SUCCESS) {
        for (auto pair : dict) {
            nodes += 1 + nodes_of(pair.value);
        }
    }
    return nodes;
}

// -------------------------------------------------------------------- cJSON

std::size_t nodes_of(const cJSON *value, bool key)
{
    std::size_t nodes = key ? 2 : 1;

    for (const cJSON *child = value->child; child; child = child->next) {
        nodes += nodes_of(child, cJSON_IsObject(value));
    }
    return nodes;
}

struct CTree {
    cJSON *root;
    char *text;
    int room;
};

// --------------------------------------------------------------------- yajl

int event(void *nodes)
{
    ++*static_cast<std::size_t *>(nodes);
    return 1;
}

int bool_event(void *nodes, int)
{
    return event(nodes);
}

int number_event(void *nodes, const char *, std::size_t)
{
    return event(nodes);
}

int string_event(void *nodes, const unsigned char *, std::size_t)
{
    return event(nodes);
}

int end_event(void *)
{
    return 1;
}

// With the number callback yajl hands over a number's text and converts none.
const yajl_callbacks callbacks = {
    event, bool_event, nullptr, nullptr, number_event, string_event,
    event, string_event, end_event, event, end_event,
};

} // namespace

extern "C" {

std::size_t peer_rapidjson(const std::uint8_t *text, std::size_t length, bool count)
{
    return rapid<rapidjson::kParseDefaultFlags>(text, length, count);
}

std::size_t peer_rapidjson_utf8(const std::uint8_t *text, std::size_t length, bool count)
{
    return rapid<rapidjson::kParseValidateEncodingFlag>(text, length, count);
}

// There must be 64 readable bytes behind the text.
std::size_t peer_simdjson(const std::uint8_t *text, std::size_t length, bool count)
{
    static simdjson::dom::parser parser;
    simdjson::dom::element root;

    if (parser.parse(text, length, false).get(root) != simdjson::SUCCESS) {
        return 0;
    }
    return count ? nodes_of(root) : 1;
}

std::size_t peer_cjson(const std::uint8_t *text, std::size_t length, bool count)
{
    cJSON *root = cJSON_ParseWithLength(reinterpret_cast<const char *>(text), length);
    std::size_t nodes = root ? 1 : 0;

    if (root && count) {
        nodes = nodes_of(root, false);
    }
    cJSON_Delete(root);
    return nodes;
}

// It has no tree: counting its events is all that is done with them.
std::size_t peer_yajl(const std::uint8_t *text, std::size_t length, bool)
{
    std::size_t nodes = 0;
    yajl_handle parser = yajl_alloc(&callbacks, nullptr, &nodes);
    bool taken = yajl_parse(parser, text, length) == yajl_status_ok
        && yajl_complete_parse(parser) == yajl_status_ok;

    yajl_free(parser);
    return taken ? nodes : 0;
}

void *writer_rapidjson_make(const std::uint8_t *text, std::size_t length)
{
    RapidTree *tree = new RapidTree;

    tree->document.Parse(reinterpret_cast<const char *>(text), length);
    return tree;
}

const char *writer_rapidjson(void *tree)
{
    return rapid_write<rapidjson::kWriteDefaultFlags>(tree);
}

const char *writer_rapidjson_utf8(void *tree)
{
    return rapid_write<rapidjson::kWriteValidateEncodingFlag>(tree);
}

void writer_rapidjson_free(void *tree)
{
    delete static_cast<RapidTree *>(tree);
}

void *writer_cjson_make(const std::uint8_t *text, std::size_t length)
{
    cJSON *root = cJSON_ParseWithLength(reinterpret_cast<const char *>(text), length);
    // It asks for some bytes more than it writes.
    int room = static_cast<int>(2 * length + 64);

    return new CTree{root, static_cast<char *>(std::malloc(room)), room};
}

// It is a little faster than cJSON_PrintUnformatted, which allocates.
const char *writer_cjson(void *tree)
{
    CTree *it = static_cast<CTree *>(tree);

    return cJSON_PrintPreallocated(it->root, it->text, it->room, false) ? it->text : nullptr;
}

void writer_cjson_free(void *tree)
{
    CTree *it = static_cast<CTree *>(tree);

    cJSON_Delete(it->root);
    std::free(it->text);
    delete it;
}

} // extern "C"
