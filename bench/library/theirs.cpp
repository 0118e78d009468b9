// The same calls of libflatbuffers, with its schema kept:
// theirs SCHEMA.fbs INPUT.json encode|decode|verify|schema_parse|nothing COUNT SCHEMA.bfbs
#include <flatbuffers/idl.h>
#include <flatbuffers/reflection.h>
#include <flatbuffers/util.h>

#include <cstdio>
#include <cstdlib>
#include <string>

int main(int argc, char **argv) {
    if (argc != 6) return 2;
    std::string text, json, binary;
    if (!flatbuffers::LoadFile(argv[1], false, &text) || !flatbuffers::LoadFile(argv[2], false, &json)) return 2;
    if (!flatbuffers::LoadFile(argv[5], true, &binary)) return 2;
    flatbuffers::IDLOptions options;
    options.strict_json = true;
    flatbuffers::Parser parser(options);
    if (!parser.Parse(text.c_str()) || !parser.ParseJson(json.c_str())) return 3;
    const std::string buffer(reinterpret_cast<char *>(parser.builder_.GetBufferPointer()), parser.builder_.GetSize());
    const auto *bytes = reinterpret_cast<const std::uint8_t *>(buffer.data());
    const reflection::Schema &schema = *reflection::GetSchema(binary.data());
    const std::string call = argv[3];
    std::size_t total = 0;
    for (long left = std::atol(argv[4]); left > 0; left--) {
        if (call == "encode" && !parser.ParseJson(json.c_str())) return 4;
        if (call == "decode") {
            std::string out;
            if (!flatbuffers::GenerateText(parser, bytes, &out)) return 4;
            total += out.size();
        }
        if (call == "verify" && !flatbuffers::Verify(schema, *schema.root_table(), bytes, buffer.size())) return 4;
        if (call == "schema_parse") {
            flatbuffers::Parser fresh(options);
            if (!fresh.Parse(text.c_str())) return 4;
        }
        total++;
    }
    std::printf("%zu\n", total);
    return 0;
}
