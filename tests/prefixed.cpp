// Whether size-prefixed buffers hold a value under a binary schema, by the verifier of Google's library.
// usage: verify SCHEMA.bfbs BUFFER.. ; the status is 0 where all do
#include <flatbuffers/reflection.h>

#include <fstream>
#include <iostream>
#include <iterator>
#include <vector>

static std::vector<uint8_t> load(const char *path) {
    std::ifstream file(path, std::ios::binary);
    return {std::istreambuf_iterator<char>(file), {}};
}

int main(int count, char **words) {
    const auto text = load(words[1]);
    const auto *schema = reflection::GetSchema(text.data());
    int status = 0;
    for (int k = 2; k < count; k++) {
        const auto bytes = load(words[k]);
        if (!flatbuffers::VerifySizePrefixed(*schema, *schema->root_table(), bytes.data(), bytes.size())) {
            std::cerr << words[k] << " holds no value\n";
            status = 1;
        }
    }
    return status;
}
