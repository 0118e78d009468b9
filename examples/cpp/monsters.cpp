// Monsters between flatc.hpp and Google's FlatBuffers: monsters SCHEMA.fbs INPUT.json
//
// monster_generated.h is what Google's flatc generates of monster.fbs.
#include <flatc.hpp>

#include <flatbuffers/flatbuffers.h>

#include "monster_generated.h"

#include <fstream>
#include <iostream>
#include <sstream>
#include <thread>
#include <vector>

static std::string load(const char *path) {
    std::ifstream file(path, std::ios::binary);
    std::stringstream text;
    text << file.rdbuf();
    return text.str();
}

// Encodes JSON here; Google's verifier and generated code read the buffer.
static bool read_by_generated_code(const flatc::Schema &schema, std::string_view json) {
    flatc::Bytes buffer = schema.encode(json);
    flatbuffers::Verifier verifier(buffer.data(), buffer.size());
    if (!Game::VerifyMonsterBuffer(verifier)) return false;
    const Game::Monster *orc = Game::GetMonster(buffer.data());
    std::cout << orc->name()->str() << ": hp " << orc->hp() << ", z " << orc->at()->z() << ", "
              << orc->weapons()->size() << " weapons, casts " << orc->equipped_as_Spell()->name()->str() << "\n";
    return true;
}

// Builds with FlatBufferBuilder; the buffer is printed here.
static void print_what_is_built(const flatc::Schema &schema) {
    flatbuffers::FlatBufferBuilder builder;
    auto name = builder.CreateString("Elf");
    Game::Vec3 at(4, 5, 6);
    Game::MonsterBuilder monster(builder);
    monster.add_name(name);
    monster.add_at(&at);
    monster.add_hp(7);
    Game::FinishMonsterBuffer(builder, monster.Finish());
    std::cout << schema.decode(builder.GetBufferPointer(), builder.GetSize()).text();
}

// The threads share one schema.
static bool encode_in_threads(const flatc::Schema &schema, const std::string &json) {
    const std::size_t size = schema.encode(json).size();
    std::vector<std::thread> threads;
    std::vector<char> same(4, false);
    for (std::size_t k = 0; k < same.size(); k++) {
        threads.emplace_back([&schema, &json, &same, size, k] {
            bool all = true;
            for (int i = 0; i < 500; i++) {
                flatc::Bytes buffer = schema.encode(json);
                schema.verify(buffer);
                all = all && buffer.size() == size;
            }
            same[k] = all;
        });
    }
    for (std::thread &thread : threads) thread.join();
    return same == std::vector<char>(4, true);
}

int main(int argc, char **argv) {
    if (argc != 3) return 2;
    const std::string text = load(argv[1]), json = load(argv[2]);
    const flatc::Schema schema(text);
    if (!read_by_generated_code(schema, json)) return 1;
    print_what_is_built(schema);
    std::cout << (encode_in_threads(schema, json) ? "four threads: the same\n" : "four threads: not the same\n");
    try {
        schema.encode(R"({"name": "Orc", "hp": 70000})");
    } catch (const flatc::Refused &refused) {
        std::cout << refused.number() << " " << refused.name() << ", slot " << refused.slot().value_or(0) << "\n";
        std::cout << refused.explain(text, R"({"name": "Orc", "hp": 70000})");
    }
    return 0;
}
