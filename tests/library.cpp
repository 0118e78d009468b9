// The wrapper for C++ as a program calls it: library
//
// Prints a line for each check, 'right' or 'wrong' and what it is of, and returns 1 where one is wrong.
#include <flatc.hpp>

#include <array>
#include <atomic>
#include <cstring>
#include <functional>
#include <iostream>
#include <string>
#include <thread>
#include <type_traits>
#include <vector>
#if __cplusplus >= 202002L
#include <span>
#endif

namespace {

const char *const TEXT = "table Monster { name:string; hp:short = 100; } root_type Monster;";
const char *const NEWER = "table Monster { name:string; hp:short = 200; } root_type Monster;";
const char *const ORC = R"({"name": "Orc"})";
const char *const PRINTED = "{\n  \"name\": \"Orc\"\n}\n";

bool all_right = true;

void tell(const char *what, bool good) {
    std::cout << (good ? "right: " : "wrong: ") << what << "\n";
    all_right = all_right && good;
}

// The number of the fault with which a call refuses; 0 where it doesn't.
unsigned refusal(const std::function<void()> &call) {
    try {
        call();
    } catch (const flatc::Refused &refused) {
        return refused.number();
    }
    return 0;
}

template <typename Error>
bool throws(const std::function<void()> &call) {
    try {
        call();
    } catch (const Error &) {
        return true;
    }
    return false;
}

bool is_aligned(const flatc::Bytes &bytes) { return reinterpret_cast<std::uintptr_t>(bytes.data()) % 16 == 0; }

void conversions() {
    const flatc::Schema schema(TEXT);
    const flatc::Bytes buffer = schema.encode(ORC);
    tell("a const schema encodes and decodes", buffer.size() == 28 && schema.decode(buffer).text() == PRINTED);
    const flatc::Bytes text = schema.decode(buffer);
    tell("results are aligned", is_aligned(buffer) && is_aligned(text));
    tell("an option", refusal([&] { schema.encode(R"({"x": 1})"); }) == FLATC_FAULT_UNKNOWN_MEMBER);
    flatc::Options options;
    options.unknown_json = true;
    tell("the option set", refusal([&] { schema.encode(R"({"x": 1})", options); }) == 0);
    options.max_depth = 0;
    tell("a bad option", throws<std::invalid_argument>([&] { schema.encode(ORC, options); }));
    try {
        schema.encode(R"({"hp": 70000})");
    } catch (const flatc::Refused &refused) {
        tell("the number of a refusal", refused.number() == FLATC_FAULT_OUT_OF_RANGE);
        tell("its name", std::strcmp(refused.name(), "OutOfRange") == 0);
        tell("its place", refused.type_id() == 0u && refused.slot() == 1u && !refused.offset());
        tell("its explanation", refused.explain(TEXT, R"({"hp": 70000})").find("70000") != std::string::npos);
    }
}

void inputs() {
    const flatc::Schema schema{std::string(TEXT)};
    const std::string json = ORC;
    const flatc::Bytes buffer = schema.encode(json);
    const std::vector<std::uint8_t> vector(buffer.begin(), buffer.end());
    const std::string string(buffer.begin(), buffer.end());
    std::array<std::byte, 28> array;
    std::memcpy(array.data(), buffer.data(), buffer.size());
    tell("a string", schema.decode(string).text() == PRINTED);
    tell("a view of a string", schema.encode(std::string_view(json)).size() == 28);
    tell("a literal", schema.encode(R"({"name": "Orc"})").size() == 28);
    tell("a vector", schema.decode(vector).text() == PRINTED);
    tell("an array", schema.decode(array).text() == PRINTED);
    tell("an address and a size", schema.decode(vector.data(), vector.size()).text() == PRINTED);
    tell("nothing", refusal([&] { schema.verify(flatc::View()); }) == FLATC_FAULT_SHORT);
#if __cplusplus >= 202002L
    tell("a span", schema.decode(std::span<const std::uint8_t>(vector)).text() == PRINTED);
    tell("a span of a result", schema.decode(std::span<const std::uint8_t>(buffer)).text() == PRINTED);
#endif
}

void schemas() {
    flatc::Schema schema(TEXT);
    tell("a schema conforms to itself", refusal([&] { schema.conform(schema); }) == 0);
    const flatc::Schema copy = schema, own = schema.share();
    tell("a copy conforms", refusal([&] { copy.conform(schema); }) == 0);
    tell("a shared one conforms", refusal([&] { schema.conform(own); }) == 0);
    const unsigned breach = refusal([&] { schema.conform(flatc::Schema(NEWER)); });
    tell("a breach", breach == FLATC_FAULT_DEFAULT_CHANGED);
    tell("no schema", refusal([] { flatc::Schema("table {"); }) == FLATC_FAULT_UNEXPECTED);
    const flatc::Schema other = std::move(schema);
    tell("a moved one works", other.encode(ORC).size() == 28);
    tell("what it was moved from", throws<std::logic_error>([&] { schema.encode(ORC); }));
    tell("its shares", throws<std::logic_error>([&] { schema.share(); }));
    schema = other;
    tell("what was assigned again", schema.encode(ORC).size() == 28);
}

void threads() {
    static const flatc::Schema schema(TEXT);
    std::atomic<int> good{0};
    std::vector<std::thread> all;
    for (int k = 0; k < 4; k++) {
        all.emplace_back([&good] {
            for (int i = 0; i < 500; i++) {
                const flatc::Bytes buffer = schema.encode(ORC);
                schema.verify(buffer);
                schema.conform(schema);
                good += schema.decode(buffer).text() == PRINTED;
            }
        });
    }
    for (std::thread &thread : all) thread.join();
    tell("a static schema in four threads", good == 4 * 500);
}

void streams() {
    const flatc::Schema schema(TEXT);
    flatc::Options options;
    options.size_prefixed = options.compact = true;
    std::string stream, printed;
    for (const char *json : {R"({"name": "Orc"})", R"({"name": "Elf"})"}) {
        const flatc::Bytes message = schema.encode(json, options);
        stream.append(message.begin(), message.end());
    }
    for (const flatc::View message : flatc::Messages(stream)) printed += schema.decode(message, options).text();
    tell("the messages of a stream", printed == R"({"name":"Orc"}{"name":"Elf"})");
    tell("none of no stream", flatc::Messages("").begin() == flatc::Messages("").end());
    const std::size_t length = stream.size() / 2;
    std::size_t count = 0, offset = 0;
    try {
        for (const flatc::View message : flatc::Messages(flatc::View(stream.data(), stream.size() - 1))) {
            count += message.size() == length;
        }
    } catch (const flatc::Truncated &truncated) {
        offset = truncated.offset();
    }
    tell("a stream that is cut", count == 1 && offset == length);
    flatc::View rest = stream;
    tell("a message that is taken", flatc::take_message(rest)->size() == length && rest.size() == length);
    rest = flatc::View(stream.data(), 3);
    tell("a prefix that is cut", !flatc::take_message(rest) && rest.size() == 3);
}

}  // namespace

static_assert(std::is_copy_constructible_v<flatc::Schema> && std::is_nothrow_move_constructible_v<flatc::Schema>);
static_assert(!std::is_copy_constructible_v<flatc::Bytes> && std::is_nothrow_move_constructible_v<flatc::Bytes>);

int main() {
    conversions();
    inputs();
    schemas();
    threads();
    streams();
    return all_right ? 0 : 1;
}
