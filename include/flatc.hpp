// flatc.hpp: an RAII wrapper over flatc.h. Needs C++17 and nothing else.
//
//     const flatc::Schema schema(text);
//     flatc::Bytes buffer = schema.encode(R"({"name": "Orc"})");
//     std::string_view json = schema.decode(buffer).text();   // lives as long as the Bytes
//
// A call that refuses throws flatc::Refused, and one that runs out of memory std::bad_alloc. Bad options throw
// std::invalid_argument, and a Schema that was moved from std::logic_error. Threads may use one Schema at the same
// time.
#ifndef FLATC_HPP
#define FLATC_HPP

#include <flatc.h>

#include <cstddef>
#include <cstdint>
#include <iterator>
#include <memory>
#include <mutex>
#include <new>
#include <optional>
#include <stdexcept>
#include <string>
#include <string_view>
#include <type_traits>
#include <utility>

namespace flatc {

/// How a message is converted; see flatc.h.
struct Options : flatc_options {
    Options() : flatc_options(FLATC_OPTIONS_INIT) {}
};

/// Bytes that a call reads: of a string, a vector, a span or an array, or `size` bytes at an address. They aren't
/// copied.
class View {
public:
    View() noexcept = default;
    View(const void *data, std::size_t size) noexcept : data_(static_cast<const std::uint8_t *>(data)), size_(size) {}
    /// A text that ends with a zero byte, which isn't part of it.
    View(const char *text) : View(std::string_view(text)) {}
    template <typename Range, typename = std::enable_if_t<sizeof(*std::data(std::declval<const Range &>())) == 1
                                                         && !std::is_convertible_v<const Range &, const char *>>>
    View(const Range &bytes) noexcept : View(std::data(bytes), std::size(bytes)) {}

    const std::uint8_t *data() const noexcept { return data_; }
    std::size_t size() const noexcept { return size_; }
    bool empty() const noexcept { return size_ == 0; }
    const std::uint8_t *begin() const noexcept { return data_; }
    const std::uint8_t *end() const noexcept { return data_ + size_; }

private:
    const std::uint8_t *data_ = nullptr;
    std::size_t size_ = 0;
};

/// Bytes that a call made. They can be moved, not copied.
class Bytes {
public:
    Bytes() noexcept = default;
    Bytes(Bytes &&other) noexcept { std::swap(raw_, other.raw_); }
    Bytes &operator=(Bytes &&other) noexcept {
        std::swap(raw_, other.raw_);
        return *this;
    }
    ~Bytes() { flatc_bytes_clear(&raw_); }

    const std::uint8_t *data() const noexcept { return raw_.data; }
    std::size_t size() const noexcept { return raw_.size; }
    bool empty() const noexcept { return raw_.size == 0; }
    const std::uint8_t *begin() const noexcept { return raw_.data; }
    const std::uint8_t *end() const noexcept { return raw_.data + raw_.size; }

    /// The bytes as text; valid as long as this object.
    std::string_view text() const & noexcept { return {reinterpret_cast<const char *>(raw_.data), raw_.size}; }
    std::string text() && { return {reinterpret_cast<const char *>(raw_.data), raw_.size}; }

    /// The handle, for calls of flatc.h.
    flatc_bytes *raw() noexcept { return &raw_; }

private:
    flatc_bytes raw_ = FLATC_BYTES_INIT;
};

inline void throw_other(flatc_status status) {
    if (status == FLATC_NO_MEMORY) throw std::bad_alloc();
    if (status == FLATC_NO_SCHEMA) throw std::logic_error("flatc: the schema was moved away");
    if (status == FLATC_BAD_OPTIONS) throw std::invalid_argument("flatc: bad options");
    if (status == FLATC_NO_FAULT) throw std::invalid_argument("flatc: not a fault of a call");
}

/// An input was refused. `what()` is the fault's sentence.
class Refused : public std::runtime_error {
public:
    explicit Refused(const flatc_fault &fault) : std::runtime_error(message_of(fault)), fault_(fault) {}

    /// One of the constants FLATC_FAULT_..
    unsigned number() const noexcept { return fault_.number; }
    const char *name() const noexcept { return fault_.name; }
    std::optional<std::uint64_t> offset() const noexcept { return if_there(fault_.has_offset, fault_.offset); }
    std::optional<std::uint64_t> type_id() const noexcept { return if_there(fault_.has_type, fault_.type_id); }
    std::optional<std::uint64_t> slot() const noexcept { return if_there(fault_.has_slot, fault_.slot); }
    const flatc_fault &fault() const noexcept { return fault_; }

    /// A human-readable explanation; see flatc_explain.
    std::string explain(View schema, View input, const Options &options = {}) const {
        Bytes lines;
        throw_other(flatc_explain(&fault_, schema.data(), schema.size(), input.data(), input.size(), &options,
                                  lines.raw()));
        return std::move(lines).text();
    }

private:
    static std::optional<std::uint64_t> if_there(bool is_there, std::uint64_t value) noexcept {
        return is_there ? std::optional<std::uint64_t>(value) : std::nullopt;
    }
    static std::string message_of(const flatc_fault &fault) {
        Bytes message;
        throw_other(flatc_fault_message(&fault, message.raw()));
        return std::move(message).text();
    }

    flatc_fault fault_;
};

/// A schema. A copy is the same schema, which isn't parsed again. Its calls are const, and may be made at the same
/// time.
///
/// The library's handles are in one call at a time. So a schema has a handle for calls, which each call tries to lock.
/// A call that finds it in use makes a handle of its own, which costs an allocation; where memory for that runs out,
/// it waits. A thread with a Schema of its own, by share(), never finds the handle in use.
class Schema {
public:
    explicit Schema(View text) : handles_(std::make_shared<Handles>()) {
        flatc_fault fault = FLATC_FAULT_INIT;
        check(flatc_schema_parse(&handles_->source.raw, text.data(), text.size(), &fault), fault);
        throw_other(handles_->share(handles_->first));
    }

    /// The same schema with handles of its own, for another thread.
    Schema share() const {
        Schema other(std::make_shared<Handles>());
        throw_other(handles().share(other.handles_->source));
        throw_other(other.handles_->share(other.handles_->first));
        return other;
    }

    Bytes encode(View json, const Options &options = {}) const {
        Bytes out;
        flatc_fault fault = FLATC_FAULT_INIT;
        check(with_handle([&](flatc_schema *schema) {
                  return flatc_encode(schema, json.data(), json.size(), &options, out.raw(), &fault);
              }),
              fault);
        return out;
    }

    Bytes decode(View buffer, const Options &options = {}) const {
        Bytes out;
        flatc_fault fault = FLATC_FAULT_INIT;
        check(with_handle([&](flatc_schema *schema) {
                  return flatc_decode(schema, buffer.data(), buffer.size(), &options, out.raw(), &fault);
              }),
              fault);
        return out;
    }
    Bytes decode(const void *buffer, std::size_t size, const Options &options = {}) const {
        return decode(View(buffer, size), options);
    }

    /// Throws Refused unless the bytes encode a value.
    void verify(View buffer, const Options &options = {}) const {
        flatc_fault fault = FLATC_FAULT_INIT;
        check(with_handle([&](flatc_schema *schema) {
                  return flatc_verify(schema, buffer.data(), buffer.size(), &options, &fault);
              }),
              fault);
    }
    void verify(const void *buffer, std::size_t size, const Options &options = {}) const {
        verify(View(buffer, size), options);
    }

    /// Throws Refused unless `newer` conforms to this schema.
    void conform(const Schema &newer) const {
        Handle other;
        throw_other(newer.handles().share(other));
        flatc_fault fault = FLATC_FAULT_INIT;
        check(with_handle([&](flatc_schema *schema) { return flatc_conform(schema, &other.raw, &fault); }), fault);
    }

private:
    struct Handle {
        Handle() noexcept = default;
        Handle(const Handle &) = delete;
        Handle &operator=(const Handle &) = delete;
        ~Handle() { flatc_schema_clear(&raw); }

        flatc_schema raw = FLATC_SCHEMA_INIT;
    };

    struct Handles {
        /// Makes another handle of the schema. Nobody waits for long: `source` is in no other call.
        flatc_status share(Handle &to) {
            const std::lock_guard<std::mutex> lock(of_source);
            return flatc_schema_share(&source.raw, &to.raw);
        }

        std::mutex of_first, of_source;
        Handle first, source;
    };

    explicit Schema(std::shared_ptr<Handles> handles) noexcept : handles_(std::move(handles)) {}

    Handles &handles() const {
        if (!handles_) throw_other(FLATC_NO_SCHEMA);
        return *handles_;
    }

    /// Makes a call with a handle that no other call has.
    template <typename Call>
    flatc_status with_handle(Call call) const {
        Handles &handles = this->handles();
        std::unique_lock<std::mutex> lock(handles.of_first, std::try_to_lock);
        if (!lock.owns_lock()) {
            Handle own;
            if (handles.share(own) == FLATC_OK) return call(&own.raw);
            lock.lock();
        }
        return call(&handles.first.raw);
    }

    static void check(flatc_status status, const flatc_fault &fault) {
        if (status == FLATC_REFUSED) throw Refused(fault);
        throw_other(status);
    }

    std::shared_ptr<Handles> handles_;
};

/// A stream ends within a message.
class Truncated : public std::runtime_error {
public:
    explicit Truncated(std::size_t offset)
        : std::runtime_error("the stream ends within the message at offset " + std::to_string(offset)),
          offset_(offset) {}

    /// Where the message begins, in bytes from the start of the stream.
    std::size_t offset() const noexcept { return offset_; }

private:
    std::size_t offset_;
};

/// Takes the first message of a stream of size-prefixed buffers, with its prefix; none where not all of it is there.
inline std::optional<View> take_message(View &stream) noexcept {
    if (stream.size() < 4) return std::nullopt;
    const std::uint8_t *at = stream.data();
    const std::uint64_t length = 4 + (at[0] | std::uint64_t{at[1]} << 8 | std::uint64_t{at[2]} << 16
                                      | std::uint64_t{at[3]} << 24);
    if (length > stream.size()) return std::nullopt;
    const auto size = static_cast<std::size_t>(length);
    stream = View(at + size, stream.size() - size);
    return View(at, size);
}

/// The messages of a stream of size-prefixed buffers, for a range-based for: each with its prefix, and not verified.
/// An iterator that comes to an incomplete message throws Truncated.
class Messages {
public:
    class iterator {
    public:
        using iterator_category = std::input_iterator_tag;
        using value_type = View;
        using difference_type = std::ptrdiff_t;
        using pointer = const View *;
        using reference = View;

        iterator() noexcept = default;
        View operator*() const noexcept { return *message_; }
        const View *operator->() const noexcept { return &*message_; }
        iterator &operator++() {
            next();
            return *this;
        }
        iterator operator++(int) {
            iterator before = *this;
            next();
            return before;
        }
        bool operator==(const iterator &other) const noexcept {
            return message_.has_value() == other.message_.has_value()
                   && (!message_ || message_->data() == other.message_->data());
        }
        bool operator!=(const iterator &other) const noexcept { return !(*this == other); }

    private:
        friend class Messages;
        explicit iterator(View stream) : begin_(stream.data()), rest_(stream) { next(); }

        void next() {
            message_ = take_message(rest_);
            if (!message_ && !rest_.empty()) throw Truncated(static_cast<std::size_t>(rest_.data() - begin_));
        }

        const std::uint8_t *begin_ = nullptr;
        View rest_;
        std::optional<View> message_;
    };

    explicit Messages(View stream) noexcept : stream_(stream) {}
    iterator begin() const { return iterator(stream_); }
    iterator end() const noexcept { return {}; }

private:
    View stream_;
};

}  // namespace flatc
#endif
