/* flatc.h: JSON to FlatBuffers and back under schemas that are read at run time.
 *
 * A schema text is parsed once. Each message is then converted by one call: flatc_encode, flatc_decode, flatc_verify.
 * What each call returns is proved. The program that calls it isn't checked; it has to keep these rules:
 *
 *  - A handle (flatc_schema, flatc_bytes) is all zeros before its first use, as FLATC_SCHEMA_INIT and FLATC_BYTES_INIT
 *    make it. After that only these calls may write it. Don't copy the struct: a copy isn't a second handle.
 *  - A handle is used in one call at a time, and the handles passed to one call are different ones. So no schema is
 *    const here, not even in calls that only read it. Any thread may use a handle, if the calls are ordered: by a
 *    lock, or by starting or joining a thread. Threads that share a schema need no lock if each has its own handle
 *    (flatc_schema_share).
 *  - An input is `size` bytes that don't change during the call. It may be NULL where size is 0, and needs no
 *    alignment. It isn't part of the bytes held by `out`, which is cleared first.
 *  - No other pointer is NULL: each points to a valid struct of its type, `options` and `fault` too.
 *  - malloc, realloc and free come from one allocator. No call is made from a signal handler, nor in the forked child
 *    of a process with threads.
 *
 * A call takes up to 256 KiB of stack.
 */
#ifndef FLATC_H
#define FLATC_H

#include <stdbool.h>
#include <stddef.h>
#include <stdint.h>

#define FLATC_VERSION_MAJOR 0
#define FLATC_VERSION_MINOR 2
#define FLATC_VERSION_PATCH 0
#define FLATC_VERSION_STRING "0.2.0"
#define FLATC_VERSION_NUMBER (FLATC_VERSION_MAJOR * 65536u + FLATC_VERSION_MINOR * 256u + FLATC_VERSION_PATCH)

#ifdef __cplusplus
extern "C" {
#endif

/* How a call ended. */
typedef uint32_t flatc_status;
#define FLATC_OK 0u
#define FLATC_REFUSED 1u     /* The input is refused; the fault says why. The same input is refused each time. */
#define FLATC_NO_MEMORY 2u   /* Memory ran out. */
#define FLATC_NO_SCHEMA 3u   /* A schema's handle is empty. */
#define FLATC_BAD_OPTIONS 4u /* options->size is below 4 or above sizeof(flatc_options), or max_depth isn't 1 to 127 */
#define FLATC_NO_FAULT 5u    /* The flatc_fault wasn't written by a call. */

/* A schema, or none. The struct stays as it is in later versions. */
typedef struct flatc_schema {
    void *held; /* private */
    bool full;  /* private */
} flatc_schema;
#define FLATC_SCHEMA_INIT {NULL, false}

/* Bytes that a call made, or none: `size` bytes at `data`, which is aligned to 16, whatever force_align asks for.
 * The library owns them until the handle is cleared or passed as `out` again. The struct stays as it is in later
 * versions. */
typedef struct flatc_bytes {
    const uint8_t *data;
    size_t size;
    void *held; /* private */
    bool full;  /* private */
} flatc_bytes;
#define FLATC_BYTES_INIT {NULL, 0, NULL, false}

/* Why a call refused. A field without its `has_..` is 0. A call that returns FLATC_REFUSED
 * writes it, and one that returns FLATC_OK doesn't. After any other status its content is unspecified. */
typedef struct flatc_fault {
    uint64_t offset;  /* in bytes from the start of the schema text or the buffer */
    uint64_t type_id; /* the number of a declared type, from 0 */
    uint16_t slot;    /* the slot of a field in that type */
    uint8_t number;   /* no other fault has this number, in any version */
    bool has_offset;
    bool has_type;
    bool has_slot;
    uint8_t reserved[10];
    char name[32]; /* ends with a zero byte */
} flatc_fault;
#define FLATC_FAULT_INIT {0, 0, 0, 0, false, false, false, {0}, {0}}

/* The numbers of the faults that a refusal has: flatc_fault's `number`. Where a JSON text and a buffer have faults of
 * one name, the constants begin with JSON_ and BUFFER_. flatc_fault_name has the names, and `flatc explain NUMBER`
 * prints an example of each. */
#define FLATC_FAULT_NOT_UTF8 1u
#define FLATC_FAULT_BAD_BYTE 2u
#define FLATC_FAULT_UNTERMINATED 3u
#define FLATC_FAULT_NUMBER_TOO_BIG 4u
#define FLATC_FAULT_UNEXPECTED 5u
#define FLATC_FAULT_NESTED_VECTOR 6u
#define FLATC_FAULT_DUPLICATE_NAME 10u
#define FLATC_FAULT_UNKNOWN_TYPE 11u
#define FLATC_FAULT_BAD_DEFAULT 12u
#define FLATC_FAULT_BAD_IDS 13u
#define FLATC_FAULT_INCOMPLETE_STRUCT 14u
#define FLATC_FAULT_EMPTY_STRUCT 15u
#define FLATC_FAULT_BAD_ATTRIBUTE 16u
#define FLATC_FAULT_UNKNOWN_ATTRIBUTE 17u
#define FLATC_FAULT_UNSUPPORTED 18u
#define FLATC_FAULT_BAD_ENUM_VALUE 19u
#define FLATC_FAULT_BAD_MEMBER 20u
#define FLATC_FAULT_BAD_ROOT 21u
#define FLATC_FAULT_BAD_IDENTIFIER 22u
#define FLATC_FAULT_STRUCT_TOO_BIG 30u
#define FLATC_FAULT_TABLE_TOO_WIDE 31u
#define FLATC_FAULT_TOO_BIG 40u
#define FLATC_FAULT_SHORT 50u
#define FLATC_FAULT_TOO_LONG 51u
#define FLATC_FAULT_WRONG_IDENTIFIER 52u
#define FLATC_FAULT_MISALIGNED 53u
#define FLATC_FAULT_OUT_OF_BOUNDS 54u
#define FLATC_FAULT_ZERO_OFFSET 55u
#define FLATC_FAULT_BAD_VTABLE 56u
#define FLATC_FAULT_BUFFER_MISSING_REQUIRED 57u
#define FLATC_FAULT_NO_TERMINATOR 58u
#define FLATC_FAULT_BAD_UTF8 59u
#define FLATC_FAULT_BUFFER_UNION_MISMATCH 60u
#define FLATC_FAULT_BUFFER_TOO_DEEP 62u
#define FLATC_FAULT_BUFFER_TOO_MANY_CELLS 63u
#define FLATC_FAULT_WRONG_SHAPE 70u
#define FLATC_FAULT_NOT_WHOLE 71u
#define FLATC_FAULT_OUT_OF_RANGE 72u
#define FLATC_FAULT_UNKNOWN_NAME 73u
#define FLATC_FAULT_UNKNOWN_MEMBER 74u
#define FLATC_FAULT_MISSING_MEMBER 75u
#define FLATC_FAULT_JSON_MISSING_REQUIRED 76u
#define FLATC_FAULT_JSON_UNION_MISMATCH 77u
#define FLATC_FAULT_JSON_TOO_DEEP 78u
#define FLATC_FAULT_JSON_TOO_MANY_CELLS 79u
#define FLATC_FAULT_NO_MEMBER_NAME 81u
#define FLATC_FAULT_ROOT_CHANGED 90u
#define FLATC_FAULT_IDENTIFIER_CHANGED 91u
#define FLATC_FAULT_TYPE_GONE 92u
#define FLATC_FAULT_KIND_CHANGED 93u
#define FLATC_FAULT_STRUCT_CHANGED 94u
#define FLATC_FAULT_SLOT_GONE 95u
#define FLATC_FAULT_FIELD_TYPE_CHANGED 96u
#define FLATC_FAULT_DEFAULT_CHANGED 97u
#define FLATC_FAULT_REQUIRED_CHANGED 98u
#define FLATC_FAULT_DEPRECATED_TAKEN_BACK 99u
#define FLATC_FAULT_NEW_REQUIRED 100u
#define FLATC_FAULT_ENUM_CHANGED 101u
#define FLATC_FAULT_UNION_CHANGED 102u
#define FLATC_FAULT_BAD_JSON 113u

/* How a message is converted; start from FLATC_OPTIONS_INIT. A later version may add fields after `reserved`, and still
 * accepts this struct. Fields outside the first `size` bytes have their defaults, but the whole struct must be
 * readable. Zero isn't a default: with a max_depth of 0 a call returns FLATC_BAD_OPTIONS, and with a max_cells of 0 it
 * accepts nothing. */
typedef struct flatc_options {
    uint32_t size;      /* sizeof(flatc_options); at least 4 */
    uint32_t max_cells; /* maximum number of cells; 100000000 by default. Each table, vector and
                         * string counts one, and so does each byte of a string and each
                         * element of a vector */
    uint8_t max_depth;  /* how deep tables may be nested, 1 to 127; 64 by default */
    bool unknown_json;  /* flatc_encode: ignores unknown JSON fields */
    bool raw_binary;    /* flatc_decode, flatc_verify: skips the file identifier check */
    bool defaults_json; /* flatc_decode: includes fields with default values */
    bool size_prefixed; /* flatc_encode, _decode, _verify: the buffer begins with its length, as 32 bits */
    bool compact;       /* flatc_decode: no blanks and line feeds outside strings */
    uint8_t reserved[2]; /* no version reads it, since in 0.2.0 it was padding */
} flatc_options;
#define FLATC_OPTIONS_INIT {(uint32_t)sizeof(flatc_options), 100000000u, 64, false, false, false, false, false, {0, 0}}

/* The FLATC_VERSION_NUMBER that the library was built with. */
uint32_t flatc_version(void);

/* Parses a schema text (.fbs) without includes, and keeps what encoding and decoding need of it; the text isn't needed
 * afterwards. What `schema` held is freed first. If the status isn't FLATC_OK, the handle is empty.
 * OK, REFUSED (the text declares no schema: the first fault), NO_MEMORY. */
flatc_status flatc_schema_parse(flatc_schema *schema, const void *text, size_t size, flatc_fault *fault);

/* Makes `to` a second handle of the schema, for another thread. The schema is freed with its last handle. What `to`
 * held is freed first. If the status isn't FLATC_OK, `to` is empty.
 * OK, NO_MEMORY, NO_SCHEMA. */
flatc_status flatc_schema_share(flatc_schema *from, flatc_schema *to);

/* Frees what the handle holds, if it holds something. It is empty then, and may be used again. */
void flatc_schema_clear(flatc_schema *schema);
void flatc_bytes_clear(flatc_bytes *bytes);

/* Converts a JSON text (UTF-8) to a FlatBuffer: bytes that encode exactly the value that the text means.
 * If the status isn't FLATC_OK, `out` is empty.
 * OK, REFUSED (the text isn't JSON, doesn't fit the schema, exceeds a limit, or the buffer would be longer than
 * 2147483647 bytes: the first fault), NO_MEMORY, NO_SCHEMA, BAD_OPTIONS. */
flatc_status flatc_encode(flatc_schema *schema, const void *json, size_t size, const flatc_options *options,
                          flatc_bytes *out, flatc_fault *fault);

/* Verifies a FlatBuffer and converts it to JSON (UTF-8, no zero byte after it).
 * If the status isn't FLATC_OK, `out` is empty.
 * OK, REFUSED (the bytes encode no value, or the value has a union code that the schema doesn't declare: the first
 * fault), NO_MEMORY, NO_SCHEMA, BAD_OPTIONS. */
flatc_status flatc_decode(flatc_schema *schema, const void *buffer, size_t size, const flatc_options *options,
                          flatc_bytes *out, flatc_fault *fault);

/* Whether the bytes encode a value. Allocates nothing.
 * OK, REFUSED (they encode none: the first fault), NO_SCHEMA, BAD_OPTIONS. */
flatc_status flatc_verify(flatc_schema *schema, const void *buffer, size_t size, const flatc_options *options,
                          flatc_fault *fault);

/* Whether a new schema conforms to an old one: programs with the new schema read the old one's data, and the other way
 * round. Only union members that its schema doesn't declare are refused by flatc_decode. Names aren't compared, as
 * they are by `flatc conform --names`. The two handles are different.
 * OK, REFUSED (the first breach; types and slots have the old schema's numbers, except the slot of a new required
 * field), NO_SCHEMA. */
flatc_status flatc_conform(flatc_schema *old_schema, flatc_schema *new_schema, flatc_fault *fault);

/* A fault's name, with zeros after it. */
typedef struct flatc_name {
    char text[32];
} flatc_name;

/* The name of the fault with this number. Returns false and writes nothing if no call reports such a fault. */
bool flatc_fault_name(uint8_t number, flatc_name *name);

/* The sentence of a fault: what is wrong and where, in one line without a line feed.
 * OK, NO_MEMORY, NO_FAULT. If the status isn't FLATC_OK, `out` is empty. */
flatc_status flatc_fault_message(const flatc_fault *fault, flatc_bytes *out);

/* A human-readable explanation, as `flatc --explain` prints it: lines of at most 120 columns, each ended by a line
 * feed, without control characters. `schema` is the schema text; for flatc_conform, the old one. `input` is the JSON
 * text, the buffer or the new schema's text; for flatc_schema_parse, NULL and 0. The options are those of the call
 * that refused. It reads the inputs again, and takes as long as one or two calls.
 * OK, NO_MEMORY, BAD_OPTIONS, NO_FAULT. If the status isn't FLATC_OK, `out` is empty. */
flatc_status flatc_explain(const flatc_fault *fault, const void *schema, size_t schema_size, const void *input,
                           size_t input_size, const flatc_options *options, flatc_bytes *out);

#ifdef __cplusplus
}
#endif
#endif
