/* What the tests of the library do with it from C: library misuse, or library CALL SCHEMA.fbs INPUT.json.
 *
 * With a call's name it makes that call between the lines "armed" and "disarmed", for tests/refuse.c, and then the same
 * call again; it prints the status and the fault's number of both. It is linked so that each block of the heap that
 * the library takes or frees is counted, and says how many are left at the end.
 */
#include <flatc.h>
#include <stdio.h>
#include <stdlib.h>
#include <string.h>
#include <unistd.h>

static long live;

void *__real_malloc(size_t size);
void *__real_realloc(void *block, size_t size);
void __real_free(void *block);

void *__wrap_malloc(size_t size) {
    void *block = __real_malloc(size);
    live += block != NULL;
    return block;
}

void *__wrap_realloc(void *block, size_t size) {
    void *moved = __real_realloc(block, size);
    live += block == NULL && moved != NULL;
    return moved;
}

void __wrap_free(void *block) {
    live -= block != NULL;
    __real_free(block);
}

static const char *const TEXT = "table T { a:int; } root_type T;";
static const char *const NEWER = "table T { a:int; b:int; } root_type T;";
static const char *const BROKEN = "table T { a:long; } root_type T;";

static flatc_schema schema = FLATC_SCHEMA_INIT, other = FLATC_SCHEMA_INIT;
static flatc_bytes made = FLATC_BYTES_INIT, text = FLATC_BYTES_INIT;
static flatc_options options = FLATC_OPTIONS_INIT;
static flatc_fault fault = FLATC_FAULT_INIT;

static void tell(const char *what, int good) { printf("%s %s\n", good ? "ok" : "not", what); }

static flatc_status encode(const char *json) {
    return flatc_encode(&schema, json, strlen(json), &options, &made, &fault);
}

static void nothing(void) {
    flatc_schema none = FLATC_SCHEMA_INIT;
    tell("clear of an empty schema", (flatc_schema_clear(&none), !none.full));
    tell("clear of empty bytes", (flatc_bytes_clear(&made), !made.full && made.size == 0));
    tell("share of an empty schema", flatc_schema_share(&none, &other) == FLATC_NO_SCHEMA);
    tell("encode without a schema", flatc_encode(&none, "{}", 2, &options, &made, &fault) == FLATC_NO_SCHEMA);
    tell("decode without a schema", flatc_decode(&none, "{}", 2, &options, &made, &fault) == FLATC_NO_SCHEMA);
    tell("verify without a schema", flatc_verify(&none, "{}", 2, &options, &fault) == FLATC_NO_SCHEMA);
    tell("conform without a schema", flatc_conform(&none, &other, &fault) == FLATC_NO_SCHEMA);
    tell("an empty schema text", flatc_schema_parse(&none, NULL, 0, &fault) == FLATC_REFUSED && !none.full);
    tell("a schema", flatc_schema_parse(&schema, TEXT, strlen(TEXT), &fault) == FLATC_OK && schema.full);
    tell("conform to nothing", flatc_conform(&schema, &none, &fault) == FLATC_NO_SCHEMA && schema.full);
    tell("an empty JSON text", flatc_encode(&schema, NULL, 0, &options, &made, &fault) == FLATC_REFUSED);
    tell("an empty buffer", flatc_decode(&schema, NULL, 0, &options, &made, &fault) == FLATC_REFUSED);
    tell("an empty buffer verified", flatc_verify(&schema, NULL, 0, &options, &fault) == FLATC_REFUSED);
    tell("its explanation", flatc_explain(&fault, NULL, 0, NULL, 0, &options, &made) == FLATC_OK);
}

static void settings(void) {
    static const uint8_t depths[] = {0, 128, 255};
    static const uint32_t sizes[] = {0, 3, 17, 100};
    for (size_t k = 0; k < sizeof depths; k++) {
        options.max_depth = depths[k];
        tell("a depth out of range to encode", encode("{}") == FLATC_BAD_OPTIONS && !made.full);
        tell("a depth out of range to verify", flatc_verify(&schema, "", 0, &options, &fault) == FLATC_BAD_OPTIONS);
    }
    options.max_depth = 64;
    for (size_t k = 0; k < sizeof sizes / sizeof *sizes; k++) {
        options.size = sizes[k];
        tell("a size that no version has", encode("{}") == FLATC_BAD_OPTIONS);
        tell("and to explain", flatc_explain(&fault, "", 0, "", 0, &options, &made) == FLATC_BAD_OPTIONS);
    }
    options.max_depth = 0;
    options.max_cells = 0;
    options.size = 4;
    tell("a size without a field: the defaults", encode("{\"a\":7}") == FLATC_OK);
    options.size = 8;
    tell("a size with the cells alone", encode("{\"a\":7}") == FLATC_REFUSED);
    options.max_depth = 64;
    options.unknown_json = true;
    options.max_cells = 100;
    options.size = 9;
    tell("a size before a flag", encode("{\"x\":7}") == FLATC_REFUSED);
    options.size = 10;
    tell("and behind it", encode("{\"x\":7}") == FLATC_OK);
    options.unknown_json = false;
    options.size_prefixed = true;
    options.size = 12;
    tell("a size before the flag of a count", encode("{\"a\":7}") == FLATC_OK && made.size == 20);
    options.size = 13;
    tell("and behind it", encode("{\"a\":7}") == FLATC_OK && made.size == 24 && made.data[0] == 20 &&
         made.data[20] == 7);
    options.size_prefixed = false;
    options.compact = true;
    tell("a size before the flag of a compact text", encode("{\"a\":7}") == FLATC_OK &&
         flatc_decode(&schema, made.data, made.size, &options, &text, &fault) == FLATC_OK && text.size == 13);
    options.size = 14;
    tell("and behind it", flatc_decode(&schema, made.data, made.size, &options, &text, &fault) == FLATC_OK &&
         text.size == 7 && memcmp(text.data, "{\"a\":7}", 7) == 0);
    options.compact = false;
    options.size = sizeof options;
    options.max_cells = 0;
    tell("no cell", encode("{\"a\":1}") == FLATC_REFUSED && strcmp(fault.name, "TooManyCells") == 0);
    options.max_cells = 100000000;
}

static void handles(void) {
    const uint8_t *data;
    flatc_fault untouched;
    memset(&fault, 1, sizeof fault);
    memcpy(&untouched, &fault, sizeof fault);
    tell("encode", encode("{\"a\":7}") == FLATC_OK && made.size == 20);
    tell("no fault is written then", memcmp(&untouched, &fault, sizeof fault) == 0);
    data = made.data;
    tell("decode", flatc_decode(&schema, data, made.size, &options, &text, &fault) == FLATC_OK);
    tell("its text", text.size == 13 && memcmp(text.data, "{\n  \"a\": 7\n}\n", 13) == 0);
    tell("bytes used again", encode("{\"a\":8}") == FLATC_OK && made.size == 20 && made.data[16] == 8);
    tell("a refusal empties them", encode("{\"a\":\"x\"}") == FLATC_REFUSED && made.size == 0 && !made.full);
    tell("a handle shared", flatc_schema_share(&schema, &other) == FLATC_OK);
    tell("a schema used again", flatc_schema_parse(&schema, NEWER, strlen(NEWER), &fault) == FLATC_OK);
    tell("the newer conforms", flatc_conform(&other, &schema, &fault) == FLATC_OK);
    tell("a broken text empties it", flatc_schema_parse(&schema, "table", 5, &fault) == FLATC_REFUSED && !schema.full);
    tell("another type", flatc_schema_parse(&schema, BROKEN, strlen(BROKEN), &fault) == FLATC_OK);
    tell("is a breach", flatc_conform(&other, &schema, &fault) == FLATC_REFUSED && fault.has_type && fault.has_slot);
    tell("of the first slot", fault.slot == 0 && strcmp(fault.name, "FieldTypeChanged") == 0);
}

static void faults(void) {
    flatc_fault none = FLATC_FAULT_INIT, changed = fault;
    flatc_name name;
    int count = 0, all = 1;
    tell("a message", flatc_fault_message(&fault, &text) == FLATC_OK && text.size > 10);
    tell("the message of nothing", flatc_fault_message(&none, &text) == FLATC_NO_FAULT && text.size == 0);
    changed.name[0] = 'x';
    tell("of a fault that was changed", flatc_fault_message(&changed, &text) == FLATC_NO_FAULT);
    tell("an explanation of nothing", flatc_explain(&none, "", 0, "", 0, &options, &text) == FLATC_NO_FAULT);
    for (int number = 0; number < 256; number++)
        if (flatc_fault_name((uint8_t)number, &name)) {
            count++;
            all = all && name.text[0] >= 'A' && name.text[31] == 0;
            printf("fault %d %s\n", number, name.text);
        }
    tell("names of all faults", all && count > 60);
}

static void clear(void) {
    flatc_schema_clear(&schema);
    flatc_schema_clear(&other);
    flatc_bytes_clear(&made);
    flatc_bytes_clear(&text);
}

static char *load(const char *path, size_t *size) {
    FILE *file = fopen(path, "rb");
    char *bytes = __real_malloc(1 << 20);
    if (!file || !bytes) exit(2);
    *size = fread(bytes, 1, 1 << 20, file);
    if (*size == 1 << 20) exit(2);
    fclose(file);
    return bytes;
}

static flatc_status call(const char *name, const char *fbs, size_t fbs_size, const char *json, size_t json_size) {
    if (!strcmp(name, "schema_parse")) return flatc_schema_parse(&other, fbs, fbs_size, &fault);
    if (!strcmp(name, "schema_share")) return flatc_schema_share(&schema, &other);
    if (!strcmp(name, "encode")) return flatc_encode(&schema, json, json_size, &options, &text, &fault);
    if (!strcmp(name, "decode")) return flatc_decode(&schema, made.data, made.size, &options, &text, &fault);
    if (!strcmp(name, "verify")) return flatc_verify(&schema, made.data, made.size, &options, &fault);
    if (!strcmp(name, "conform")) return flatc_conform(&schema, &other, &fault);
    if (!strcmp(name, "fault_message")) return flatc_fault_message(&fault, &text);
    return flatc_explain(&fault, fbs, fbs_size, "{\"name\": 1}", 11, &options, &text);
}

/* A program that writes by hand: the lines have to pass through write(2) one by one. */
static void say(const char *line) {
    if (write(1, line, strlen(line)) < 0) exit(2);
}

static int growth(const char *name, const char *fbs_path, const char *json_path) {
    size_t fbs_size, json_size;
    char *fbs = load(fbs_path, &fbs_size), *json = load(json_path, &json_size);
    flatc_status first, second;
    char line[96];
    if (flatc_schema_parse(&schema, fbs, fbs_size, &fault)) return 3;
    if (flatc_encode(&schema, json, json_size, &options, &made, &fault)) return 3;
    if (!strcmp(name, "conform") && flatc_schema_share(&schema, &other)) return 3;
    if (!strcmp(name, "fault_message") || !strcmp(name, "explain"))
        if (flatc_encode(&schema, "{\"name\": 1}", 11, &options, &text, &fault) != FLATC_REFUSED) return 3;
    say("armed\n");
    first = call(name, fbs, fbs_size, json, json_size);
    say("disarmed\n");
    snprintf(line, sizeof line, "first %u full %d\n", first, text.full || (other.full && strcmp(name, "conform")));
    say(line);
    second = call(name, fbs, fbs_size, json, json_size);
    clear();
    snprintf(line, sizeof line, "second %u left %ld\n", second, live);
    say(line);
    __real_free(fbs);
    __real_free(json);
    return 0;
}

int main(int argc, char **argv) {
    if (argc == 4) return growth(argv[1], argv[2], argv[3]);
    nothing();
    settings();
    handles();
    faults();
    clear();
    tell("no block is left", live == 0);
    return 0;
}
