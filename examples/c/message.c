/* Converts a message, and shows why another is refused: cc message.c -lflatc -o message */
#include <flatc.h>
#include <stdio.h>
#include <string.h>

static const char fbs[] = "table Monster { name:string (required); hp:short = 100; } root_type Monster;";

static void convert(flatc_schema *schema, const char *json) {
    flatc_bytes buffer = FLATC_BYTES_INIT, lines = FLATC_BYTES_INIT;
    flatc_options options = FLATC_OPTIONS_INIT;
    flatc_fault fault = FLATC_FAULT_INIT;
    flatc_status status = flatc_encode(schema, json, strlen(json), &options, &buffer, &fault);
    if (status == FLATC_OK) {
        printf("%zu bytes\n", buffer.size);
    } else if (status == FLATC_REFUSED) {
        flatc_explain(&fault, fbs, strlen(fbs), json, strlen(json), &options, &lines);
        printf("%u %s\n%.*s", fault.number, fault.name, (int)lines.size, (const char *)lines.data);
    }
    flatc_bytes_clear(&buffer);
    flatc_bytes_clear(&lines);
}

int main(void) {
    flatc_schema schema = FLATC_SCHEMA_INIT;
    flatc_fault fault = FLATC_FAULT_INIT;
    if (flatc_schema_parse(&schema, fbs, strlen(fbs), &fault) != FLATC_OK) return 1;
    convert(&schema, "{\"name\": \"Orc\"}");
    convert(&schema, "{\"name\": \"Orc\", \"hp\": 70000}");
    flatc_schema_clear(&schema);
}
