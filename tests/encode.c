/* Encodes a JSON file: encode SCHEMA.fbs INPUT.json [--unknown-json]
 *
 * Of a refusal it prints the line that the command prints, and asks for its explanation. The status is that of the
 * call. What the files hold isn't freed.
 */
#include <flatc.h>
#include <stdio.h>
#include <stdlib.h>

static char *load(const char *path, size_t *size) {
    FILE *file = fopen(path, "rb");
    long end = file && !fseek(file, 0, SEEK_END) ? ftell(file) : -1;
    char *text = end < 0 ? NULL : malloc((size_t)end + 1);
    if (!text) exit(9);
    rewind(file);
    *size = fread(text, 1, (size_t)end, file);
    fclose(file);
    return text;
}

static void print_line(const flatc_fault *fault) {
    fprintf(stderr, "%u %s", fault->number, fault->name);
    if (fault->has_type) fprintf(stderr, " in type %llu", (unsigned long long)fault->type_id);
    if (fault->has_slot) fprintf(stderr, " slot %u", fault->slot);
    fprintf(stderr, "\n");
}

int main(int argc, char **argv) {
    if (argc < 3) return 9;
    flatc_schema schema = FLATC_SCHEMA_INIT;
    flatc_bytes buffer = FLATC_BYTES_INIT, lines = FLATC_BYTES_INIT;
    flatc_options options = FLATC_OPTIONS_INIT;
    flatc_fault fault = FLATC_FAULT_INIT;
    size_t fbs_size, json_size;
    char *fbs = load(argv[1], &fbs_size), *json = load(argv[2], &json_size);

    options.unknown_json = argc > 3;
    if (flatc_schema_parse(&schema, fbs, fbs_size, &fault)) return 9;
    flatc_status status = flatc_encode(&schema, json, json_size, &options, &buffer, &fault);
    flatc_bytes_clear(&buffer);
    if (status == FLATC_REFUSED) {
        print_line(&fault);
        if (flatc_explain(&fault, fbs, fbs_size, json, json_size, &options, &lines) || !lines.size) return 9;
        flatc_bytes_clear(&lines);
    }
    flatc_schema_clear(&schema);
    return (int)status;
}
