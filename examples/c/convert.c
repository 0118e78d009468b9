/* Converts a JSON file to a FlatBuffer and back: convert SCHEMA.fbs INPUT.json OUTPUT.bin
 *
 *     cc convert.c -lflatc -o convert
 */
#include <flatc.h>
#include <stdio.h>
#include <stdlib.h>

static char *load(const char *path, size_t *size) {
    FILE *file = fopen(path, "rb");
    long end = file && !fseek(file, 0, SEEK_END) ? ftell(file) : -1;
    char *text = end < 0 ? NULL : malloc((size_t)end + 1);
    if (!text) {
        fprintf(stderr, "%s: can't be read\n", path);
        exit(2);
    }
    rewind(file);
    *size = fread(text, 1, (size_t)end, file);
    fclose(file);
    return text;
}

static void save(const char *path, const flatc_bytes *bytes) {
    FILE *file = fopen(path, "wb");
    if (!file || fwrite(bytes->data, 1, bytes->size, file) != bytes->size || fclose(file)) {
        fprintf(stderr, "%s: can't be written\n", path);
        exit(2);
    }
}

int main(int argc, char **argv) {
    if (argc != 4) return 2;
    flatc_schema schema = FLATC_SCHEMA_INIT;
    flatc_bytes buffer = FLATC_BYTES_INIT, text = FLATC_BYTES_INIT, lines = FLATC_BYTES_INIT;
    flatc_options options = FLATC_OPTIONS_INIT;
    flatc_fault fault = FLATC_FAULT_INIT;
    size_t fbs_size, json_size;
    char *fbs = load(argv[1], &fbs_size), *json = load(argv[2], &json_size);

    flatc_status status = flatc_schema_parse(&schema, fbs, fbs_size, &fault);
    if (!status) status = flatc_encode(&schema, json, json_size, &options, &buffer, &fault);
    if (!status) status = flatc_decode(&schema, buffer.data, buffer.size, &options, &text, &fault);
    if (!status) {
        save(argv[3], &buffer);
        fwrite(text.data, 1, text.size, stdout);
    } else if (status == FLATC_REFUSED) {
        fprintf(stderr, "refused: %u %s\n", fault.number, fault.name);
        if (!flatc_explain(&fault, fbs, fbs_size, json, json_size, &options, &lines))
            fwrite(lines.data, 1, lines.size, stderr);
    } else {
        fprintf(stderr, "failed: status %u\n", (unsigned)status);
    }
    flatc_bytes_clear(&buffer);
    flatc_bytes_clear(&text);
    flatc_bytes_clear(&lines);
    flatc_schema_clear(&schema);
    free(fbs);
    free(json);
    return (int)status;
}
