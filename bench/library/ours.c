/* Makes one call COUNT times: ours SCHEMA.fbs INPUT.json encode|decode|verify|schema_parse|nothing COUNT */
#include <flatc.h>
#include <stdio.h>
#include <stdlib.h>
#include <string.h>

static char *load(const char *path, size_t *size) {
    FILE *file = fopen(path, "rb");
    char *bytes = malloc(1 << 20);
    if (!file || !bytes) exit(2);
    *size = fread(bytes, 1, 1 << 20, file);
    if (*size == 1 << 20) exit(2);
    fclose(file);
    return bytes;
}

int main(int argc, char **argv) {
    if (argc != 5) return 2;
    size_t fbs_size, json_size, total = 0;
    char *fbs = load(argv[1], &fbs_size), *json = load(argv[2], &json_size);
    flatc_schema schema = FLATC_SCHEMA_INIT;
    flatc_bytes buffer = FLATC_BYTES_INIT, out = FLATC_BYTES_INIT;
    flatc_options options = FLATC_OPTIONS_INIT;
    flatc_fault fault = FLATC_FAULT_INIT;
    if (flatc_schema_parse(&schema, fbs, fbs_size, &fault)) return 3;
    if (flatc_encode(&schema, json, json_size, &options, &buffer, &fault)) return 3;
    for (long left = strtol(argv[4], NULL, 10); left > 0; left--) {
        flatc_status status = FLATC_OK;
        if (!strcmp(argv[3], "encode")) status = flatc_encode(&schema, json, json_size, &options, &out, &fault);
        if (!strcmp(argv[3], "decode"))
            status = flatc_decode(&schema, buffer.data, buffer.size, &options, &out, &fault);
        if (!strcmp(argv[3], "verify")) status = flatc_verify(&schema, buffer.data, buffer.size, &options, &fault);
        if (!strcmp(argv[3], "schema_parse")) status = flatc_schema_parse(&schema, fbs, fbs_size, &fault);
        if (status) return 4;
        total += out.size + 1;
    }
    printf("%zu\n", total);
    return 0;
}
