#include "log.h"

#include <stdio.h>

static FILE *file;

int open_log(const char *name) {
    file = fopen(name, "wb");
    return file == NULL ? -1 : 0;
}

void write_record(const struct record *record) {
    if (record->kind != NOTHING)
        fwrite(record, sizeof *record, 1, file);
}

int close_log(void) {
    int failed = ferror(file);
    return fclose(file) != 0 || failed ? -1 : 0;
}
