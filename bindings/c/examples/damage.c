/* damage FILE: says what is wrong with an image. First it lists the parts of the header that can't be read, and the tables that
   strict mode refuses as a whole. Then it counts imports and exports, and what the walks over them skip. At last it counts the
   imports that goblin would find. */
#include "goblin_pe.h"

#include <stdio.h>

static uint8_t file[1 << 26];

/* The limit of steps for each walk. */
static const size_t most = 500000;

static bool tell(const char *part, struct goblin_pe_fault fault)
{
    char text[GOBLIN_PE_FAULT_ROOM];
    if (fault.status == GOBLIN_PE_STATUS_STEPS)
        printf("%s: not known, because it needs more than %zu steps\n", part, most);
    else if (fault.status)
        printf("%s: %s\n", part, goblin_pe_fault_string(&fault, text));
    return fault.status;
}

static void tell_header(const struct goblin_pe_header_faults *faults)
{
    tell("DOS header", faults->dos_header);
    tell("DOS stub", faults->dos_stub);
    tell("Rich header", faults->rich_header);
    tell("COFF header", faults->coff_header);
    tell("standard fields", faults->standard_fields);
    tell("Windows fields", faults->windows_fields);
    tell("data directories", faults->directories);
    tell("section table", faults->section_table);
    tell("section names", faults->section_names);
}

/* What strict mode refuses as a whole. */
static void tell_tables(struct goblin_pe_image strict)
{
    struct goblin_pe_import_cursor imports = { 0 };
    struct goblin_pe_export_cursor exports = { 0 };
    struct goblin_pe_relocation_block_cursor blocks = { 0 };
    struct goblin_pe_batch batch;
    strict.options.is_permissive = false;
    tell("imports", goblin_pe_next_imports(&strict, &imports, NULL, 0, NULL, &batch));
    tell("exports", goblin_pe_next_exports(&strict, &exports, NULL, 0, NULL, &batch));
    tell("base relocations", goblin_pe_next_relocation_blocks(&strict, &blocks, NULL, 0, &batch));
}

static void tell_counts(const char *what, size_t count, size_t skipped, size_t unmapped)
{
    printf("%s: %zu, %zu skipped, %zu lead nowhere\n", what, count, skipped, unmapped);
}

static void count_imports(const char *what, const struct goblin_pe_image *image)
{
    static struct goblin_pe_import rows[1 << 14];
    struct goblin_pe_import_cursor cursor = { 0 };
    struct goblin_pe_batch batch;
    size_t count = 0, skipped = 0, unmapped = 0, steps = most;
    do {
        if (tell(what, goblin_pe_next_imports(image, &cursor, rows, 1 << 14, &steps, &batch)))
            return;
        count += batch.count;
        skipped += batch.skipped;
        unmapped += batch.unmapped;
    } while (!batch.is_done);
    tell_counts(what, count, skipped, unmapped);
}

static void count_exports(const struct goblin_pe_image *image)
{
    static struct goblin_pe_export rows[1 << 14];
    struct goblin_pe_export_cursor cursor = { 0 };
    struct goblin_pe_batch batch;
    size_t count = 0, skipped = 0, unmapped = 0, steps = most;
    do {
        if (tell("exports", goblin_pe_next_exports(image, &cursor, rows, 1 << 14, &steps, &batch)))
            return;
        count += batch.count;
        skipped += batch.skipped;
        unmapped += batch.unmapped;
    } while (!batch.is_done);
    tell_counts("exports", count, skipped, unmapped);
}

int main(int argc, char **argv)
{
    /* (no name is printed, so the first bytes are enough) */
    struct goblin_pe_options options = { .is_permissive = true, .longest_name = 16 };
    struct goblin_pe_header_faults faults;
    struct goblin_pe_image image, as_stored;
    FILE *from = argc == 2 ? fopen(argv[1], "rb") : NULL;
    size_t length = from ? fread(file, 1, sizeof file, from) : 0;
    if (!from || ferror(from) || length == sizeof file)
        return fprintf(stderr, "usage: damage FILE (below 64 MiB)\n"), 2;
    bool is_refused = tell("refused", goblin_pe_read_image(file, length, &options, &image, &faults));
    tell_header(&faults);
    tell_tables(image);
    count_imports("imports as Windows maps", &image);
    count_exports(&image);
    as_stored = image;
    as_stored.options.mapping = GOBLIN_PE_MAPPING_AS_STORED;
    count_imports("imports as goblin maps", &as_stored);
    return is_refused;
}
