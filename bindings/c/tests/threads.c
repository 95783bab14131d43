/* threads KIB IMPORTS IMAGE OBJECT TE: reads files in eight threads at once, each with a small stack. The status is 0 if
   each thread finds that number of imports, and no other call returns a fault. */
#include "goblin_pe.h"

#include <pthread.h>
#include <stdio.h>
#include <stdlib.h>

struct contents {
    uint8_t bytes[1 << 20];
    size_t length;
};

static struct contents files[3];
/* One image that all threads read, each with cursors of its own. */
static struct goblin_pe_image shared;

static size_t count_imports(const struct goblin_pe_image *image)
{
    struct goblin_pe_import_cursor cursor = { 0 };
    struct goblin_pe_import rows[8];
    struct goblin_pe_batch batch;
    size_t found = 0;
    do {
        if (goblin_pe_next_imports(image, &cursor, rows, 8, NULL, &batch).status)
            return SIZE_MAX;
        found += batch.count;
    } while (!batch.is_done);
    return found;
}

/* Makes the first call of each walk. */
static bool begins_walks(const struct goblin_pe_image *image)
{
    struct goblin_pe_section_cursor sections = { 0 };
    struct goblin_pe_export_cursor exports = { 0 };
    struct goblin_pe_export_address_cursor addresses = { 0 };
    struct goblin_pe_relocation_block_cursor blocks = { 0 };
    struct goblin_pe_symbol_cursor symbols = { 0 };
    union {
        struct goblin_pe_section section;
        struct goblin_pe_export export;
        struct goblin_pe_export_address address;
        struct goblin_pe_relocation_block block;
        struct goblin_pe_symbol symbol;
    } row;
    struct goblin_pe_batch batch;
    return !(goblin_pe_next_sections(image, &sections, &row.section, 1, &batch).status |
             goblin_pe_next_exports(image, &exports, &row.export, 1, NULL, &batch).status |
             goblin_pe_next_export_addresses(image, &addresses, &row.address, 1, &batch).status |
             goblin_pe_next_relocation_blocks(image, &blocks, &row.block, 1, &batch).status |
             goblin_pe_next_symbols(image, &symbols, &row.symbol, 1, &batch).status);
}

static void *reads(void *imports_wanted)
{
    for (int i = 0; i < 25; i++) {
        struct goblin_pe_image image, other;
        struct goblin_pe_te_header header;
        bool is_read = !goblin_pe_read_image(files[0].bytes, files[0].length, NULL, &image, NULL).status &&
                       count_imports(&image) == *(const size_t *)imports_wanted && begins_walks(&image) &&
                       (i % 20 || count_imports(&shared) == *(const size_t *)imports_wanted) && begins_walks(&shared);
        is_read = is_read && !goblin_pe_read_object(files[1].bytes, files[1].length, NULL, &other).status &&
                  begins_walks(&other);
        is_read = is_read && !goblin_pe_read_te(files[2].bytes, files[2].length, NULL, &other, &header).status;
        if (!is_read)
            return NULL;
    }
    return imports_wanted;
}

int main(int argc, char **argv)
{
    pthread_t threads[8];
    pthread_attr_t attributes;
    size_t imports = argc == 6 ? strtoul(argv[2], NULL, 10) : 0;
    int status = argc != 6;
    for (int i = 0; i < 3 && !status; i++) {
        FILE *from = fopen(argv[3 + i], "rb");
        if (!from)
            return 2;
        files[i].length = fread(files[i].bytes, 1, sizeof files[i].bytes, from);
        fclose(from);
    }
    if (status || goblin_pe_read_image(files[0].bytes, files[0].length, NULL, &shared, NULL).status ||
        pthread_attr_init(&attributes) ||
        pthread_attr_setstacksize(&attributes, strtoul(argv[1], NULL, 10) * 1024))
        return 3;
    for (int i = 0; i < 8; i++)
        if (pthread_create(&threads[i], &attributes, reads, &imports))
            return 4;
    for (int i = 0; i < 8; i++) {
        void *answer = NULL;
        pthread_join(threads[i], &answer);
        status |= !answer;
    }
    return status;
}
