/* Makes the same calls TIMES times: repeat WHAT FILE TIMES
   It reads the header of an image or an object, and walks over WHAT: sections, imports, exports, blocks, base_relocations,
   symbols or relocations. With tables, it walks over the first four, and adds up a number of each row. The batches have 64
   rows; with each_ before WHAT, one row. It prints how many rows one pass has, and the sum. */
#include "goblin_pe.h"

#include <stdio.h>
#include <stdlib.h>
#include <string.h>

enum { BATCH = 64 };

static uint8_t *bytes;
static size_t length, room = BATCH, count, sum;
static struct goblin_pe_image image;
static bool adds_up;

static bool read_file(const char *name)
{
    FILE *from = fopen(name, "rb");
    if (!from || fseek(from, 0, SEEK_END))
        return false;
    length = (size_t)ftell(from);
    rewind(from);
    bytes = malloc(length);
    return bytes && fread(bytes, 1, length, from) == length;
}

static bool is_read(bool is_object)
{
    struct goblin_pe_fault fault = is_object ? goblin_pe_read_object(bytes, length, NULL, &image)
                                             : goblin_pe_read_image(bytes, length, NULL, &image, NULL);
    return fault.status == GOBLIN_PE_STATUS_OK;
}

/* Walks over a table from a cursor on, or over the tables in its rows by `inner`. Returns whether it comes to the end. */
#define WALK(row, number, inner) \
    static bool walk_##row##s(struct goblin_pe_##row##_cursor cursor, bool goes_in) \
    { \
        struct goblin_pe_##row rows[BATCH]; \
        struct goblin_pe_batch batch; \
        struct goblin_pe_fault fault; \
        do { \
            fault = goblin_pe_next_##row##s(&image, &cursor, rows, room, STEPS &batch); \
            count += goes_in ? 0 : batch.count; \
            for (size_t i = 0; adds_up && i < batch.count; i++) \
                sum += number; \
            for (size_t i = 0; goes_in && i < batch.count; i++) \
                if (!(inner)) \
                    return false; \
        } while (!batch.is_done); \
        return fault.status == GOBLIN_PE_STATUS_OK; \
    }

#define STEPS NULL,
WALK(import, rows[i].name.length, false)
WALK(export, rows[i].rva, false)
#undef STEPS
#define STEPS
WALK(symbol, rows[i].record.value, false)
WALK(base_relocation, rows[i].rva, false)
WALK(coff_relocation, rows[i].virtual_address, false)
WALK(relocation_block, rows[i].rva, walk_base_relocations(rows[i].relocations, false))
WALK(section, rows[i].virtual_size, walk_coff_relocations(rows[i].relocations, false))

#define ALL(row, goes_in) walk_##row##s((struct goblin_pe_##row##_cursor){ 0 }, goes_in)

static const char *const names[] = { "sections", "imports", "exports", "blocks", "base_relocations",
                                     "tables", "symbols", "relocations" };

static bool pass(size_t what)
{
    count = sum = 0;
    if (!is_read(what > 5))
        return false;
    switch (what) {
    case 0: return ALL(section, false);
    case 1: return ALL(import, false);
    case 2: return ALL(export, false);
    case 3: return ALL(relocation_block, false);
    case 4: return ALL(relocation_block, true);
    case 5: return ALL(section, false) && ALL(import, false) && ALL(export, false) && ALL(relocation_block, false);
    case 6: return ALL(symbol, false);
    default: return ALL(section, true);
    }
}

int main(int argc, char **argv)
{
    if (argc != 4 || !read_file(argv[2]))
        return 2;
    const bool is_each = !strncmp(argv[1], "each_", 5);
    room = is_each ? 1 : BATCH;
    size_t what = 0;
    while (what < 8 && strcmp(argv[1] + (is_each ? 5 : 0), names[what]))
        what++;
    adds_up = what == 5;
    for (long times = strtol(argv[3], NULL, 10); times > 0; times--)
        if (what == 8 || !pass(what))
            return 1;
    printf("%zu %zu\n", count, sum);
    return 0;
}
