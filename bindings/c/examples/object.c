/* object FILE: lists the symbols of an object, and the relocations of its sections with the symbols that they name. */
#include "goblin_pe.h"

#include <stdio.h>

static uint8_t file[1 << 26];

/* How many more rows are listed. */
static size_t left = 10000;

static void put(struct goblin_pe_slice text)
{
    for (size_t i = 0; i < text.length; i++)
        putchar(text.bytes[i] > 32 && text.bytes[i] < 127 ? text.bytes[i] : '?');
}

static struct goblin_pe_fault list_symbols(const struct goblin_pe_image *image)
{
    struct goblin_pe_symbol_cursor cursor = { 0 };
    struct goblin_pe_symbol rows[64];
    struct goblin_pe_auxiliary auxiliary;
    struct goblin_pe_fault fault;
    struct goblin_pe_batch batch;
    do {
        fault = goblin_pe_next_symbols(image, &cursor, rows, 64, &batch);
        for (size_t i = 0; i < batch.count && left; i++, left--) {
            printf("symbol %zu in section %d at 0x%x: ", rows[i].index, rows[i].record.section_number, rows[i].record.value);
            put(rows[i].name);
            if (goblin_pe_read_auxiliary(image, &rows[i], &auxiliary) == GOBLIN_PE_AUXILIARY_KIND_SECTION_DEFINITION)
                printf(" (%u bytes)", auxiliary.length);
            putchar('\n');
        }
    } while (!batch.is_done && left);
    return fault;
}

static struct goblin_pe_fault list_relocations(const struct goblin_pe_image *image, const struct goblin_pe_section *section)
{
    struct goblin_pe_coff_relocation_cursor cursor = section->relocations;
    struct goblin_pe_coff_relocation rows[64];
    struct goblin_pe_fault fault;
    struct goblin_pe_batch batch, found;
    do {
        fault = goblin_pe_next_coff_relocations(image, &cursor, rows, 64, &batch);
        for (size_t i = 0; i < batch.count && left; i++, left--) {
            struct goblin_pe_symbol_cursor at = { rows[i].symbol_table_index };
            struct goblin_pe_symbol symbol;
            put(section->name);
            printf(" 0x%x of type 0x%x: ", rows[i].virtual_address, rows[i].typ);
            if (!goblin_pe_next_symbols(image, &at, &symbol, 1, &found).status && found.count)
                put(symbol.name);
            putchar('\n');
        }
    } while (!batch.is_done && left);
    return fault;
}

int main(int argc, char **argv)
{
    struct goblin_pe_options options = { .is_permissive = true, .longest_name = 512 };
    struct goblin_pe_section_cursor cursor = { 0 };
    struct goblin_pe_section section;
    struct goblin_pe_image image;
    struct goblin_pe_batch batch;
    FILE *from = argc == 2 ? fopen(argv[1], "rb") : NULL;
    size_t length = from ? fread(file, 1, sizeof file, from) : 0;
    if (!from || ferror(from) || length == sizeof file)
        return fprintf(stderr, "usage: object FILE (below 64 MiB)\n"), 2;
    if (goblin_pe_kind_of(file, length) != GOBLIN_PE_KIND_OBJECT)
        return fprintf(stderr, "it is no object\n"), 2;
    struct goblin_pe_fault fault = goblin_pe_read_object(file, length, &options, &image);
    if (!fault.status)
        fault = list_symbols(&image);
    if (!fault.status) do {
        fault = goblin_pe_next_sections(&image, &cursor, &section, 1, &batch);
        if (batch.count)
            fault = list_relocations(&image, &section);
    } while (!batch.is_done && !fault.status && left);
    if (fault.status) {
        char text[GOBLIN_PE_FAULT_ROOM];
        fprintf(stderr, "%s\n", goblin_pe_fault_string(&fault, text));
    }
    return fault.status != GOBLIN_PE_STATUS_OK;
}
