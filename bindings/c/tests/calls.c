/* calls FILE..: makes each call of the header on these files, and passes each null pointer that the manual allows.
   The status is 0 if the answers agree, and the files have a row of each table. */
#include "goblin_pe.h"

#include <stdio.h>
#include <stdlib.h>
#include <string.h>

#define EXPECT(it) ((it) ? (void)0 : (void)(printf("%s:%d: %s\n", path, __LINE__, #it), exit(1)))
#define EXPECT_OK(call) EXPECT((call).status == GOBLIN_PE_STATUS_OK)
/* Walks over a table: first without rows and room, then row by row. What follows `row` follows the room in the call. */
#define WALK(next, cursor, row, ...)                                        \
    for (EXPECT_OK(next(image, &(cursor), NULL, 0, __VA_ARGS__)),           \
         EXPECT_OK(next(image, &(cursor), &(row), 1, __VA_ARGS__));         \
         batch.count;                                                       \
         EXPECT_OK(next(image, &(cursor), &(row), 1, __VA_ARGS__)))

static const char *path;
static uint8_t bytes[1 << 20], out[1 << 20];
static size_t length;
/* How many rows the files have. */
static size_t imports, libraries, exports, forwarders, addresses, blocks, relocations, rich_entries, symbols,
    auxiliaries, texts, coff_relocations;

static bool is_in_file(struct goblin_pe_slice it)
{
    size_t offset = (size_t)((uintptr_t)it.bytes - (uintptr_t)bytes);
    return !it.length || (offset < length && it.length <= length - offset);
}

static void check_section(const struct goblin_pe_image *image, struct goblin_pe_section section)
{
    struct goblin_pe_coff_relocation_cursor cursor = section.relocations;
    struct goblin_pe_coff_relocation relocation;
    struct goblin_pe_batch batch;
    struct goblin_pe_memory data;
    size_t written = 7;
    EXPECT(goblin_pe_section_data(image, &section, &data) && !data.missing && is_in_file(data.bytes));
    EXPECT(goblin_pe_write_section(&section, NULL, 0, &written).status == GOBLIN_PE_STATUS_READ && written == 7);
    EXPECT_OK(goblin_pe_write_section(&section, out, sizeof out, &written));
    EXPECT(written == 40 && (image->kind == GOBLIN_PE_KIND_TE ||
                             !memcmp(out, bytes + image->section_table + 40 * section.index, 40)));
    if (image->kind == GOBLIN_PE_KIND_OBJECT)
        WALK(goblin_pe_next_coff_relocations, cursor, relocation, &batch) coff_relocations++;
}

static void check_address(const struct goblin_pe_image *image, size_t rva)
{
    struct goblin_pe_memory memory;
    size_t offset, back;
    EXPECT(goblin_pe_memory_at(image, rva, 0, &memory) && !memory.bytes.length);
    if (!goblin_pe_find_offset(image, rva, &offset) || offset >= length)
        return;
    EXPECT(goblin_pe_memory_at(image, rva, 1, &memory) && memory.bytes.bytes == bytes + offset);
    EXPECT(goblin_pe_find_rva(image, offset, &back) && goblin_pe_find_offset(image, back, &back) && back == offset);
}

static void check_sections(const struct goblin_pe_image *image)
{
    struct goblin_pe_section_cursor cursor = { 0 };
    struct goblin_pe_section section;
    struct goblin_pe_batch batch;
    size_t count = 0;
    WALK(goblin_pe_next_sections, cursor, section, &batch) {
        EXPECT(section.index == count++ && is_in_file(section.name));
        check_section(image, section);
        if (image->kind == GOBLIN_PE_KIND_IMAGE)
            check_address(image, section.virtual_address);
    }
    EXPECT(count == image->section_count && count == image->coff_header.number_of_sections);
}

static void check_symbols(const struct goblin_pe_image *image)
{
    struct goblin_pe_symbol_cursor cursor = { 0 };
    struct goblin_pe_symbol symbol;
    struct goblin_pe_batch batch;
    struct goblin_pe_auxiliary auxiliary;
    struct goblin_pe_slice text;
    WALK(goblin_pe_next_symbols, cursor, symbol, &batch) {
        symbols++;
        auxiliaries += goblin_pe_read_auxiliary(image, &symbol, &auxiliary) != GOBLIN_PE_AUXILIARY_KIND_NONE;
        EXPECT(is_in_file(symbol.name) && is_in_file(symbol.auxiliary));
    }
    if (goblin_pe_string_at(image, 4, &text))
        texts++;
}

static size_t imports_from(const struct goblin_pe_image *image, struct goblin_pe_import_cursor cursor)
{
    struct goblin_pe_import row;
    struct goblin_pe_batch batch;
    struct goblin_pe_memory memory;
    size_t count = 0;
    WALK(goblin_pe_next_imports, cursor, row, NULL, &batch) {
        count++;
        if (row.has_name) {
            EXPECT(goblin_pe_memory_at(image, row.hint_name_rva + 2, row.name.length + 1, &memory));
            EXPECT(memory.bytes.bytes == row.name.bytes && !memory.bytes.bytes[row.name.length]);
        }
    }
    return count;
}

static void check_imports(const struct goblin_pe_image *image)
{
    struct goblin_pe_import_cursor cursor = { 0 };
    struct goblin_pe_library library;
    struct goblin_pe_batch batch;
    size_t all = imports_from(image, cursor), count = 0;
    WALK(goblin_pe_next_libraries, cursor, library, NULL, &batch) {
        libraries++;
        count += imports_from(image, library.imports);
    }
    EXPECT(count == all);
    imports += all;
}

static void check_exports(const struct goblin_pe_image *image)
{
    struct goblin_pe_export_cursor cursor = { 0 };
    struct goblin_pe_export_address_cursor place = { 0 };
    struct goblin_pe_export_directory directory;
    struct goblin_pe_export row;
    struct goblin_pe_export_address address;
    struct goblin_pe_forwarder forwarder;
    struct goblin_pe_batch batch;
    size_t count = 0;
    EXPECT_OK(goblin_pe_read_export_directory(image, &directory));
    WALK(goblin_pe_next_exports, cursor, row, NULL, &batch) {
        EXPECT(row.forwarder.kind == GOBLIN_PE_FORWARDER_KIND_NONE || row.rva);
        exports++;
    }
    WALK(goblin_pe_next_export_addresses, place, address, &batch) {
        EXPECT(address.ordinal == directory.record.ordinal_base + count++);
        if (address.is_forwarder) {
            EXPECT_OK(goblin_pe_forwarder_at(image, address.rva, &forwarder));
            forwarders += forwarder.kind != GOBLIN_PE_FORWARDER_KIND_NONE;
        }
    }
    EXPECT(count == directory.record.address_table_entries);
    addresses += count;
}

static size_t relocations_of(const struct goblin_pe_image *image, struct goblin_pe_base_relocation_cursor cursor)
{
    struct goblin_pe_base_relocation row;
    struct goblin_pe_batch batch;
    size_t count = 0;
    WALK(goblin_pe_next_base_relocations, cursor, row, &batch) count++;
    return count;
}

static void check_relocations(const struct goblin_pe_image *image)
{
    struct goblin_pe_relocation_block_cursor cursor = { 0 };
    struct goblin_pe_relocation_block block;
    struct goblin_pe_batch batch;
    WALK(goblin_pe_next_relocation_blocks, cursor, block, &batch) {
        size_t count = relocations_of(image, block.relocations);
        EXPECT(count == (block.size - 8) / 2);
        relocations += count;
        blocks++;
    }
}

static void check_rich_entries(const struct goblin_pe_image *image)
{
    struct goblin_pe_rich_cursor cursor = { 0 };
    struct goblin_pe_rich_entry entry;
    struct goblin_pe_batch batch;
    WALK(goblin_pe_next_rich_entries, cursor, entry, &batch) rich_entries++;
}

static void check_header(const struct goblin_pe_image *image)
{
    struct goblin_pe_image partial;
    struct goblin_pe_header_faults faults;
    size_t size = 0, written;
    uint32_t sum;
    EXPECT_OK(goblin_pe_read_image(bytes, length, NULL, &partial, &faults));
    EXPECT(partial.section_count == image->section_count && !faults.section_table.status);
    EXPECT_OK(goblin_pe_write_header(image, NULL, 0, &size));
    EXPECT_OK(goblin_pe_write_header(image, out, size, &written));
    EXPECT(written == size && !memcmp(out, bytes, size < image->section_table ? size : image->section_table));
    EXPECT(goblin_pe_checksum(image, &sum));
}

static void check_image(void)
{
    struct goblin_pe_image read;
    const struct goblin_pe_image *image = &read;
    struct goblin_pe_options permissive = { .is_permissive = true };
    EXPECT_OK(goblin_pe_read_image(bytes, length, NULL, &read, NULL));
    check_header(image);
    read.options = permissive;
    check_sections(image);
    check_imports(image);
    check_exports(image);
    check_relocations(image);
    check_rich_entries(image);
    check_symbols(image);
}

static void check_object(void)
{
    struct goblin_pe_image object;
    EXPECT_OK(goblin_pe_read_object(bytes, length, NULL, &object));
    check_sections(&object);
    check_symbols(&object);
}

static void check_te(void)
{
    struct goblin_pe_image te;
    struct goblin_pe_te_header header;
    EXPECT_OK(goblin_pe_read_te(bytes, length, NULL, &te, &header));
    EXPECT(header.number_of_sections == te.section_count);
    check_sections(&te);
}

/* No bytes: nothing is filled but a partial image. */
static void check_no_bytes(void)
{
    struct goblin_pe_image image = { .kind = 77 };
    struct goblin_pe_header_faults faults;
    struct goblin_pe_te_header header;
    char text[GOBLIN_PE_FAULT_ROOM];
    struct goblin_pe_fault fault = goblin_pe_read_image(NULL, 0, NULL, &image, NULL);
    EXPECT(fault.status == GOBLIN_PE_STATUS_MALFORMED && fault.cause == GOBLIN_PE_CAUSE_NO_DOS_SIGNATURE);
    EXPECT(goblin_pe_fault_string(&fault, text) == text && !strcmp(text, "the file is too short for the DOS signature"));
    EXPECT(goblin_pe_read_object(NULL, 0, NULL, &image).status == GOBLIN_PE_STATUS_READ);
    EXPECT(goblin_pe_read_te(NULL, 0, NULL, &image, &header).status == GOBLIN_PE_STATUS_READ && image.kind == 77);
    EXPECT(goblin_pe_read_image(NULL, 0, NULL, &image, &faults).cause == fault.cause);
    EXPECT(image.kind == GOBLIN_PE_KIND_IMAGE && !image.section_count && faults.dos_header.cause == fault.cause);
    EXPECT(goblin_pe_kind_of(NULL, 0) == GOBLIN_PE_KIND_UNKNOWN);
    EXPECT(goblin_pe_interface() == GOBLIN_PE_INTERFACE && goblin_pe_needs_interface() == GOBLIN_PE_INTERFACE);
}

int main(int argc, char **argv)
{
    path = "no bytes";
    check_no_bytes();
    for (int i = 1; i < argc; i++) {
        FILE *from = fopen(path = argv[i], "rb");
        EXPECT(from);
        length = fread(bytes, 1, sizeof bytes, from);
        fclose(from);
        uint32_t kind = goblin_pe_kind_of(bytes, length);
        if (kind == GOBLIN_PE_KIND_IMAGE)
            check_image();
        else if (kind == GOBLIN_PE_KIND_OBJECT)
            check_object();
        else
            check_te();
    }
    EXPECT(imports && libraries && exports && forwarders && addresses && blocks && relocations && rich_entries);
    EXPECT(symbols && auxiliaries && texts && coff_relocations);
    return 0;
}
