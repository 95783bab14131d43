/* loader IMAGE LIBRARY..: loads an image up to the point where its code would run. As the Windows loader does, it maps the
   headers and the sections into memory, applies the base relocations for an address 64 KiB above the preferred one, and
   resolves each import by the exports of the libraries, also through forwarders. A library serves the imports from the DLL
   that has the name of its file. The status is 0 if all imports are resolved. */
#include "goblin_pe.h"

#include <ctype.h>
#include <inttypes.h>
#include <stdio.h>
#include <stdlib.h>
#include <string.h>

#define MOST_MEMORY (256u << 20) /* of an image */
#define MOST_IMPORTS 1000
#define MOST_FORWARDERS 8 /* (they may lead in a circle) */
#define MOST_BLOCKS 100000

struct module {
    const char *name;
    struct goblin_pe_image image;
    uint8_t *memory;
    size_t size;
    uint64_t base;
};

/* What a library is asked for: a name, with a hint where to look first, or else an ordinal. */
struct wanted {
    struct goblin_pe_slice dll, name;
    size_t number;
    bool is_by_name;
};

/* All look-ups of all libraries share these. */
static size_t steps = 100000;

static size_t least(size_t a, size_t b)
{
    return a < b ? a : b;
}

static void put(struct goblin_pe_slice text)
{
    for (size_t i = 0; i < text.length; i++)
        putchar(text.bytes[i] > 32 && text.bytes[i] < 127 ? text.bytes[i] : '?');
}

static bool fails(const struct module *m, struct goblin_pe_fault fault)
{
    char text[GOBLIN_PE_FAULT_ROOM];
    if (fault.status)
        fprintf(stderr, "%s: %s\n", m->name, goblin_pe_fault_string(&fault, text));
    return fault.status;
}

/* Adds to a number in memory, and returns what is there then; 0 if it is not in the image. */
static uint64_t add(const struct module *m, size_t rva, size_t size, uint64_t more)
{
    uint64_t number = 0;
    if (rva > m->size || size > m->size - rva)
        return 0;
    for (size_t i = size; i--;)
        number = number << 8 | m->memory[rva + i];
    number += more;
    for (size_t i = 0; i < size; i++)
        m->memory[rva + i] = (uint8_t)(number >> 8 * i);
    return size == 8 ? number : (uint32_t)number;
}

/* Maps the headers and each section. Sections may overlap: no more bytes are copied than the image has. An image whose
   sections are not aligned to pages is one flat view of the file. */
static bool is_mapped(struct module *m)
{
    const struct goblin_pe_windows_fields *fields = &m->image.optional_header.windows_fields;
    bool is_flat = fields->section_alignment < 4096;
    struct goblin_pe_section_cursor cursor = { 0 };
    struct goblin_pe_section section;
    struct goblin_pe_batch batch;
    struct goblin_pe_memory data;
    m->size = fields->size_of_image;
    m->memory = m->size > MOST_MEMORY ? NULL : calloc(m->size + 1, 1);
    if (!m->memory)
        return fprintf(stderr, "%s: it is too large\n", m->name), false;
    size_t left = m->size, front = is_flat ? m->image.bytes.length : fields->size_of_headers;
    memcpy(m->memory, m->image.bytes.bytes, least(least(front, m->image.bytes.length), m->size));
    do {
        if (is_flat || fails(m, goblin_pe_next_sections(&m->image, &cursor, &section, 1, &batch)))
            return is_flat;
        if (!batch.count || section.virtual_address >= m->size)
            continue;
        goblin_pe_section_data(&m->image, &section, &data);
        size_t size = least(least(data.bytes.length, m->size - section.virtual_address), left);
        size = section.virtual_size ? least(size, section.virtual_size) : size;
        memcpy(m->memory + section.virtual_address, data.bytes.bytes, size);
        left -= size;
    } while (!batch.is_done);
    return true;
}

static bool is_opened(struct module *m, const char *path)
{
    struct goblin_pe_options options = { .longest_name = 512 };
    FILE *from = fopen(path, "rb");
    long length = from && !fseek(from, 0, SEEK_END) ? ftell(from) : -1;
    uint8_t *bytes = length < 0 || fseek(from, 0, SEEK_SET) ? NULL : malloc((size_t)length + 1);
    m->name = strrchr(path, '/') ? strrchr(path, '/') + 1 : path;
    if (!bytes || fread(bytes, 1, (size_t)length, from) != (size_t)length)
        return fprintf(stderr, "%s: it can't be read\n", m->name), false;
    fclose(from);
    if (fails(m, goblin_pe_read_image(bytes, (size_t)length, &options, &m->image, NULL)))
        return free(bytes), false;
    bool is_stripped = m->image.coff_header.characteristics & GOBLIN_PE_IMAGE_FILE_RELOCS_STRIPPED;
    m->base = m->image.optional_header.windows_fields.image_base + (is_stripped ? 0 : 0x10000);
    printf("%s for machine 0x%x at 0x%" PRIx64 "\n", m->name, m->image.coff_header.machine, m->base);
    return is_mapped(m);
}

/* Adds to the numbers that the blocks name how far the image is from its preferred address. */
static bool is_relocated(struct module *m)
{
    uint64_t moved = m->base - m->image.optional_header.windows_fields.image_base;
    struct goblin_pe_relocation_block_cursor cursor = { 0 };
    static struct goblin_pe_relocation_block blocks[1024];
    struct goblin_pe_base_relocation it[64];
    struct goblin_pe_batch batch, entries;
    size_t count = 0, seen = 0;
    do {
        if (fails(m, goblin_pe_next_relocation_blocks(&m->image, &cursor, blocks, 1024, &batch)))
            return false;
        for (size_t i = 0; i < batch.count; i++) {
            do {
                if (fails(m, goblin_pe_next_base_relocations(&m->image, &blocks[i].relocations, it, 64, &entries)))
                    return false;
                for (size_t j = 0; j < entries.count; j++)
                    if (it[j].typ == GOBLIN_PE_IMAGE_REL_BASED_DIR64 || it[j].typ == GOBLIN_PE_IMAGE_REL_BASED_HIGHLOW) {
                        add(m, it[j].rva, it[j].typ == GOBLIN_PE_IMAGE_REL_BASED_DIR64 ? 8 : 4, moved);
                        count++;
                    }
            } while (!entries.is_done);
        }
        seen += batch.count;
    } while (!batch.is_done && seen < MOST_BLOCKS);
    printf("%zu base relocations\n", count);
    return batch.is_done;
}

/* Whether a file has the name of a DLL, whose ending .dll may be left out. */
static bool is_named(const char *file, struct goblin_pe_slice dll)
{
    size_t length = strlen(file);
    if (length != dll.length && length != dll.length + 4)
        return false;
    for (size_t i = 0; i < length; i++)
        if (tolower((unsigned char)file[i]) != tolower(i < dll.length ? dll.bytes[i] : ".dll"[i - dll.length]))
            return false;
    return true;
}

/* The export of a name: the row at the hint, or else the first of this name. */
static bool is_found_by_name(const struct module *m, struct wanted *wanted)
{
    static struct goblin_pe_export rows[256];
    struct goblin_pe_export_cursor at = { wanted->number }, first = { 0 };
    struct goblin_pe_batch batch;
    bool is_hint = true;
    do {
        if (goblin_pe_next_exports(&m->image, is_hint ? &at : &first, rows, is_hint ? 1 : 256, &steps, &batch).status)
            return false;
        for (size_t i = 0; i < batch.count; i++)
            if (!rows[i].is_name_cut && rows[i].name.length == wanted->name.length &&
                !memcmp(rows[i].name.bytes, wanted->name.bytes, wanted->name.length)) {
                wanted->number = rows[i].ordinal;
                return true;
            }
        batch.is_done = batch.is_done && !is_hint;
        is_hint = false;
    } while (!batch.is_done);
    return false;
}

/* The address of what is wanted in a library, or what its forwarder wants. */
static bool is_found(const struct module *m, struct wanted *wanted, struct goblin_pe_export_address *found)
{
    struct goblin_pe_export_directory directory;
    struct goblin_pe_forwarder it;
    struct goblin_pe_batch batch;
    if (goblin_pe_read_export_directory(&m->image, &directory).status || (wanted->is_by_name && !is_found_by_name(m, wanted)))
        return false;
    struct goblin_pe_export_address_cursor cursor = { wanted->number - directory.record.ordinal_base };
    if (wanted->number < directory.record.ordinal_base ||
        goblin_pe_next_export_addresses(&m->image, &cursor, found, 1, &batch).status || !batch.count || !found->rva)
        return false;
    if (!found->is_forwarder)
        return true;
    if (goblin_pe_forwarder_at(&m->image, found->rva, &it).status || it.is_cut)
        return false;
    *wanted = (struct wanted) { it.dll, it.name, it.ordinal, it.kind == GOBLIN_PE_FORWARDER_KIND_NAME };
    return true;
}

/* Puts the address of an import into its slot, and prints the way there. */
static bool is_resolved(struct module *modules, size_t count, const struct goblin_pe_import *row)
{
    struct wanted wanted = { row->dll, row->name, row->hint_or_ordinal, row->is_by_name };
    struct goblin_pe_export_address found = { .is_forwarder = true };
    size_t size = modules->image.optional_header.standard_fields.magic == GOBLIN_PE_MAGIC_64 ? 8 : 4;
    if (row->is_name_cut || row->is_library_cut)
        return puts("a name is too long"), false;
    for (int forwarders = 0; forwarders <= MOST_FORWARDERS; forwarders++) {
        const struct module *library = NULL;
        for (size_t i = 1; i < count && !library; i++)
            library = is_named(modules[i].name, wanted.dll) ? &modules[i] : NULL;
        put(wanted.dll);
        printf(wanted.is_by_name ? " " : " #%zu", wanted.number);
        put(wanted.name);
        if (!library || !is_found(library, &wanted, &found))
            return puts(library ? ": not exported" : ": no such library"), false;
        if (!found.is_forwarder) {
            add(modules, row->iat_rva, size, 0 - add(modules, row->iat_rva, size, 0));
            printf(": 0x%" PRIx64 "\n", add(modules, row->iat_rva, size, library->base + found.rva));
            return true;
        }
        printf(" -> ");
    }
    return puts("too many forwarders"), false;
}

static bool are_resolved(struct module *modules, size_t count)
{
    struct goblin_pe_import_cursor cursor = { 0 };
    struct goblin_pe_import rows[64];
    struct goblin_pe_batch batch;
    size_t seen = 0;
    bool are = true;
    do {
        if (fails(modules, goblin_pe_next_imports(&modules->image, &cursor, rows, 64, &steps, &batch)))
            return false;
        for (size_t i = 0; i < batch.count; i++)
            are &= is_resolved(modules, count, &rows[i]);
        seen += batch.count;
    } while (!batch.is_done && seen < MOST_IMPORTS);
    return are && batch.is_done;
}

int main(int argc, char **argv)
{
    size_t count = argc > 1 ? (size_t)argc - 1 : 0;
    static struct module *modules;
    modules = calloc(count + 1, sizeof *modules);
    bool is_loaded = count && modules;
    for (size_t i = 0; i < count && is_loaded; i++)
        is_loaded = is_opened(&modules[i], argv[i + 1]);
    return !(is_loaded && is_relocated(modules) && are_resolved(modules, count));
}
