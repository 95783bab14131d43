/* The calls of goblin_pe.h, over the library's own, which take no null pointers and are proved.
   bindings/generate.py makes this file of what the proved crates declare. */
#include "goblin_pe.h"

/* How the records lie in memory. */
#define HAS_SIZE(record, size, alignment) \
    _Static_assert(sizeof(struct goblin_pe_##record) == (size) && _Alignof(struct goblin_pe_##record) == (alignment), #record)
#define IS_AT(record, field, offset) _Static_assert(offsetof(struct goblin_pe_##record, field) == (offset), #record "." #field)

HAS_SIZE(slice, 16, 8);
IS_AT(slice, bytes, 0);
IS_AT(slice, length, 8);

HAS_SIZE(options, 16, 8);
IS_AT(options, mapping, 0);
IS_AT(options, is_permissive, 4);
IS_AT(options, reserved, 5);
IS_AT(options, longest_name, 8);

HAS_SIZE(dos_header, 64, 4);
IS_AT(dos_header, signature, 0);
IS_AT(dos_header, bytes_on_last_page, 2);
IS_AT(dos_header, pages_in_file, 4);
IS_AT(dos_header, relocations, 6);
IS_AT(dos_header, size_of_header_in_paragraphs, 8);
IS_AT(dos_header, minimum_extra_paragraphs_needed, 10);
IS_AT(dos_header, maximum_extra_paragraphs_needed, 12);
IS_AT(dos_header, initial_relative_ss, 14);
IS_AT(dos_header, initial_sp, 16);
IS_AT(dos_header, checksum, 18);
IS_AT(dos_header, initial_ip, 20);
IS_AT(dos_header, initial_relative_cs, 22);
IS_AT(dos_header, file_address_of_relocation_table, 24);
IS_AT(dos_header, overlay_number, 26);
IS_AT(dos_header, reserved, 28);
IS_AT(dos_header, oem_id, 36);
IS_AT(dos_header, oem_info, 38);
IS_AT(dos_header, reserved2, 40);
IS_AT(dos_header, pe_pointer, 60);

HAS_SIZE(coff_header, 20, 4);
IS_AT(coff_header, machine, 0);
IS_AT(coff_header, number_of_sections, 2);
IS_AT(coff_header, time_date_stamp, 4);
IS_AT(coff_header, pointer_to_symbol_table, 8);
IS_AT(coff_header, number_of_symbol_table, 12);
IS_AT(coff_header, size_of_optional_header, 16);
IS_AT(coff_header, characteristics, 18);

HAS_SIZE(standard_fields, 56, 8);
IS_AT(standard_fields, magic, 0);
IS_AT(standard_fields, major_linker_version, 2);
IS_AT(standard_fields, minor_linker_version, 3);
IS_AT(standard_fields, size_of_code, 8);
IS_AT(standard_fields, size_of_initialized_data, 16);
IS_AT(standard_fields, size_of_uninitialized_data, 24);
IS_AT(standard_fields, address_of_entry_point, 32);
IS_AT(standard_fields, base_of_code, 40);
IS_AT(standard_fields, base_of_data, 48);

HAS_SIZE(windows_fields, 88, 8);
IS_AT(windows_fields, image_base, 0);
IS_AT(windows_fields, section_alignment, 8);
IS_AT(windows_fields, file_alignment, 12);
IS_AT(windows_fields, major_operating_system_version, 16);
IS_AT(windows_fields, minor_operating_system_version, 18);
IS_AT(windows_fields, major_image_version, 20);
IS_AT(windows_fields, minor_image_version, 22);
IS_AT(windows_fields, major_subsystem_version, 24);
IS_AT(windows_fields, minor_subsystem_version, 26);
IS_AT(windows_fields, win32_version_value, 28);
IS_AT(windows_fields, size_of_image, 32);
IS_AT(windows_fields, size_of_headers, 36);
IS_AT(windows_fields, check_sum, 40);
IS_AT(windows_fields, subsystem, 44);
IS_AT(windows_fields, dll_characteristics, 46);
IS_AT(windows_fields, size_of_stack_reserve, 48);
IS_AT(windows_fields, size_of_stack_commit, 56);
IS_AT(windows_fields, size_of_heap_reserve, 64);
IS_AT(windows_fields, size_of_heap_commit, 72);
IS_AT(windows_fields, loader_flags, 80);
IS_AT(windows_fields, number_of_rva_and_sizes, 84);

HAS_SIZE(optional_header, 144, 8);
IS_AT(optional_header, standard_fields, 0);
IS_AT(optional_header, windows_fields, 56);

HAS_SIZE(data_directory, 8, 4);
IS_AT(data_directory, virtual_address, 0);
IS_AT(data_directory, size, 4);

HAS_SIZE(rich_header, 20, 4);
IS_AT(rich_header, key, 0);
IS_AT(rich_header, start_offset, 4);
IS_AT(rich_header, end_offset, 8);
IS_AT(rich_header, padding_size, 12);
IS_AT(rich_header, is_present, 16);
IS_AT(rich_header, reserved, 17);

HAS_SIZE(image, 440, 8);
IS_AT(image, bytes, 0);
IS_AT(image, options, 16);
IS_AT(image, section_table, 32);
IS_AT(image, section_count, 40);
IS_AT(image, dos_header, 48);
IS_AT(image, coff_header, 112);
IS_AT(image, has_optional_header, 132);
IS_AT(image, is_dos_stub_replaced, 133);
IS_AT(image, moved_by, 134);
IS_AT(image, optional_header, 136);
IS_AT(image, directories, 280);
IS_AT(image, dos_stub_size, 408);
IS_AT(image, rich_header, 416);
IS_AT(image, kind, 436);

HAS_SIZE(export_cursor, 8, 8);
IS_AT(export_cursor, index, 0);

HAS_SIZE(forwarder, 48, 8);
IS_AT(forwarder, dll, 0);
IS_AT(forwarder, name, 16);
IS_AT(forwarder, ordinal, 32);
IS_AT(forwarder, kind, 40);
IS_AT(forwarder, is_cut, 44);
IS_AT(forwarder, reserved, 45);

HAS_SIZE(export, 112, 8);
IS_AT(export, name, 0);
IS_AT(export, forwarder, 16);
IS_AT(export, ordinal, 64);
IS_AT(export, hint, 72);
IS_AT(export, rva, 80);
IS_AT(export, name_rva, 88);
IS_AT(export, offset, 96);
IS_AT(export, has_name, 104);
IS_AT(export, is_name_cut, 105);
IS_AT(export, has_offset, 106);
IS_AT(export, reserved, 107);

HAS_SIZE(batch, 32, 8);
IS_AT(batch, count, 0);
IS_AT(batch, skipped, 8);
IS_AT(batch, unmapped, 16);
IS_AT(batch, is_done, 24);
IS_AT(batch, reserved, 25);

HAS_SIZE(fault, 24, 8);
IS_AT(fault, status, 0);
IS_AT(fault, cause, 4);
IS_AT(fault, first, 8);
IS_AT(fault, second, 16);

HAS_SIZE(export_directory_table, 40, 4);
IS_AT(export_directory_table, export_flags, 0);
IS_AT(export_directory_table, time_date_stamp, 4);
IS_AT(export_directory_table, major_version, 8);
IS_AT(export_directory_table, minor_version, 10);
IS_AT(export_directory_table, name_rva, 12);
IS_AT(export_directory_table, ordinal_base, 16);
IS_AT(export_directory_table, address_table_entries, 20);
IS_AT(export_directory_table, number_of_name_pointers, 24);
IS_AT(export_directory_table, export_address_table_rva, 28);
IS_AT(export_directory_table, name_pointer_rva, 32);
IS_AT(export_directory_table, ordinal_table_rva, 36);

HAS_SIZE(export_directory, 64, 8);
IS_AT(export_directory, name, 0);
IS_AT(export_directory, record, 16);
IS_AT(export_directory, has_name, 56);
IS_AT(export_directory, is_name_cut, 57);
IS_AT(export_directory, is_present, 58);
IS_AT(export_directory, reserved, 59);

HAS_SIZE(export_address_cursor, 8, 8);
IS_AT(export_address_cursor, index, 0);

HAS_SIZE(export_address, 32, 8);
IS_AT(export_address, ordinal, 0);
IS_AT(export_address, rva, 8);
IS_AT(export_address, offset, 16);
IS_AT(export_address, is_forwarder, 24);
IS_AT(export_address, has_offset, 25);
IS_AT(export_address, reserved, 26);

HAS_SIZE(import_cursor, 72, 8);
IS_AT(import_cursor, first_record, 0);
IS_AT(import_cursor, next_record, 8);
IS_AT(import_cursor, library, 16);
IS_AT(import_cursor, table_offset, 24);
IS_AT(import_cursor, place, 32);
IS_AT(import_cursor, tested, 40);
IS_AT(import_cursor, name_rva, 48);
IS_AT(import_cursor, rva, 52);
IS_AT(import_cursor, address_table, 56);
IS_AT(import_cursor, is_begun, 60);
IS_AT(import_cursor, has_next, 61);
IS_AT(import_cursor, has_place, 62);
IS_AT(import_cursor, has_address_table, 63);
IS_AT(import_cursor, has_tested, 64);
IS_AT(import_cursor, reserved, 65);

HAS_SIZE(import, 72, 8);
IS_AT(import, name, 0);
IS_AT(import, dll, 16);
IS_AT(import, iat_rva, 32);
IS_AT(import, hint_name_rva, 40);
IS_AT(import, library_index, 48);
IS_AT(import, thunk_index, 56);
IS_AT(import, hint_or_ordinal, 64);
IS_AT(import, is_by_name, 66);
IS_AT(import, has_name, 67);
IS_AT(import, is_name_cut, 68);
IS_AT(import, is_library_cut, 69);
IS_AT(import, reserved, 70);

HAS_SIZE(import_directory_entry, 20, 4);
IS_AT(import_directory_entry, import_lookup_table_rva, 0);
IS_AT(import_directory_entry, time_date_stamp, 4);
IS_AT(import_directory_entry, forwarder_chain, 8);
IS_AT(import_directory_entry, name_rva, 12);
IS_AT(import_directory_entry, import_address_table_rva, 16);

HAS_SIZE(library, 152, 8);
IS_AT(library, name, 0);
IS_AT(library, name_fault, 16);
IS_AT(library, index, 40);
IS_AT(library, offset, 48);
IS_AT(library, imports, 56);
IS_AT(library, record, 128);
IS_AT(library, is_skipped, 148);
IS_AT(library, is_name_cut, 149);
IS_AT(library, reserved, 150);

HAS_SIZE(memory, 48, 8);
IS_AT(memory, bytes, 0);
IS_AT(memory, zeros, 16);
IS_AT(memory, missing, 24);
IS_AT(memory, section_index, 32);
IS_AT(memory, region, 40);
IS_AT(memory, reserved, 44);

HAS_SIZE(coff_relocation_cursor, 16, 8);
IS_AT(coff_relocation_cursor, index, 0);
IS_AT(coff_relocation_cursor, offset, 8);
IS_AT(coff_relocation_cursor, count, 12);
IS_AT(coff_relocation_cursor, is_extended, 14);
IS_AT(coff_relocation_cursor, reserved, 15);

HAS_SIZE(section, 88, 8);
IS_AT(section, name, 0);
IS_AT(section, index, 16);
IS_AT(section, relocations, 24);
IS_AT(section, stored_name, 40);
IS_AT(section, virtual_size, 48);
IS_AT(section, virtual_address, 52);
IS_AT(section, size_of_raw_data, 56);
IS_AT(section, pointer_to_raw_data, 60);
IS_AT(section, pointer_to_relocations, 64);
IS_AT(section, pointer_to_linenumbers, 68);
IS_AT(section, number_of_relocations, 72);
IS_AT(section, number_of_linenumbers, 74);
IS_AT(section, characteristics, 76);
IS_AT(section, has_long_name, 80);
IS_AT(section, is_name_cut, 81);
IS_AT(section, reserved, 82);

HAS_SIZE(header_faults, 216, 8);
IS_AT(header_faults, dos_header, 0);
IS_AT(header_faults, dos_stub, 24);
IS_AT(header_faults, rich_header, 48);
IS_AT(header_faults, coff_header, 72);
IS_AT(header_faults, standard_fields, 96);
IS_AT(header_faults, windows_fields, 120);
IS_AT(header_faults, directories, 144);
IS_AT(header_faults, section_table, 168);
IS_AT(header_faults, section_names, 192);

HAS_SIZE(te_header, 40, 8);
IS_AT(te_header, signature, 0);
IS_AT(te_header, machine, 2);
IS_AT(te_header, number_of_sections, 4);
IS_AT(te_header, subsystem, 5);
IS_AT(te_header, stripped_size, 6);
IS_AT(te_header, entry_point, 8);
IS_AT(te_header, base_of_code, 12);
IS_AT(te_header, image_base, 16);
IS_AT(te_header, reloc_dir, 24);
IS_AT(te_header, debug_dir, 32);

HAS_SIZE(relocation_block_cursor, 8, 8);
IS_AT(relocation_block_cursor, offset, 0);

HAS_SIZE(base_relocation_cursor, 24, 8);
IS_AT(base_relocation_cursor, offset, 0);
IS_AT(base_relocation_cursor, end, 8);
IS_AT(base_relocation_cursor, page_rva, 16);

HAS_SIZE(relocation_block, 40, 8);
IS_AT(relocation_block, rva, 0);
IS_AT(relocation_block, size, 8);
IS_AT(relocation_block, reserved, 12);
IS_AT(relocation_block, relocations, 16);

HAS_SIZE(section_cursor, 8, 8);
IS_AT(section_cursor, index, 0);

HAS_SIZE(rich_cursor, 8, 8);
IS_AT(rich_cursor, index, 0);

HAS_SIZE(rich_entry, 8, 4);
IS_AT(rich_entry, build, 0);
IS_AT(rich_entry, product, 2);
IS_AT(rich_entry, use_count, 4);

HAS_SIZE(symbol_cursor, 8, 8);
IS_AT(symbol_cursor, index, 0);

HAS_SIZE(symbol_record, 20, 4);
IS_AT(symbol_record, name, 0);
IS_AT(symbol_record, value, 8);
IS_AT(symbol_record, section_number, 12);
IS_AT(symbol_record, typ, 14);
IS_AT(symbol_record, storage_class, 16);
IS_AT(symbol_record, number_of_aux_symbols, 17);

HAS_SIZE(symbol, 64, 8);
IS_AT(symbol, name, 0);
IS_AT(symbol, auxiliary, 16);
IS_AT(symbol, index, 32);
IS_AT(symbol, record, 40);
IS_AT(symbol, has_name, 60);
IS_AT(symbol, is_name_cut, 61);
IS_AT(symbol, reserved, 62);

HAS_SIZE(coff_relocation, 12, 4);
IS_AT(coff_relocation, virtual_address, 0);
IS_AT(coff_relocation, symbol_table_index, 4);
IS_AT(coff_relocation, typ, 8);

HAS_SIZE(base_relocation, 16, 8);
IS_AT(base_relocation, rva, 0);
IS_AT(base_relocation, typ, 8);
IS_AT(base_relocation, reserved, 12);

HAS_SIZE(auxiliary, 64, 8);
IS_AT(auxiliary, tag_index, 0);
IS_AT(auxiliary, total_size, 4);
IS_AT(auxiliary, pointer_to_line_number, 8);
IS_AT(auxiliary, pointer_to_next_function, 12);
IS_AT(auxiliary, line_number, 16);
IS_AT(auxiliary, number, 18);
IS_AT(auxiliary, length, 20);
IS_AT(auxiliary, checksum, 24);
IS_AT(auxiliary, number_of_relocations, 28);
IS_AT(auxiliary, number_of_line_numbers, 30);
IS_AT(auxiliary, selection, 32);
IS_AT(auxiliary, is_file_cut, 33);
IS_AT(auxiliary, reserved, 34);
IS_AT(auxiliary, characteristics, 36);
IS_AT(auxiliary, file, 40);
IS_AT(auxiliary, string_offset, 56);
IS_AT(auxiliary, reserved2, 60);

/* What is passed in place of a null pointer: no bytes and no records are read or written there. */
static _Alignas(8) uint8_t nowhere;
static const struct goblin_pe_options defaults;

static const struct goblin_pe_image *sound_image(const struct goblin_pe_image *it, struct goblin_pe_image *sound)
{
    if (it->bytes.bytes)
        return it;
    *sound = *it;
    if (!it->bytes.length)
        sound->bytes.bytes = &nowhere;
    return sound;
}

static const struct goblin_pe_section *sound_section(const struct goblin_pe_section *it, struct goblin_pe_section *sound)
{
    if (it->name.bytes)
        return it;
    *sound = *it;
    if (!it->name.length)
        sound->name.bytes = &nowhere;
    return sound;
}

static const struct goblin_pe_symbol *sound_symbol(const struct goblin_pe_symbol *it, struct goblin_pe_symbol *sound)
{
    if (it->name.bytes && it->auxiliary.bytes)
        return it;
    *sound = *it;
    if (!it->name.length)
        sound->name.bytes = &nowhere;
    if (!it->auxiliary.length)
        sound->auxiliary.bytes = &nowhere;
    return sound;
}

bool goblin_pe_raw_checksum(const struct goblin_pe_image *image, uint32_t *sum);
bool goblin_pe_checksum(const struct goblin_pe_image *image, uint32_t *sum)
{
    struct goblin_pe_image its_image;
    return goblin_pe_raw_checksum(sound_image(image, &its_image), sum);
}

struct goblin_pe_fault goblin_pe_raw_next_exports(
    const struct goblin_pe_image *image, struct goblin_pe_export_cursor *cursor,
    struct goblin_pe_export *exports, size_t room, size_t *steps, struct goblin_pe_batch *batch);
struct goblin_pe_fault goblin_pe_next_exports(
    const struct goblin_pe_image *image, struct goblin_pe_export_cursor *cursor,
    struct goblin_pe_export *exports, size_t room, size_t *steps, struct goblin_pe_batch *batch)
{
    struct goblin_pe_image its_image;
    size_t no_limit = SIZE_MAX;
    return goblin_pe_raw_next_exports(
        sound_image(image, &its_image), cursor, room ? exports : (void *)&nowhere, room,
        steps ? steps : &no_limit, batch);
}

struct goblin_pe_fault goblin_pe_raw_read_export_directory(
    const struct goblin_pe_image *image, struct goblin_pe_export_directory *directory);
struct goblin_pe_fault goblin_pe_read_export_directory(
    const struct goblin_pe_image *image, struct goblin_pe_export_directory *directory)
{
    struct goblin_pe_image its_image;
    return goblin_pe_raw_read_export_directory(sound_image(image, &its_image), directory);
}

struct goblin_pe_fault goblin_pe_raw_next_export_addresses(
    const struct goblin_pe_image *image, struct goblin_pe_export_address_cursor *cursor,
    struct goblin_pe_export_address *addresses, size_t room, struct goblin_pe_batch *batch);
struct goblin_pe_fault goblin_pe_next_export_addresses(
    const struct goblin_pe_image *image, struct goblin_pe_export_address_cursor *cursor,
    struct goblin_pe_export_address *addresses, size_t room, struct goblin_pe_batch *batch)
{
    struct goblin_pe_image its_image;
    return goblin_pe_raw_next_export_addresses(
        sound_image(image, &its_image), cursor, room ? addresses : (void *)&nowhere, room, batch);
}

struct goblin_pe_fault goblin_pe_raw_forwarder_at(
    const struct goblin_pe_image *image, size_t rva, struct goblin_pe_forwarder *forwarder);
struct goblin_pe_fault goblin_pe_forwarder_at(
    const struct goblin_pe_image *image, size_t rva, struct goblin_pe_forwarder *forwarder)
{
    struct goblin_pe_image its_image;
    return goblin_pe_raw_forwarder_at(sound_image(image, &its_image), rva, forwarder);
}

struct goblin_pe_fault goblin_pe_raw_next_imports(
    const struct goblin_pe_image *image, struct goblin_pe_import_cursor *cursor,
    struct goblin_pe_import *imports, size_t room, size_t *steps, struct goblin_pe_batch *batch);
struct goblin_pe_fault goblin_pe_next_imports(
    const struct goblin_pe_image *image, struct goblin_pe_import_cursor *cursor,
    struct goblin_pe_import *imports, size_t room, size_t *steps, struct goblin_pe_batch *batch)
{
    struct goblin_pe_image its_image;
    size_t no_limit = SIZE_MAX;
    return goblin_pe_raw_next_imports(
        sound_image(image, &its_image), cursor, room ? imports : (void *)&nowhere, room,
        steps ? steps : &no_limit, batch);
}

struct goblin_pe_fault goblin_pe_raw_next_libraries(
    const struct goblin_pe_image *image, struct goblin_pe_import_cursor *cursor,
    struct goblin_pe_library *libraries, size_t room, size_t *steps, struct goblin_pe_batch *batch);
struct goblin_pe_fault goblin_pe_next_libraries(
    const struct goblin_pe_image *image, struct goblin_pe_import_cursor *cursor,
    struct goblin_pe_library *libraries, size_t room, size_t *steps, struct goblin_pe_batch *batch)
{
    struct goblin_pe_image its_image;
    size_t no_limit = SIZE_MAX;
    return goblin_pe_raw_next_libraries(
        sound_image(image, &its_image), cursor, room ? libraries : (void *)&nowhere, room,
        steps ? steps : &no_limit, batch);
}

bool goblin_pe_raw_find_offset(const struct goblin_pe_image *image, size_t rva, size_t *offset);
bool goblin_pe_find_offset(const struct goblin_pe_image *image, size_t rva, size_t *offset)
{
    struct goblin_pe_image its_image;
    return goblin_pe_raw_find_offset(sound_image(image, &its_image), rva, offset);
}

bool goblin_pe_raw_find_rva(const struct goblin_pe_image *image, size_t offset, size_t *rva);
bool goblin_pe_find_rva(const struct goblin_pe_image *image, size_t offset, size_t *rva)
{
    struct goblin_pe_image its_image;
    return goblin_pe_raw_find_rva(sound_image(image, &its_image), offset, rva);
}

bool goblin_pe_raw_memory_at(
    const struct goblin_pe_image *image, size_t rva, size_t size, struct goblin_pe_memory *memory);
bool goblin_pe_memory_at(
    const struct goblin_pe_image *image, size_t rva, size_t size, struct goblin_pe_memory *memory)
{
    struct goblin_pe_image its_image;
    return goblin_pe_raw_memory_at(sound_image(image, &its_image), rva, size, memory);
}

bool goblin_pe_raw_section_data(
    const struct goblin_pe_image *image, const struct goblin_pe_section *section,
    struct goblin_pe_memory *memory);
bool goblin_pe_section_data(
    const struct goblin_pe_image *image, const struct goblin_pe_section *section,
    struct goblin_pe_memory *memory)
{
    struct goblin_pe_image its_image;
    struct goblin_pe_section its_section;
    return goblin_pe_raw_section_data(
        sound_image(image, &its_image), sound_section(section, &its_section), memory);
}

uint32_t goblin_pe_raw_kind_of(const uint8_t *bytes, size_t length);
uint32_t goblin_pe_kind_of(const uint8_t *bytes, size_t length)
{
    return goblin_pe_raw_kind_of(length ? bytes : &nowhere, length);
}

struct goblin_pe_fault goblin_pe_raw_read_image(
    const uint8_t *bytes, size_t length, const struct goblin_pe_options *options,
    struct goblin_pe_image *image);
struct goblin_pe_fault goblin_pe_raw_read_image_with_faults(
    const uint8_t *bytes, size_t length, const struct goblin_pe_options *options,
    struct goblin_pe_image *image, struct goblin_pe_header_faults *faults);
struct goblin_pe_fault goblin_pe_read_image(
    const uint8_t *bytes, size_t length, const struct goblin_pe_options *options,
    struct goblin_pe_image *image, struct goblin_pe_header_faults *faults)
{
    if (!faults)
        return goblin_pe_raw_read_image(
            length ? bytes : &nowhere, length, options ? options : &defaults, image);
    return goblin_pe_raw_read_image_with_faults(
        length ? bytes : &nowhere, length, options ? options : &defaults, image, faults);
}

struct goblin_pe_fault goblin_pe_raw_read_object(
    const uint8_t *bytes, size_t length, const struct goblin_pe_options *options,
    struct goblin_pe_image *image);
struct goblin_pe_fault goblin_pe_read_object(
    const uint8_t *bytes, size_t length, const struct goblin_pe_options *options,
    struct goblin_pe_image *image)
{
    return goblin_pe_raw_read_object(
        length ? bytes : &nowhere, length, options ? options : &defaults, image);
}

struct goblin_pe_fault goblin_pe_raw_read_te(
    const uint8_t *bytes, size_t length, const struct goblin_pe_options *options,
    struct goblin_pe_image *image, struct goblin_pe_te_header *header);
struct goblin_pe_fault goblin_pe_read_te(
    const uint8_t *bytes, size_t length, const struct goblin_pe_options *options,
    struct goblin_pe_image *image, struct goblin_pe_te_header *header)
{
    return goblin_pe_raw_read_te(
        length ? bytes : &nowhere, length, options ? options : &defaults, image, header);
}

struct goblin_pe_fault goblin_pe_raw_next_relocation_blocks(
    const struct goblin_pe_image *image, struct goblin_pe_relocation_block_cursor *cursor,
    struct goblin_pe_relocation_block *blocks, size_t room, struct goblin_pe_batch *batch);
struct goblin_pe_fault goblin_pe_next_relocation_blocks(
    const struct goblin_pe_image *image, struct goblin_pe_relocation_block_cursor *cursor,
    struct goblin_pe_relocation_block *blocks, size_t room, struct goblin_pe_batch *batch)
{
    struct goblin_pe_image its_image;
    return goblin_pe_raw_next_relocation_blocks(
        sound_image(image, &its_image), cursor, room ? blocks : (void *)&nowhere, room, batch);
}

struct goblin_pe_fault goblin_pe_raw_next_sections(
    const struct goblin_pe_image *image, struct goblin_pe_section_cursor *cursor,
    struct goblin_pe_section *sections, size_t room, struct goblin_pe_batch *batch);
struct goblin_pe_fault goblin_pe_next_sections(
    const struct goblin_pe_image *image, struct goblin_pe_section_cursor *cursor,
    struct goblin_pe_section *sections, size_t room, struct goblin_pe_batch *batch)
{
    struct goblin_pe_image its_image;
    return goblin_pe_raw_next_sections(
        sound_image(image, &its_image), cursor, room ? sections : (void *)&nowhere, room, batch);
}

struct goblin_pe_fault goblin_pe_raw_next_rich_entries(
    const struct goblin_pe_image *image, struct goblin_pe_rich_cursor *cursor,
    struct goblin_pe_rich_entry *entries, size_t room, struct goblin_pe_batch *batch);
struct goblin_pe_fault goblin_pe_next_rich_entries(
    const struct goblin_pe_image *image, struct goblin_pe_rich_cursor *cursor,
    struct goblin_pe_rich_entry *entries, size_t room, struct goblin_pe_batch *batch)
{
    struct goblin_pe_image its_image;
    return goblin_pe_raw_next_rich_entries(
        sound_image(image, &its_image), cursor, room ? entries : (void *)&nowhere, room, batch);
}

struct goblin_pe_fault goblin_pe_raw_next_symbols(
    const struct goblin_pe_image *image, struct goblin_pe_symbol_cursor *cursor,
    struct goblin_pe_symbol *symbols, size_t room, struct goblin_pe_batch *batch);
struct goblin_pe_fault goblin_pe_next_symbols(
    const struct goblin_pe_image *image, struct goblin_pe_symbol_cursor *cursor,
    struct goblin_pe_symbol *symbols, size_t room, struct goblin_pe_batch *batch)
{
    struct goblin_pe_image its_image;
    return goblin_pe_raw_next_symbols(
        sound_image(image, &its_image), cursor, room ? symbols : (void *)&nowhere, room, batch);
}

struct goblin_pe_fault goblin_pe_raw_next_coff_relocations(
    const struct goblin_pe_image *image, struct goblin_pe_coff_relocation_cursor *cursor,
    struct goblin_pe_coff_relocation *relocations, size_t room, struct goblin_pe_batch *batch);
struct goblin_pe_fault goblin_pe_next_coff_relocations(
    const struct goblin_pe_image *image, struct goblin_pe_coff_relocation_cursor *cursor,
    struct goblin_pe_coff_relocation *relocations, size_t room, struct goblin_pe_batch *batch)
{
    struct goblin_pe_image its_image;
    return goblin_pe_raw_next_coff_relocations(
        sound_image(image, &its_image), cursor, room ? relocations : (void *)&nowhere, room, batch);
}

struct goblin_pe_fault goblin_pe_raw_next_base_relocations(
    const struct goblin_pe_image *image, struct goblin_pe_base_relocation_cursor *cursor,
    struct goblin_pe_base_relocation *relocations, size_t room, struct goblin_pe_batch *batch);
struct goblin_pe_fault goblin_pe_next_base_relocations(
    const struct goblin_pe_image *image, struct goblin_pe_base_relocation_cursor *cursor,
    struct goblin_pe_base_relocation *relocations, size_t room, struct goblin_pe_batch *batch)
{
    struct goblin_pe_image its_image;
    return goblin_pe_raw_next_base_relocations(
        sound_image(image, &its_image), cursor, room ? relocations : (void *)&nowhere, room, batch);
}

bool goblin_pe_raw_string_at(
    const struct goblin_pe_image *image, size_t offset, struct goblin_pe_slice *text);
bool goblin_pe_string_at(
    const struct goblin_pe_image *image, size_t offset, struct goblin_pe_slice *text)
{
    struct goblin_pe_image its_image;
    return goblin_pe_raw_string_at(sound_image(image, &its_image), offset, text);
}

uint32_t goblin_pe_raw_read_auxiliary(
    const struct goblin_pe_image *image, const struct goblin_pe_symbol *symbol,
    struct goblin_pe_auxiliary *auxiliary);
uint32_t goblin_pe_read_auxiliary(
    const struct goblin_pe_image *image, const struct goblin_pe_symbol *symbol,
    struct goblin_pe_auxiliary *auxiliary)
{
    struct goblin_pe_image its_image;
    struct goblin_pe_symbol its_symbol;
    return goblin_pe_raw_read_auxiliary(
        sound_image(image, &its_image), sound_symbol(symbol, &its_symbol), auxiliary);
}

struct goblin_pe_fault goblin_pe_raw_write_header(
    const struct goblin_pe_image *image, uint8_t *out, size_t room, size_t *written);
struct goblin_pe_fault goblin_pe_write_header(
    const struct goblin_pe_image *image, uint8_t *out, size_t room, size_t *written)
{
    struct goblin_pe_image its_image;
    return goblin_pe_raw_write_header(
        sound_image(image, &its_image), room ? out : (void *)&nowhere, room, written);
}

struct goblin_pe_fault goblin_pe_raw_write_section(
    const struct goblin_pe_section *section, uint8_t *out, size_t room, size_t *written);
struct goblin_pe_fault goblin_pe_write_section(
    const struct goblin_pe_section *section, uint8_t *out, size_t room, size_t *written)
{
    struct goblin_pe_section its_section;
    return goblin_pe_raw_write_section(
        sound_section(section, &its_section), room ? out : (void *)&nowhere, room, written);
}

/* Frees a block of memory, where a proved call drops an index of sections. None makes such an index, but the compiler does
   not see that. */
void rattle_dealloc(void *block);
void rattle_dealloc(void *block)
{
    (void)block;
}

size_t goblin_pe_raw_fault_text(const struct goblin_pe_fault *fault, uint8_t *text, size_t room);

const char *goblin_pe_fault_string(const struct goblin_pe_fault *fault, char text[GOBLIN_PE_FAULT_ROOM])
{
    size_t length = goblin_pe_raw_fault_text(fault, (uint8_t *)text, GOBLIN_PE_FAULT_ROOM - 1);
    text[length < GOBLIN_PE_FAULT_ROOM ? length : GOBLIN_PE_FAULT_ROOM - 1] = 0;
    return text;
}
