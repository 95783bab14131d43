/* patch FROM STAMP SECTION NAME TO: gives an image another time stamp, and a section another name of at most eight bytes. It
   reads the header, changes it, writes it back at its place, and updates the checksum. The status is 0 if all went well, 1 if
   the image is refused or has no such section, and 2 if a file can't be read or written. */
#include "goblin_pe.h"

#include <stdio.h>
#include <stdlib.h>
#include <string.h>

static uint8_t file[1 << 26], header[1 << 26];

/* The first section of a name. */
static bool find(const struct goblin_pe_image *image, const char *name, struct goblin_pe_section *section)
{
    struct goblin_pe_section_cursor cursor = { 0 };
    struct goblin_pe_batch batch;
    do {
        if (goblin_pe_next_sections(image, &cursor, section, 1, &batch).status)
            return false;
        if (batch.count && section->name.length == strlen(name) && !memcmp(section->name.bytes, name, section->name.length))
            return true;
    } while (!batch.is_done);
    return false;
}

/* Writes the header of the image up to the section table, and then one section header. */
static struct goblin_pe_fault write_back(const struct goblin_pe_image *image, const struct goblin_pe_section *section)
{
    uint8_t *to = file + image->section_table + GOBLIN_PE_SIZEOF_SECTION_TABLE * section->index;
    size_t written;
    struct goblin_pe_fault fault = goblin_pe_write_header(image, header, sizeof header, &written);
    if (fault.status)
        return fault;
    memcpy(file, header, written < image->section_table ? written : image->section_table);
    return goblin_pe_write_section(section, to, GOBLIN_PE_SIZEOF_SECTION_TABLE, &written);
}

/* Stores the checksum of the image, little-endian, in its optional header. */
static void update_checksum(const struct goblin_pe_image *image)
{
    size_t field = image->dos_header.pe_pointer + GOBLIN_PE_SIZEOF_PE_MAGIC + GOBLIN_PE_SIZEOF_COFF_HEADER +
                   GOBLIN_PE_SIZEOF_STANDARD_FIELDS_32 + GOBLIN_PE_OFFSET_WINDOWS_FIELDS_32_CHECKSUM;
    uint32_t sum;
    if (goblin_pe_checksum(image, &sum))
        for (int i = 0; i < 4; i++)
            file[field + i] = (uint8_t)(sum >> 8 * i);
}

int main(int argc, char **argv)
{
    char text[GOBLIN_PE_FAULT_ROOM];
    struct goblin_pe_options options = { .longest_name = 512 };
    struct goblin_pe_image image;
    struct goblin_pe_section section;
    FILE *from = argc == 6 ? fopen(argv[1], "rb") : NULL, *to;
    size_t length = from ? fread(file, 1, sizeof file, from) : 0;
    if (!from || ferror(from) || length == sizeof file || strlen(argv[4]) > sizeof section.stored_name)
        return fprintf(stderr, "usage: patch FROM STAMP SECTION NAME TO (FROM below 64 MiB)\n"), 2;
    struct goblin_pe_fault fault = goblin_pe_read_image(file, length, &options, &image, NULL);
    if (!fault.status) {
        if (!find(&image, argv[3], &section))
            return fprintf(stderr, "no section %s\n", argv[3]), 1;
        image.coff_header.time_date_stamp = (uint32_t)strtoul(argv[2], NULL, 0);
        memset(section.stored_name, 0, sizeof section.stored_name);
        memcpy(section.stored_name, argv[4], strlen(argv[4]));
        fault = write_back(&image, &section);
    }
    if (!fault.status) {
        update_checksum(&image);
        fault = goblin_pe_read_image(file, length, &options, &image, NULL);
    }
    if (fault.status)
        return fprintf(stderr, "%s\n", goblin_pe_fault_string(&fault, text)), 1;
    to = fopen(argv[5], "wb");
    if (!to || fwrite(file, 1, length, to) != length || fclose(to))
        return perror(argv[5]), 2;
    printf("0x%x\n", image.coff_header.time_date_stamp);
    return 0;
}
