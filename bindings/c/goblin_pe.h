/* goblin_pe: read PE images, COFF objects and TE files with a library whose answers are proved.

   This program lists the imports of an untrusted image. It limits its work, its memory and the
   length of each name, and it says what it could not read:

       #include "goblin_pe.h"
       #include <stdio.h>
       static uint8_t file[1 << 26];
       static struct goblin_pe_import rows[4096];
       static void put(struct goblin_pe_slice text) {
           for (size_t i = 0; i < text.length; i++)
               putchar(text.bytes[i] > 32 && text.bytes[i] < 127 ? text.bytes[i] : '?');
       }
       int main(void) {
           struct goblin_pe_options options = { .is_permissive = true, .longest_name = 512 };
           struct goblin_pe_import_cursor cursor = { 0 };
           struct goblin_pe_image image; struct goblin_pe_batch batch;
           char text[GOBLIN_PE_FAULT_ROOM];
           size_t steps = 10000, skipped = 0, length = fread(file, 1, sizeof file, stdin);
           if (length == sizeof file || ferror(stdin)) return puts("it can't be read whole"), 2;
           struct goblin_pe_fault fault = goblin_pe_read_image(file, length, &options, &image, NULL);
           if (!fault.status) do {
               fault = goblin_pe_next_imports(&image, &cursor, rows, 4096, &steps, &batch);
               for (size_t i = 0; i < batch.count; i++) {
                   put(rows[i].dll), printf(" %u ", rows[i].hint_or_ordinal), put(rows[i].name);
                   puts(rows[i].is_name_cut || rows[i].is_library_cut ? "..." : "");
               }
               skipped += batch.skipped + batch.unmapped;
           } while (!batch.is_done);
           if (skipped) printf("%zu entries give no import\n", skipped);
           if (fault.status) puts(goblin_pe_fault_string(&fault, text));
           return fault.status != GOBLIN_PE_STATUS_OK;
       }

       $ cc -I include -o imports imports.c lib/libgoblin_pe.a
       $ ./imports < tiny.exe
       KERNEL32.dll 0 GetTickCount

   How to read this manual
   -----------------------
   RVA      An address in memory, in bytes from the image base.
   offset   A position in the file, in bytes from its first byte, unless a comment says otherwise.
   size     A number of bytes.
   slice    A pointer and a length: bytes of the file. A slice does not end in a NUL.
   fault    What a call returns: its status is 0 (GOBLIN_PE_STATUS_OK) when the call succeeds.
   row      One record that a walk gives: a section, an import, an export, ..
   strict and permissive
            Strict mode refuses a damaged table. Permissive mode skips the damaged parts, and
            counts them.

   Names such as IMAGE_SCN_CNT_CODE are those of the PE/COFF specification. They are in
   goblin_pe_constants.h, with the prefix GOBLIN_PE_. Machines have goblin's names there:
   COFF_MACHINE_X86_64 is IMAGE_FILE_MACHINE_AMD64.

   One image record
   ----------------
   goblin_pe_read_image fills a struct goblin_pe_image. You own the record. It is plain data: copy
   it, keep it, send it to another thread. It needs no call to free it. It points into your bytes,
   so keep these where they are as long as you use the record or a row. If you change them
   between two calls, the rows that you have may no longer be what the file says; nothing else
   goes wrong.

   All other calls on the image get a pointer to that record. They change nothing in it. To read
   the same image with other options, copy the record and change the copy:

       struct goblin_pe_image strict = image;
       strict.options.is_permissive = false;

   You may change any number in the record. It then leads to other tables, which harms nothing. A
   pointer that you change has to point at as many bytes as its length says. Compare records field
   by field: what lies between their fields has no meaning.

   With `faults`, goblin_pe_read_image fills the record with what is there of a damaged header.
   goblin_pe_read_object and goblin_pe_read_te fill the same record from a COFF object and from a
   Terse Executable.

   Walks
   -----
   Each table has one call. The call gives the next rows, as many as your array has room for:

       struct goblin_pe_fault goblin_pe_next_symbols(
           const struct goblin_pe_image *image, struct goblin_pe_symbol_cursor *cursor,
           struct goblin_pe_symbol *symbols, size_t room, struct goblin_pe_batch *batch);

   The cursor says where the walk is. A cursor of zeros begins the walk. Some rows have a table of
   their own, and hold the cursor at which it begins: a library has its imports, a block its base
   relocations, a section of an object its relocations. A walk from there ends with that table.
   Cursors are plain data, without pointers: copy one to come back to a row, or keep one in a file.
   A cursor belongs to the file, the header and the options of the image that it was made with.
   With another image, or with made-up numbers, a walk gives other rows, which harms nothing.

   The batch says what the call did:

       count     how many rows the call gave
       skipped   how many entries it skipped in permissive mode, because strict mode refuses them
       unmapped  how many entries led nowhere: in both modes they give no row and no fault
       is_done   whether to stop: there are no more rows, or the call returned a fault

   Their sums over a walk do not depend on the room and the steps of its calls.

   next_imports, next_libraries and next_exports also have an argument `steps`: see below. Every walk
   is this loop:

       do {
           fault = goblin_pe_next_X(&image, &cursor, rows, ROOM, &batch);
           for (size_t i = 0; i < batch.count; i++)
               use(&rows[i]);
       } while (!batch.is_done);

   A walk inside another one has a batch of its own. Both can count down the same steps.

   - The loop ends, whatever the file holds: a call with room gives a row, uses a step or sets
     is_done. (With room 0 it does not end: is_done is false unless the call returns a fault.)
   - Before the end, a call may give fewer rows than there is room for. One that counts steps may
     even give none. Only is_done says that the walk is over.
   - After a fault, is_done is true, and the numbers of the batch are 0. The cursor, the rows and the
     steps are unchanged, so you can call again with more steps.
   - If a row is damaged, a call first gives the rows before it. The next call returns the fault.
   - A call with room 0 gives no row, needs no steps and does not move the cursor. It returns a
     fault if strict mode refuses the table as a whole.
   - A table that the image does not have has no rows. In permissive mode neither has a table that
     strict mode refuses as a whole: the call that begins the walk counts it as one skipped entry. A
     call with the strict copy and room 0 returns the fault.

   Steps
   -----
   Entries of import and export tables may give no row: a damaged image can hold millions of them.
   So next_imports, next_libraries and next_exports count steps. A step is one look at an import
   directory entry, at an entry of a lookup table, at 64 entries of an address table, or at an export
   name pointer. The calls subtract the steps that they used from *steps. If no steps are left, a
   call with room returns GOBLIN_PE_STATUS_STEPS. To see the end of a table may need a step, too.
   Pass a null pointer to have no limit.

   If the image has more than 96 sections, each look takes one step for each 96 sections, or part of
   96. A call with room and steps makes at least one look: its last look may take more steps than are
   left, and leaves none. So no call passes its steps by more than one look.

   An address table gives no rows. It is looked at to its end before the row of its library, and
   before its imports, or in strict mode after them. So a call may use all its steps, and give no
   row.

   The other walks look only at entries that give a row, so the room of their calls limits them.

   One number of steps can serve several walks, and so limit their sum. The looks of a call that
   returns a fault, and those before a fault that the next call returns, are not subtracted.

   What the caller must do
   -----------------------
   Nothing checks these rules.
   - The bytes are as many as the length says. No thread changes them during a call.
   - Records that a call reads were filled by a call, or all their fields are set. Bools are 0 or
     1.
   - The memory that a call fills overlaps no other argument. (So &image.options can't be the
     options of a call that fills image.)
   - Pointers are not null. Exceptions: options may be null and are then the defaults; steps may be
     null and are then no limit; bytes, rows and output may be null where their length or room is
     0.
   - The processor supports x86-64-v2, and each thread has 16 KiB of stack.

   Calls may run in any thread, several at once, if they share no cursor, steps or output. No call
   allocates memory, keeps a state or takes a lock, so a signal handler may make calls, too.

   A call that returns a fault, or false, changes none of its outputs, with three exceptions: the
   batch, the memory of section_data and memory_at, and what read_image fills with `faults`.

   Time
   ----
   n is the file's length, s the number of its section headers. A look at a section header costs 2
   to 10 nanoseconds. "name" is the length of one name: at most n, and at most longest_name + 16.
   ASCII costs 0.15 nanoseconds a byte, other text up to 3.

   call                       time at most
   kind_of                    constant
   read_image                 n, and a name for each section; twice that with `faults`
   read_object                a name for each section
   read_te                    s
   next_sections              a name for each row
   next_rich_entries          the rows
   next_symbols               a name for each row
   next_coff_relocations      the rows
   next_base_relocations      the rows
   next_relocation_blocks     s, and the rows
   next_export_addresses      5 s, and s for each row
   next_exports               for each step 4 s, at most 400, and two names; 8 s, the image's name
   next_imports               for each step 4 s, at most 400, and a name; 8 s, the DLL's name
   next_libraries             for each step 4 s, at most 400, and a name; 8 s
   read_export_directory      5 s, and a name
   read_auxiliary, string_at  a name
   find_offset                s
   find_rva                   2 s
   memory_at, section_data    s
   forwarder_at               s, and a name
   checksum                   n
   write_*                    the bytes written

   Hostile files
   -------------
   - Libraries may share one lookup table, so a small file can list very much: 256 KiB list 850
     million imports. Stop a walk when you have enough.
   - Names may overlap, so m names of a file of n bytes are up to m * n bytes to read. So the length
     of names is limited: to 4,096 bytes if you set no longest_name. A row says whether a name of it
     is cut.
   - Dead entries cost time and give no row: without a limit 1 MiB may cost a minute. Set steps:
     100,000 need at most a quarter of a second if the names are ASCII, 3 seconds if not.
   - Of next_export_addresses each row may cost a look at each section header: with 65,535 of them
     0.2 milliseconds. Stop it when you have enough. */
#ifndef GOBLIN_PE_H
#define GOBLIN_PE_H

#include <stdbool.h>
#include <stddef.h>
#include <stdint.h>

#include "goblin_pe_constants.h"

#ifdef __cplusplus
extern "C" {
#endif

/* ---- Version ------------------------------------------------------------------------------- */

#define GOBLIN_PE_VERSION "0.5.0"
/* The same for #if: 10000 * major + 100 * minor + patch. */
#define GOBLIN_PE_VERSION_NUMBER 500

/* The number of this interface. A program and a library that declare different records or calls
   have different numbers. A program linked in C gets the matching library, or does not link.
   One that loads the library at run time defines GOBLIN_PE_LOADED_AT_RUN_TIME before it includes
   this header, and compares the two numbers first. */
#define GOBLIN_PE_INTERFACE 0x431ad519u
uint32_t goblin_pe_interface(void);

/* What follows .so. in the name of the shared library. */
#define GOBLIN_PE_SONAME "5.431ad519"

/* Only a library of this interface has this call. */
uint32_t goblin_pe_interface_431ad519(void);
#if defined(__GNUC__) && !defined(GOBLIN_PE_LOADED_AT_RUN_TIME)
__attribute__((used)) static uint32_t (*const goblin_pe_needs_interface)(void) =
    goblin_pe_interface_431ad519;
#endif

/* Calls that return a fault are marked, so that a compiler warns if you drop it. */
#if defined(__GNUC__)
#define GOBLIN_PE_MUST_USE __attribute__((warn_unused_result))
#else
#define GOBLIN_PE_MUST_USE
#endif

/* ---- Basic records ------------------------------------------------------------------------- */

/* Bytes of the file. A slice without bytes has the length 0, and a pointer that is not null but
   means nothing. Where a comment says zeros, a slice is such a one. The offset of a slice with
   bytes is `slice.bytes - image.bytes.bytes`. */
struct goblin_pe_slice {
    /* The bytes. */
    const uint8_t *bytes;
    size_t length;
};

/* What a call of a walk did. The numbers are of this call alone: add them up. After a fault, and
   with room 0, they are 0. */
struct goblin_pe_batch {
    /* How many records the call gave. */
    size_t count;
    /* How many entries permissive mode skipped. Strict mode refuses these, or of a library its
       imports. A record whose name can't be read does not count. If the table is skipped as a
       whole, the call that begins the walk counts 1. */
    size_t skipped;
    /* How many entries lead nowhere. Neither mode gives a record for them, nor a fault. */
    size_t unmapped;
    /* Whether to stop: nothing is left, or the call returned a fault. If it is false, there is no
       more room, or no steps are left, or what comes next is refused. */
    bool is_done;
    uint8_t reserved[7];
};

/* ---- Options ------------------------------------------------------------------------------- */

/* How RVAs are mapped to file offsets, and where the raw data of a section begins. The first three
   agree on sections whose raw pointer is a multiple of 512, as the specification asks for.

   With the first two, what is read at an RVA ends where its section does in memory: zeros follow
   the raw data, up to the end of the section's last page. Import tables alone are read on in the
   file; so is all if the file alignment is below 512, because Windows then maps the file as it
   is. */
enum goblin_pe_mapping {
    /* As the Windows loader maps: the raw pointer is rounded down to 512 when the file alignment is
       at least 512, and the headers are mapped at RVA 0. The default: packers hide imports from
       readers that map otherwise. */
    GOBLIN_PE_MAPPING_AS_LOADED = 0,
    /* The same, without the headers. pefile maps so, but it also sorts the sections by their
       addresses, and ends each where the next begins. */
    GOBLIN_PE_MAPPING_BY_FILE_ALIGNMENT = 1,
    /* As goblin maps: the raw pointer is taken as stored; no headers. A section may reach up to 511
       bytes too far if its raw pointer is not a multiple of 512. */
    GOBLIN_PE_MAPPING_AS_STORED = 2,
    /* An RVA is a file offset: the bytes are a dump of the image in memory. */
    GOBLIN_PE_MAPPING_IDENTITY = 3
};

/* Lifts the limit of names, or of steps. */
#define GOBLIN_PE_NO_LIMIT SIZE_MAX
/* The limit of names if you set none, in bytes. */
#define GOBLIN_PE_LONGEST_NAME 4096

/* How an image is read. Zeros are the defaults. */
struct goblin_pe_options {
    /* A `goblin_pe_mapping`. If it is another number, calls that read a header or find a table by
       its address return `GOBLIN_PE_STATUS_OPTIONS`, and look-ups find nothing. The other walks
       look at no address, and do not test it. */
    uint32_t mapping;
    /* Whether damaged parts are skipped, and not refused. Walks count what they skip. Neither mode
       reads a file that has one of these, but with `faults` the rest is filled: a header or a
       section table that is cut off, an optional header of an unknown magic, more than sixteen data
       directories, a section name of a slash and no number, or a marker Rich with no marker DanS
       before it or with a broken word between them. */
    bool is_permissive;
    /* Zeros, because later versions may have options here. Other bytes count as an unknown
       mapping. */
    uint8_t reserved[3];
    /* How many bytes of a name are read at most; 0 means 4,096. GOBLIN_PE_NO_LIMIT, and any other
       number above 2^32 - 1, means no limit. A longer name is cut between two characters, and the
       row says so. Different names can be cut to the same bytes, so don't compare or hash a name
       that is cut. What follows the cut, except for the next character, is not tested: it may not
       be UTF-8. */
    size_t longest_name;
};

/* ---- Faults -------------------------------------------------------------------------------- */

/* What kind of refusal it is. A later version may add numbers, here and to the causes, but changes
   none. */
enum goblin_pe_status {
    /* Nothing is refused. */
    GOBLIN_PE_STATUS_OK = 0,
    /* The bytes are not what the format says: the cause is a `goblin_pe_cause`. */
    GOBLIN_PE_STATUS_MALFORMED = 1,
    /* An optional header has the magic number `first`, neither of the two that are read. */
    GOBLIN_PE_STATUS_BAD_MAGIC = 2,
    /* The file is too short for `first` entries: the cause is a `goblin_pe_counted`. */
    GOBLIN_PE_STATUS_BUFFER_TOO_SHORT = 3,
    /* A read at an offset was refused: the cause is a `goblin_pe_read_fault`. */
    GOBLIN_PE_STATUS_READ = 4,
    /* The options have an unknown mapping, `first`, or reserved bytes that are not zero. */
    GOBLIN_PE_STATUS_OPTIONS = 6,
    /* There are no steps left, and the table may have more rows. */
    GOBLIN_PE_STATUS_STEPS = 7,
    /* The call is for images, and the record is of an object or a TE file: its kind is `first`. */
    GOBLIN_PE_STATUS_KIND = 8
};

/* What is wrong with a file. `first` and `second` are the two numbers of the cause; offsets are
   file offsets in bytes. No call returns MESSAGE, DIRECTORY_INDEX, SYMBOL_NAME or SLOT_COUNT, which
   are errors in Rattle alone. */
enum goblin_pe_cause {
    /* A message of a caller's own. */
    GOBLIN_PE_CAUSE_MESSAGE = 1,
    /* The file is too short for the DOS signature. */
    GOBLIN_PE_CAUSE_NO_DOS_SIGNATURE = 2,
    /* The file begins with `first` in place of the DOS signature. */
    GOBLIN_PE_CAUSE_DOS_MAGIC = 3,
    /* The file is too short for the DOS header. */
    GOBLIN_PE_CAUSE_NO_PE_POINTER = 4,
    /* The file has no four bytes at offset `first`, where the PE signature is placed. */
    GOBLIN_PE_CAUSE_NO_PE_SIGNATURE = 5,
    /* The four bytes at the place of the PE signature are `first`. */
    GOBLIN_PE_CAUSE_PE_MAGIC = 6,
    /* The PE signature is placed at offset `first`, before 0x40, where the DOS stub begins. */
    GOBLIN_PE_CAUSE_STUB_BEFORE_START = 7,
    /* The DOS stub would pass the file's `first` bytes: it would end at offset `second`. */
    GOBLIN_PE_CAUSE_STUB_PAST_END = 8,
    /* The DOS stub has the marker `Rich` with a key, but under that key no marker `DanS`. */
    GOBLIN_PE_CAUSE_NO_DANS = 9,
    /* The data of the Rich header would begin at `first` and end at `second`, not after it, in
       bytes counted from offset 0x40. */
    GOBLIN_PE_CAUSE_RICH_BOUNDS = 10,
    /* The header of a Terse Executable says that `first` bytes were stripped, fewer than its own
       40. */
    GOBLIN_PE_CAUSE_STRIPPED_SIZE = 11,
    /* The length of a string table is below 4, the size of the field that says it. */
    GOBLIN_PE_CAUSE_COFF_LENGTH = 12,
    /* No kind of data directory has the index `first`. */
    GOBLIN_PE_CAUSE_DIRECTORY_INDEX = 13,
    /* There are `first` data directories, more than sixteen. */
    GOBLIN_PE_CAUSE_DIRECTORY_COUNT = 14,
    /* The bytes after the slash of a section's indirect name are not UTF-8. */
    GOBLIN_PE_CAUSE_NAME_TEXT = 15,
    /* A section's indirect name has a character that is no digit of base 64. */
    GOBLIN_PE_CAUSE_NAME_BASE64 = 16,
    /* A section's name has no decimal number after its slash. */
    GOBLIN_PE_CAUSE_NAME_DECIMAL = 17,
    /* No section name can hold `first`, an offset in a string table. */
    GOBLIN_PE_CAUSE_NAME_OFFSET = 18,
    /* A symbol has no name: there is no text at offset `first` of the string table, or the stored
       offset is `first`, below 4. */
    GOBLIN_PE_CAUSE_SYMBOL_NAME = 19,
    /* The texts of a string table, `second` bytes at offset `first`, would pass the file. */
    GOBLIN_PE_CAUSE_STRING_TABLE = 20,
    /* A Windows field of 64 bits has a value that does not fit 32. */
    GOBLIN_PE_CAUSE_FIELD_TOO_WIDE = 21,
    /* The address `first` has no file offset. */
    GOBLIN_PE_CAUSE_UNMAPPED = 22,
    /* There is no text at offset `first`, to which the address of a name is mapped. */
    GOBLIN_PE_CAUSE_NAME_READ = 23,
    /* The two bytes of a hint would pass the file at offset `first`. */
    GOBLIN_PE_CAUSE_HINT_ENTRY = 24,
    /* A lookup table of imports meets the file's end at offset `first`, before its last entry. */
    GOBLIN_PE_CAUSE_LOOKUP_END = 25,
    /* An import directory meets the file's end at offset `first`, before its last record. */
    GOBLIN_PE_CAUSE_IMPORT_RECORD_END = 26,
    /* An export directory's record would pass the file at offset `first`. */
    GOBLIN_PE_CAUSE_EXPORT_TABLE = 27,
    /* A forwarder's text has no dot, or nothing after its first dot. */
    GOBLIN_PE_CAUSE_FORWARDER = 28,
    /* A forwarder's text has no decimal number below 2^32 after its `#`. */
    GOBLIN_PE_CAUSE_FORWARDER_ORDINAL = 29,
    /* A base relocation directory at offset `first`, of `second` bytes, would pass the file, or
       begins at or past its end. */
    GOBLIN_PE_CAUSE_RELOC_RANGE = 30,
    /* A base relocation block says that it has `first` bytes, below the 8 of its own head. */
    GOBLIN_PE_CAUSE_BLOCK_SIZE = 31,
    /* The words of a base relocation block, `second` bytes at `first` from the directory's front,
       would pass the directory, or begin at its end. */
    GOBLIN_PE_CAUSE_BLOCK_RANGE = 32,
    /* A sum or a product of offsets passes 64 bits. */
    GOBLIN_PE_CAUSE_OVERFLOW = 33,
    /* A library of imports made by hand has `first` entries, but `second` slots. */
    GOBLIN_PE_CAUSE_SLOT_COUNT = 34
};

/* What a file is too short for. */
enum goblin_pe_counted {
    /* Something else, which the text calls entries. */
    GOBLIN_PE_COUNTED_OTHER = 0,
    /* Section records. */
    GOBLIN_PE_COUNTED_SECTIONS = 1,
    /* Entries of the export name pointer table. */
    GOBLIN_PE_COUNTED_NAME_POINTERS = 2,
    /* Entries of the export address table. */
    GOBLIN_PE_COUNTED_ADDRESS_TABLE_ENTRIES = 3
};

/* Why a read was refused. */
enum goblin_pe_read_fault {
    /* It begins at or past the end. */
    GOBLIN_PE_READ_FAULT_BAD_OFFSET = 1,
    /* There are not enough bytes from there on. */
    GOBLIN_PE_READ_FAULT_TOO_BIG = 2,
    /* The bytes are not UTF-8. */
    GOBLIN_PE_READ_FAULT_BAD_INPUT = 3
};

/* Why a call gave no value, in numbers; the status 0 is that it gave one. */
struct goblin_pe_fault {
    /* What kind of refusal it is, by the numbers of `goblin_pe_status`; 0 where nothing is
       refused. */
    uint32_t status;
    /* By the status a `goblin_pe_cause`, a `goblin_pe_counted` or a `goblin_pe_read_fault`; else
       0. */
    uint32_t cause;
    /* The number that the cause, or else the status, calls `first`; else 0. */
    uint64_t first;
    /* The number that the cause calls `second`; else 0. */
    uint64_t second;
};

/* The size of a buffer that holds any fault's text. */
#define GOBLIN_PE_FAULT_ROOM 256

/* Writes the text of a fault, with a NUL, and returns `text`. The text of status 0 is empty. */
const char *goblin_pe_fault_string(
    const struct goblin_pe_fault *fault, char text[GOBLIN_PE_FAULT_ROOM]);

/* ---- The image ----------------------------------------------------------------------------- */

/* What a file is, by its first bytes. This does not say whether it can be read. No call reads
   archives, import objects and big objects. */
enum goblin_pe_kind {
    /* Another file. */
    GOBLIN_PE_KIND_UNKNOWN = 0,
    /* An image, which begins with `MZ`. */
    GOBLIN_PE_KIND_IMAGE = 1,
    /* An object, which begins with a machine, a `COFF_MACHINE_*` other than
       `COFF_MACHINE_UNKNOWN`. */
    GOBLIN_PE_KIND_OBJECT = 2,
    /* A Terse Executable, which begins with `VZ`. */
    GOBLIN_PE_KIND_TE = 3,
    /* An archive of objects, such as a static library or an import library, which begins with the
       eight bytes `!<arch>` and a line feed. */
    GOBLIN_PE_KIND_ARCHIVE = 4,
    /* An import object, a member of an import library that says what a name is imported by. It
       begins with 0, 0xFFFF and the version 0, of two bytes each. */
    GOBLIN_PE_KIND_IMPORT_OBJECT = 5,
    /* A big object, which can have more than 65,279 sections. It begins with 0, 0xFFFF and a
       version from 2 on, of two bytes each, and has the identifier of such objects at 12. */
    GOBLIN_PE_KIND_BIG_OBJECT = 6
};

/* The header of a DOS program, which a PE file begins with.

   Source: PE Format, "MS-DOS Stub (Image Only)"; the fields are those of a DOS executable. Numbers
   are as stored, little-endian in a file; the record has 64 bytes, and `at` gives a field's file
   offset. A loader of PE files looks only at the signature and the pointer. */
struct goblin_pe_dos_header {
    /* `MZ`, at 0x00. */
    uint16_t signature;
    /* How many bytes of the last page are used, at 0x02. */
    uint16_t bytes_on_last_page;
    /* How many pages of 512 bytes the program has, at 0x04. */
    uint16_t pages_in_file;
    /* How many relocations there are, at 0x06. */
    uint16_t relocations;
    /* The size of the header in paragraphs of 16 bytes, at 0x08. */
    uint16_t size_of_header_in_paragraphs;
    /* The least memory that the program needs after its own, in paragraphs, at 0x0A. */
    uint16_t minimum_extra_paragraphs_needed;
    /* The most memory that the program asks for after its own, in paragraphs, at 0x0C. */
    uint16_t maximum_extra_paragraphs_needed;
    /* The stack segment at the start, relative to the program, at 0x0E. */
    uint16_t initial_relative_ss;
    /* The stack pointer at the start, at 0x10. */
    uint16_t initial_sp;
    /* The checksum, at 0x12. */
    uint16_t checksum;
    /* The instruction pointer at the start, at 0x14. */
    uint16_t initial_ip;
    /* The code segment at the start, relative to the program, at 0x16. */
    uint16_t initial_relative_cs;
    /* The file offset of the relocations, at 0x18. */
    uint16_t file_address_of_relocation_table;
    /* The overlay's number, at 0x1A. */
    uint16_t overlay_number;
    /* Reserved, at 0x1C. */
    uint16_t reserved[4];
    /* The identifier of the maker (OEM), at 0x24. */
    uint16_t oem_id;
    /* The information of the maker (OEM), at 0x26. */
    uint16_t oem_info;
    /* Reserved, at 0x28. */
    uint16_t reserved2[10];
    /* The file offset of the PE signature, at 0x3C. The signature may lie anywhere in the file,
       even inside the DOS header, and need not be aligned. Strict mode reads a whole header only if
       this offset is at least 0x40. */
    uint32_t pe_pointer;
};

/* The header of a COFF file, or of the COFF part of an image.

   Source: PE Format, "COFF File Header (Object and Image)". Numbers are as stored; the record has
   20 bytes, and `at` gives a field's offset in it. An object begins with it; in an image it follows
   the PE signature. */
struct goblin_pe_coff_header {
    /* The machine that the file is for, a `COFF_MACHINE_*`, at 0. No reader looks at it, because
       the magic of the optional header gives the width of an image. */
    uint16_t machine;
    /* How many section headers follow the optional header, at 2. The specification says that the
       Windows loader accepts at most 96; newer versions of Windows accept more. */
    uint16_t number_of_sections;
    /* When the file was made, in seconds since the start of 1970, at 4. Some makers store something
       else there, such as a hash. */
    uint32_t time_date_stamp;
    /* The file offset of the symbol table, at 8; 0 if there is none, as in most images. The string
       table follows the symbol table. */
    uint32_t pointer_to_symbol_table;
    /* How many records the symbol table has, at 12. Auxiliary records are counted. */
    uint32_t number_of_symbol_table;
    /* The size of the optional header, in bytes, at 16; 0 if there is none, as in an object. This
       field alone says where the section table begins. It says nothing about the layout of the
       optional header. */
    uint16_t size_of_optional_header;
    /* The characteristics of the file, as bits `IMAGE_FILE_*` (PE Format, "Characteristics"), at
       18. */
    uint16_t characteristics;
};

/* The standard fields of an optional header of either width.

   Source: PE Format, "Optional Header Standard Fields (Image Only)". `at` gives a field's offset
   from the front of the optional header, in both widths. */
struct goblin_pe_standard_fields {
    /* The magic of the optional header, at 0: `MAGIC_32` or `MAGIC_64`. It alone gives the width of
       the header and of the entries of import tables. */
    uint16_t magic;
    /* The linker's major version, at 2. */
    uint8_t major_linker_version;
    /* The linker's minor version, at 3. */
    uint8_t minor_linker_version;
    /* The size of the code, in bytes, at 4: the sum of all code sections. */
    uint64_t size_of_code;
    /* The size of the initialized data, in bytes, at 8: the sum of all such sections. */
    uint64_t size_of_initialized_data;
    /* The size of the uninitialized data, in bytes, at 12: the sum of all such sections. */
    uint64_t size_of_uninitialized_data;
    /* The RVA of the entry point, at 16; 0 if there is none, as in some libraries. The loader
       starts there, in whatever section it lies. */
    uint32_t address_of_entry_point;
    /* The RVA at which the code begins, at 20. */
    uint64_t base_of_code;
    /* The RVA at which the data begins, at 24, in an image for 32 bits; 0 in one for 64 bits. */
    uint32_t base_of_data;
};

/* The Windows fields of an optional header for 64 bits.

   Source: PE Format, "Optional Header Windows-Specific Fields (Image Only)". Numbers are as stored;
   the record has 88 bytes, and `at` gives a field's offset in it. The record begins at 24 in the
   optional header. */
struct goblin_pe_windows_fields {
    /* The preferred address of the image in memory, a multiple of 64 KiB, at 0. If the loader uses
       another address, it applies the base relocations. */
    uint64_t image_base;
    /* The alignment of sections in memory, in bytes, at 8: at least the file alignment, mostly a
       page. */
    uint32_t section_alignment;
    /* The alignment of the raw data of sections in the file, in bytes, at 12: a power of two,
       mostly 512. The mapping of addresses to file offsets depends on it. */
    uint32_t file_alignment;
    /* The major version of the operating system that the image needs, at 16. */
    uint16_t major_operating_system_version;
    /* The minor version of the operating system that the image needs, at 18. */
    uint16_t minor_operating_system_version;
    /* The image's major version, at 20. */
    uint16_t major_image_version;
    /* The image's minor version, at 22. */
    uint16_t minor_image_version;
    /* The major version of the subsystem that the image needs, at 24. */
    uint16_t major_subsystem_version;
    /* The minor version of the subsystem that the image needs, at 26. */
    uint16_t minor_subsystem_version;
    /* Reserved, 0, at 28. */
    uint32_t win32_version_value;
    /* The size of the image in memory with all headers, in bytes, at 32. It is a multiple of the
       section alignment, and what the loader reserves. */
    uint32_t size_of_image;
    /* The size of all headers together, in bytes, rounded up to the file alignment, at 36. The
       loader maps this much of the front of the file at the image's base, in whole file blocks, but
       no more than whole pages of 4,096 bytes. */
    uint32_t size_of_headers;
    /* The checksum of the image, at 40. The loader tests it for drivers and for images that are
       loaded at boot; no reader tests it. */
    uint32_t check_sum;
    /* The subsystem that runs the image, an `IMAGE_SUBSYSTEM_*` (PE Format, "Windows Subsystem"),
       at 44. */
    uint16_t subsystem;
    /* What the image allows and requires of the loader, as bits `IMAGE_DLLCHARACTERISTICS_*` (PE
       Format, "DLL Characteristics"), at 46: whether the loader may move the image, and which
       guards it turns on. */
    uint16_t dll_characteristics;
    /* How much of the stack to reserve, in bytes, at 48. */
    uint64_t size_of_stack_reserve;
    /* How much of the stack to commit, in bytes, at 56; the rest follows page by page. */
    uint64_t size_of_stack_commit;
    /* How much of the heap to reserve, in bytes, at 64. */
    uint64_t size_of_heap_reserve;
    /* How much of the heap to commit, in bytes, at 72; the rest follows page by page. */
    uint64_t size_of_heap_commit;
    /* Reserved, 0, at 80. */
    uint32_t loader_flags;
    /* How many data directories follow, at 84. A reader of a whole header refuses more than
       sixteen. Data directories past this number do not exist, whatever bytes follow. */
    uint32_t number_of_rva_and_sizes;
};

/* The optional header without its data directories; zeros where there is none. */
struct goblin_pe_optional_header {
    /* The standard fields, whose magic is 0 where there is no optional header. */
    struct goblin_pe_standard_fields standard_fields;
    /* The Windows fields; of an image for 32 bits as they are of one for 64 bits. */
    struct goblin_pe_windows_fields windows_fields;
};

/* A data directory: where a table of an image lies.

   Source: PE Format, "Optional Header Data Directories (Image Only)". Numbers are as stored. The
   record has 8 bytes, and `at` gives the offset of a field in it. */
struct goblin_pe_data_directory {
    /* The table's address, relative to the image's base, at 0. For the certificates it is a file
       offset, because they are not loaded. */
    uint32_t virtual_address;
    /* The table's size in bytes, at 4. In an export directory it says which addresses are
       forwarders, and in a base relocation directory where the blocks end. An import directory ends
       at its own last record, and the type of a value at an address says where the value ends,
       whatever the size. */
    uint32_t size;
};

/* The kind of table that a data directory locates. The kinds are in the order of their indexes, 0
   to 14.

   Source: PE Format, "Optional Header Data Directories (Image Only)". The sixteenth entry is
   reserved and has no kind. */
enum goblin_pe_directory_type {
    /* The exports (`.edata`), at index 0: what other images may import from this one. */
    GOBLIN_PE_DIRECTORY_TYPE_EXPORT_TABLE = 0,
    /* The import directory (`.idata`), at index 1: what this image imports, and from which
       libraries. */
    GOBLIN_PE_DIRECTORY_TYPE_IMPORT_TABLE = 1,
    /* The resources (`.rsrc`), at index 2. */
    GOBLIN_PE_DIRECTORY_TYPE_RESOURCE_TABLE = 2,
    /* The exception table (`.pdata`), at index 3: how exceptions are handled. */
    GOBLIN_PE_DIRECTORY_TYPE_EXCEPTION_TABLE = 3,
    /* The attribute certificates, at index 4. They are not part of the image in memory, so the
       address is a file offset. */
    GOBLIN_PE_DIRECTORY_TYPE_CERTIFICATE_TABLE = 4,
    /* The base relocations (`.reloc`), at index 5: what the loader changes if it can't load the
       image at its preferred address. */
    GOBLIN_PE_DIRECTORY_TYPE_BASE_RELOCATION_TABLE = 5,
    /* The debug data (`.debug`), at index 6. */
    GOBLIN_PE_DIRECTORY_TYPE_DEBUG_TABLE = 6,
    /* Reserved, at index 7. */
    GOBLIN_PE_DIRECTORY_TYPE_ARCHITECTURE = 7,
    /* The address of the value for the global pointer register, at index 8. The size must be 0. */
    GOBLIN_PE_DIRECTORY_TYPE_GLOBAL_PTR = 8,
    /* The thread local storage (`.tls`), at index 9. Its callbacks run before the entry point. */
    GOBLIN_PE_DIRECTORY_TYPE_TLS_TABLE = 9,
    /* The load configuration, at index 10. */
    GOBLIN_PE_DIRECTORY_TYPE_LOAD_CONFIG_TABLE = 10,
    /* The bound imports, at index 11. */
    GOBLIN_PE_DIRECTORY_TYPE_BOUND_IMPORT_TABLE = 11,
    /* The import address table, at index 12, which the loader fills. Readers find it through the
       import directory. */
    GOBLIN_PE_DIRECTORY_TYPE_IMPORT_ADDRESS_TABLE = 12,
    /* The delayed imports, at index 13: libraries that are loaded at the first call. */
    GOBLIN_PE_DIRECTORY_TYPE_DELAY_IMPORT_DESCRIPTOR = 13,
    /* The header of the common language runtime, at index 14: an image with it has managed code. */
    GOBLIN_PE_DIRECTORY_TYPE_CLR_RUNTIME_HEADER = 14
};

/* Where the Rich header is; zeros if there is none. Its entries lie between the padding and the
   marker Rich. */
struct goblin_pe_rich_header {
    /* The key, under which each word is stored: as its exclusive or with the key. */
    uint32_t key;
    /* The offset of the marker DanS. */
    uint32_t start_offset;
    /* The offset of the marker Rich. */
    uint32_t end_offset;
    /* How many bytes lie between DanS and the entries. */
    uint32_t padding_size;
    /* Whether there is a Rich header. */
    bool is_present;
    /* Zeros. */
    uint8_t reserved[3];
};

/* An image, an object or a TE file. What an object or a TE file does not have is zeros; of a TE
   file `coff_header` has only the machine and the number of sections. */
struct goblin_pe_image {
    /* The file's bytes. */
    struct goblin_pe_slice bytes;
    /* How it is read. You may change this in a copy, but `is_permissive` says nothing of the
       header, which was read already. */
    struct goblin_pe_options options;
    /* The file offset of the section table. */
    size_t section_table;
    /* How many section headers the walks and the mapping use. After a fault it may be less than
       `coff_header.number_of_sections`: the file ends before the others. */
    size_t section_count;
    /* The DOS header. */
    struct goblin_pe_dos_header dos_header;
    /* The COFF header. */
    struct goblin_pe_coff_header coff_header;
    /* Whether there is an optional header; after a fault, whether all its fields before the
       directories were read. If not, no address has an offset, except with
       `GOBLIN_PE_MAPPING_IDENTITY`. */
    bool has_optional_header;
    /* Whether permissive mode replaced an unreadable stub with a built-in one of `dos_stub_size`
       bytes, which a written header has. */
    bool is_dos_stub_replaced;
    /* How many bytes a TE file lost at its front, beyond the size of its TE header; else 0. */
    uint16_t moved_by;
    /* The optional header. */
    struct goblin_pe_optional_header optional_header;
    /* The data directories, by their index; zeros where the file has fewer. */
    struct goblin_pe_data_directory directories[16];
    /* How many bytes the DOS stub has; it begins at offset 0x40. */
    size_t dos_stub_size;
    /* The Rich header. */
    struct goblin_pe_rich_header rich_header;
    /* Which call filled the record: a `goblin_pe_kind`. */
    uint32_t kind;
};

/* Which parts of a header can't be read. A part that is there, or that the file does not have, has
   the status 0. If only another part tells where a part is, it has the fault of that part. */
struct goblin_pe_header_faults {
    /* With the PE signature. */
    struct goblin_pe_fault dos_header;
    /* The DOS stub. */
    struct goblin_pe_fault dos_stub;
    /* The Rich header. */
    struct goblin_pe_fault rich_header;
    /* The COFF header. */
    struct goblin_pe_fault coff_header;
    /* The standard fields of the optional header. */
    struct goblin_pe_fault standard_fields;
    /* The Windows fields of the optional header. */
    struct goblin_pe_fault windows_fields;
    /* The data directories. If there are more than sixteen, the first sixteen are still read. */
    struct goblin_pe_fault directories;
    /* The section table. The complete section headers are read. */
    struct goblin_pe_fault section_table;
    /* The section names. A section with a bad name keeps its eight bytes. */
    struct goblin_pe_fault section_names;
};

/* Returns what a file is, as a `goblin_pe_kind`. Whether it can be read is another question. */
uint32_t goblin_pe_kind_of(const uint8_t *bytes, size_t length);

/* Reads the headers and the section table of an image. The other tables are not looked at.

   If `faults` is null, and the call returns a fault, `image` is not filled. If `faults` is not
   null, both are filled in any case: `image` with zeros for the parts that can't be read, and
   `faults` with the reasons. The call returns the same fault as without. All other calls work on
   what was read. It is an image at all if `faults.dos_header` and `faults.coff_header` have status
   0, and there is an optional header. Permissive mode replaces a damaged DOS stub: only `faults`
   says why. With unknown options no part is read, and each has the fault OPTIONS.

   Faults: a damaged header, as the mode says; OPTIONS. */
GOBLIN_PE_MUST_USE struct goblin_pe_fault goblin_pe_read_image(
    const uint8_t *bytes, size_t length, const struct goblin_pe_options *options,
    struct goblin_pe_image *image, struct goblin_pe_header_faults *faults);

/* Reads the header of a COFF object. Walk its sections, symbols and relocations. It has no
   directories, and maps no address. The machine is not tested: call `goblin_pe_kind_of` first.

   Faults: a file that is too short for its section headers; a bad section name, as the mode says;
   OPTIONS. */
GOBLIN_PE_MUST_USE struct goblin_pe_fault goblin_pe_read_object(
    const uint8_t *bytes, size_t length, const struct goblin_pe_options *options,
    struct goblin_pe_image *image);

/* The header of a Terse Executable.

   Source: UEFI Platform Initialization Specification, volume 1, "TE Image". Numbers are as stored,
   except for four that are adjusted when the header is parsed; the record has 40 bytes, and `at`
   gives a field's offset in it. This header replaces the headers of a PE file, and keeps what a
   firmware loader needs of them. The addresses that it stores still count the bytes that were
   stripped. */
struct goblin_pe_te_header {
    /* `VZ`, at 0. No reader tests it. */
    uint16_t signature;
    /* The machine that the file is for, a `COFF_MACHINE_*`, at 2. */
    uint16_t machine;
    /* How many section headers follow, at 4. */
    uint8_t number_of_sections;
    /* The subsystem that runs the image, at 5. */
    uint8_t subsystem;
    /* How many bytes were stripped from the front of the PE file, at 6. This header replaces them,
       so everything after it moved towards the front by this number minus 40. */
    uint16_t stripped_size;
    /* The RVA of the entry point, at 8; adjusted in a header that was parsed. */
    uint32_t entry_point;
    /* The RVA at which the code begins, at 12; adjusted in a header that was parsed. */
    uint32_t base_of_code;
    /* The preferred address of the image in memory, at 16, as stored. */
    uint64_t image_base;
    /* The data directory of the base relocations, at 24. Its RVA is adjusted in a header that was
       parsed. */
    struct goblin_pe_data_directory reloc_dir;
    /* The data directory of the debug data, at 32. Its RVA is adjusted in a header that was
       parsed. */
    struct goblin_pe_data_directory debug_dir;
};

/* Reads the header of a Terse Executable. Walk its sections: their addresses and file pointers are
   moved, as those of the header. It has no data directories in `image`, and maps no address.

   Faults: a file that is too short for the header or its section headers; a stripped size below 40;
   a section name that strict mode refuses, in both modes; OPTIONS. */
GOBLIN_PE_MUST_USE struct goblin_pe_fault goblin_pe_read_te(
    const uint8_t *bytes, size_t length, const struct goblin_pe_options *options,
    struct goblin_pe_image *image, struct goblin_pe_te_header *header);

/* ---- Sections ------------------------------------------------------------------------------ */

/* Where a walk over sections is: the index of the next one. */
struct goblin_pe_section_cursor {
    /* The index in the section table. */
    size_t index;
};

/* Where a walk over the relocations of one section of an object is; a section row holds the
   beginning. */
struct goblin_pe_coff_relocation_cursor {
    /* The index of the next relocation. */
    size_t index;
    /* The file offset of the first record. */
    uint32_t offset;
    /* How many relocations the section header counts. */
    uint16_t count;
    /* Whether the first one is no relocation: it holds their number, itself counted, because there
       are more than 65,534 (`IMAGE_SCN_LNK_NRELOC_OVFL`). The cursor of the section's row is then
       at index 1, after it. */
    bool is_extended;
    /* Zero. */
    uint8_t reserved;
};

/* A section header. The numbers are as stored, but in a TE file, where they are moved.

   Source: PE Format, "Section Table (Section Headers)". */
struct goblin_pe_section {
    /* The name: from the string table if `stored_name` is a slash and a number, else the bytes of
       `stored_name` before the first NUL. It need not be UTF-8. */
    struct goblin_pe_slice name;
    /* The index in the section table; a symbol's `section_number` is one more. */
    size_t index;
    /* Where the walk over its relocations begins. */
    struct goblin_pe_coff_relocation_cursor relocations;
    /* The eight bytes of the name, padded with NULs. */
    uint8_t stored_name[8];
    /* The size in memory. If it is above the raw size, zeros follow the raw data. */
    uint32_t virtual_size;
    /* An RVA. */
    uint32_t virtual_address;
    /* The size of the raw data in the file. */
    uint32_t size_of_raw_data;
    /* The file offset of the raw data, as stored. */
    uint32_t pointer_to_raw_data;
    /* The file offset of the relocations, 0 if there are none. */
    uint32_t pointer_to_relocations;
    /* The file offset of the line numbers, 0 if there are none. */
    uint32_t pointer_to_linenumbers;
    /* How many relocations the section header counts. */
    uint16_t number_of_relocations;
    /* How many line numbers there are. */
    uint16_t number_of_linenumbers;
    /* Bits `IMAGE_SCN_*`. */
    uint32_t characteristics;
    /* Whether the name is from the string table. */
    bool has_long_name;
    /* Whether the name is cut. */
    bool is_name_cut;
    /* Zeros. */
    uint8_t reserved[6];
};

/* Gives the next section headers. Never faults on a name: a read of the image has tested them, and
   after a fault a bad one is its eight bytes.

   Faults: READ if the file has no room for `image.section_count` headers. */
GOBLIN_PE_MUST_USE struct goblin_pe_fault goblin_pe_next_sections(
    const struct goblin_pe_image *image, struct goblin_pe_section_cursor *cursor,
    struct goblin_pe_section *sections, size_t room, struct goblin_pe_batch *batch);

/* Where memory of an image comes from. */
enum goblin_pe_region {
    /* The loader maps nothing there. */
    GOBLIN_PE_REGION_UNMAPPED = 0,
    /* The headers. */
    GOBLIN_PE_REGION_HEADERS = 1,
    /* The raw data of a section, in whole file blocks. With `GOBLIN_PE_MAPPING_IDENTITY`, the
       file. */
    GOBLIN_PE_REGION_RAW_DATA = 2,
    /* The zeros that follow the raw data of a section. */
    GOBLIN_PE_REGION_ZEROS = 3
};

/* The bytes that a loader puts somewhere: `bytes`, then `zeros` zeros. `missing` more were asked
   for, and are unknown: they lie past the section's memory, or the file ends before them. */
struct goblin_pe_memory {
    /* The bytes of the file. */
    struct goblin_pe_slice bytes;
    /* How many zeros follow them. */
    size_t zeros;
    /* How many bytes are missing after these. */
    size_t missing;
    /* The index of the section; the image's `section_count` outside of sections. */
    size_t section_index;
    /* What is at the first byte: a `goblin_pe_region`. */
    uint32_t region;
    /* Zero. */
    uint32_t reserved;
};

/* Gives the contents of a section: its raw data, and the zeros that the loader adds up to the
   virtual size. Raw data that is longer than the virtual size is given whole. Uninitialized data
   without a raw pointer (an object's .bss) has no bytes, and is zeros. If the file ends too early,
   `missing` says how many bytes it lacks, and no zeros follow.

   The raw data begins as `image->options.mapping` says, with `GOBLIN_PE_MAPPING_IDENTITY` at the
   stored raw pointer. In a dump that is another place: use `goblin_pe_memory_at`. `section` may be
   made by hand. With an unknown mapping all is missing. Fills `*memory` in any case.

   Returns whether nothing is missing. */
bool goblin_pe_section_data(
    const struct goblin_pe_image *image, const struct goblin_pe_section *section,
    struct goblin_pe_memory *memory);

/* Writes the 40 bytes of a section header. Writes `stored_name`, and not `name`. Sets `written` to
   40.

   Faults: READ if room is below 40, and nothing is written. */
GOBLIN_PE_MUST_USE struct goblin_pe_fault goblin_pe_write_section(
    const struct goblin_pe_section *section, uint8_t *out, size_t room, size_t *written);

/* ---- Addresses ----------------------------------------------------------------------------- */

/* The calls that look up an RVA or a file offset of an image. They look the sections up in the
   file, and take no memory.

   They find nothing in an object or a TE file, at an RVA from 2^32 on, or if the options are
   unknown. With `GOBLIN_PE_MAPPING_IDENTITY` any other RVA is its own offset, whatever the header
   says. With another mapping they also find nothing if the file has no room for the section
   headers, or if the file alignment is no power of two. */

/* Sets `*offset` to the file offset of an RVA, as `image->options.mapping` says. If several
   sections hold it, the first one counts. The offset may lie past the end of the file.

   Returns whether the RVA has an offset. If sections map RVAs, it has none outside of them and of
   mapped headers, and in the zeros after raw data. */
bool goblin_pe_find_offset(const struct goblin_pe_image *image, size_t rva, size_t *offset);

/* Sets `*rva` to an RVA that `goblin_pe_find_offset` maps to this offset: that in the first section
   whose raw data holds the offset, or else in the headers.

   Returns whether there is one. There is none if an earlier section hides it at that RVA; later
   sections are not tried. */
bool goblin_pe_find_rva(const struct goblin_pe_image *image, size_t offset, size_t *rva);

/* Tells what a loader puts at an RVA: the region and section, and the first `size` bytes as far as
   they are known. Fills `*memory` in any case. With `size` 0 it only looks up the region and the
   section; with `SIZE_MAX` it gives all bytes up to the end of the section's memory, which has
   whole pages as a loader maps it.

       if (goblin_pe_memory_at(&image, rva, 16, &memory) && memory.bytes.length == 16)
           use(memory.bytes.bytes);

   A section whose raw data holds the RVA comes first, then the mapped headers, then a section whose
   memory reaches it. As a loader maps, memory goes on with zeros up to the end of a page; as goblin
   maps, up to the virtual size. So if `goblin_pe_find_offset` finds an offset inside the file, the
   first byte is the byte there, except in uninitialized data without a raw pointer, which is zeros.

   Returns whether nothing is missing; with `size` 0 so always true. */
bool goblin_pe_memory_at(
    const struct goblin_pe_image *image, size_t rva, size_t size, struct goblin_pe_memory *memory);

/* ---- Rich header --------------------------------------------------------------------------- */

/* An entry of a Rich header: a tool, and how often it was used.

   Source: not documented by Microsoft; the layout is what linkers write. The record has 8 bytes,
   and `at` gives a field's offset in it. In a file each of its two words is stored under the key of
   the header: as its exclusive or with the key. */
struct goblin_pe_rich_entry {
    /* The build number of the tool, at 0. */
    uint16_t build;
    /* The identifier of the tool, at 2. */
    uint16_t product;
    /* How many files the tool made, at 4. */
    uint32_t use_count;
};

/* Where a walk over the entries of the Rich header is. */
struct goblin_pe_rich_cursor {
    /* The index of the next entry. */
    size_t index;
};

/* Gives the next entries of the Rich header.

   Faults: READ if the entries run past the end of the file, or the last bytes are no whole
   entry. */
GOBLIN_PE_MUST_USE struct goblin_pe_fault goblin_pe_next_rich_entries(
    const struct goblin_pe_image *image, struct goblin_pe_rich_cursor *cursor,
    struct goblin_pe_rich_entry *entries, size_t room, struct goblin_pe_batch *batch);

/* ---- Imports ------------------------------------------------------------------------------- */

/* Where a walk over imports or libraries is. Zeros begin it. The other numbers are internal: copy
   and compare them, but make none. */
struct goblin_pe_import_cursor {
    /* The file offset of the directory's first entry, from which entries are counted. */
    size_t first_record;
    /* The file offset of the entry that comes after the library, if there is one. */
    size_t next_record;
    /* The index of the library's entry. */
    size_t library;
    /* The file offset of its lookup table. */
    size_t table_offset;
    /* The file offset of the next entry of that table, in a library. */
    size_t place;
    /* The file offset of the next entry to test, where a part of an address table has been
       tested. */
    size_t tested;
    /* The RVA of the library's name. */
    uint32_t name_rva;
    /* The RVA of its address table. */
    uint32_t rva;
    /* The RVA of its address table, if that is to be tested after its entries. */
    uint32_t address_table;
    /* Whether the walk has begun; else the other fields are not looked at. */
    bool is_begun;
    /* Whether an entry comes after the library. */
    bool has_next;
    /* Whether it is in a library. */
    bool has_place;
    /* Whether the address table is to be tested. */
    bool has_address_table;
    /* Whether a part of an address table has been tested. */
    bool has_tested;
    uint8_t reserved[7];
};

/* An import. */
struct goblin_pe_import {
    /* The name; empty if it is imported by ordinal, or permissive mode could not read the name. To
       see the bytes of such a name, look up the file offset of `hint_name_rva` + 2. */
    struct goblin_pe_slice name;
    /* The name of the DLL; empty if it can't be read, in permissive mode or in a walk over one
       library. */
    struct goblin_pe_slice dll;
    /* The RVA of its thunk in the import address table, where the loader puts the address. */
    size_t iat_rva;
    /* The RVA of its hint and name; 0 if it is imported by ordinal. */
    size_t hint_name_rva;
    /* The index of the DLL's entry in the import directory. Skipped entries count. */
    size_t library_index;
    /* The index of its entry in the lookup table. Skipped entries count. */
    size_t thunk_index;
    /* The hint if it is imported by name, else the ordinal. */
    uint16_t hint_or_ordinal;
    /* Whether it is imported by name. */
    bool is_by_name;
    /* Whether it has a name: it is imported by name, and the name can be read and is not empty. */
    bool has_name;
    /* Whether the name is cut. */
    bool is_name_cut;
    /* Whether the name of the DLL is cut. */
    bool is_library_cut;
    /* Zeros. */
    uint8_t reserved[2];
};

/* Gives the next imports, in the order of the import directory. Counts steps.

   `skipped` counts libraries without an address table, imports whose hint can't be read, tables
   that the file cuts short, and a directory that is skipped as a whole, each once. `unmapped`
   counts imports whose name has no offset.

   As a loader maps, a hint or a name ends where its section does in memory. The tables of imports
   do not: they are read on in the file.

   Faults: STEPS; in strict mode damage, after the imports that come before it; READ if the file has
   no room for the section headers; OPTIONS. */
GOBLIN_PE_MUST_USE struct goblin_pe_fault goblin_pe_next_imports(
    const struct goblin_pe_image *image, struct goblin_pe_import_cursor *cursor,
    struct goblin_pe_import *imports, size_t room, size_t *steps, struct goblin_pe_batch *batch);

/* An import descriptor: the record of a library in an import directory. It says where the imports
   from that library are.

   A descriptor has 20 bytes, and `at` gives a field's offset in it. Numbers are as stored.
   Addresses are RVAs, relative to the image's base.

   Source: PE Format, "Import Directory Table". */
struct goblin_pe_import_directory_entry {
    /* The address of the lookup table, which says what is imported, at 0. If it has no file offset,
       the address table is read instead, as images of some old linkers require. */
    uint32_t import_lookup_table_rva;
    /* 0 until the imports are bound, at 4. Then it is the time stamp of the library to which they
       were bound, or 2^32 - 1 if the table of bound imports has that time stamp. */
    uint32_t time_date_stamp;
    /* The index of the first forwarder, at 8. */
    uint32_t forwarder_chain;
    /* The address of the library's name, at 12. A descriptor with 0 here ends the directory. */
    uint32_t name_rva;
    /* The address of the address table, at 16. That table is a copy of the lookup table, whose
       entries the loader replaces with addresses. A descriptor with 0 here ends the directory. */
    uint32_t import_address_table_rva;
};

/* A DLL that the image imports from: an entry of the import directory. A DLL may have several. */
struct goblin_pe_library {
    /* The name; empty if `name_fault` says why it can't be read. */
    struct goblin_pe_slice name;
    /* Why the name can't be read. */
    struct goblin_pe_fault name_fault;
    /* The index of the entry in the import directory. */
    size_t index;
    /* The file offset of the entry. */
    size_t offset;
    /* Where its imports begin. From here a walk over imports gives only these. It does not need the
       name: if it can't be read, the imports have an empty one, also in strict mode. */
    struct goblin_pe_import_cursor imports;
    /* The entry, as stored. */
    struct goblin_pe_import_directory_entry record;
    /* Whether permissive mode skips it, as it has no address table. Strict mode refuses the
       imports. */
    bool is_skipped;
    /* Whether the name is cut. */
    bool is_name_cut;
    /* Zeros. */
    uint8_t reserved[2];
};

/* Gives the next libraries: one for each entry of the import directory, also the skipped ones,
   which `skipped` counts. A walk over the imports of such a library does not count it again. So
   this walk and those over the imports of its rows count together what one walk over all imports
   counts. Counts steps: one for each library, and one more for each 64 entries of its address
   table.

   Faults: as `goblin_pe_next_imports`. In strict mode the walk ends with a fault where the file
   ends before the import directory does. */
GOBLIN_PE_MUST_USE struct goblin_pe_fault goblin_pe_next_libraries(
    const struct goblin_pe_image *image, struct goblin_pe_import_cursor *cursor,
    struct goblin_pe_library *libraries, size_t room, size_t *steps, struct goblin_pe_batch *batch);

/* ---- Exports ------------------------------------------------------------------------------- */

/* How an export is forwarded. */
enum goblin_pe_forwarder_kind {
    /* It is not. */
    GOBLIN_PE_FORWARDER_KIND_NONE = 0,
    /* To an export of another DLL, by its name. */
    GOBLIN_PE_FORWARDER_KIND_NAME = 1,
    /* To an export of another DLL, by its ordinal. */
    GOBLIN_PE_FORWARDER_KIND_ORDINAL = 2
};

/* Where an export is forwarded to: the text `dll.name` or `dll.#ordinal`. */
struct goblin_pe_forwarder {
    /* The DLL: the text up to the first dot. */
    struct goblin_pe_slice dll;
    /* The name of the export there. */
    struct goblin_pe_slice name;
    /* The ordinal of the export there. */
    size_t ordinal;
    /* A `goblin_pe_forwarder_kind`; if it is `GOBLIN_PE_FORWARDER_KIND_NONE`, all else is zeros. */
    uint32_t kind;
    /* Whether the text is cut. It then counts as a name, which may be empty. */
    bool is_cut;
    /* Zeros. */
    uint8_t reserved[3];
};

/* Where a walk over exports is: the index of a name pointer. */
struct goblin_pe_export_cursor {
    /* The index of the next name pointer. */
    size_t index;
};

/* An export that has a name pointer. */
struct goblin_pe_export {
    /* The name. */
    struct goblin_pe_slice name;
    /* Where it is forwarded to. */
    struct goblin_pe_forwarder forwarder;
    /* The ordinal. */
    size_t ordinal;
    /* The index of its name pointer, which imports give as a hint. */
    size_t hint;
    /* The RVA; of a forwarder, that of its text. */
    size_t rva;
    /* The RVA of the name. */
    size_t name_rva;
    /* The file offset of `rva`, if it has one; else 0. */
    size_t offset;
    /* Whether the name can be read. */
    bool has_name;
    /* Whether the name is cut. */
    bool is_name_cut;
    /* Whether `rva` has a file offset. */
    bool has_offset;
    /* Zeros. */
    uint8_t reserved[5];
};

/* Gives the next exports that have a name pointer, in the order of these. Counts steps: one for
   each name pointer.

   `unmapped` counts name pointers without an ordinal, with an ordinal past the address table, and
   with a forwarder that can't be read.

   Faults: STEPS; in strict mode a damaged export directory; else as `goblin_pe_next_imports`. */
GOBLIN_PE_MUST_USE struct goblin_pe_fault goblin_pe_next_exports(
    const struct goblin_pe_image *image, struct goblin_pe_export_cursor *cursor,
    struct goblin_pe_export *exports, size_t room, size_t *steps, struct goblin_pe_batch *batch);

/* The record with which the exports of an image begin.

   Source: PE Format, "Export Directory Table". Numbers are as stored; the record has 40 bytes, and
   `at` gives a field's offset in it. An RVA is an address relative to the image's base. */
struct goblin_pe_export_directory_table {
    /* Reserved, 0, at 0. */
    uint32_t export_flags;
    /* When the exports were made, in seconds since the start of 1970, at 4. */
    uint32_t time_date_stamp;
    /* The major version, at 8. The maker of the image chooses it. */
    uint16_t major_version;
    /* The minor version, at 10. */
    uint16_t minor_version;
    /* The RVA of the library's name, at 12. */
    uint32_t name_rva;
    /* The ordinal of the first entry of the address table, at 16; mostly 1. An ordinal is an index
       in the address table plus this base. The entries of the ordinal table do not include the
       base. */
    uint32_t ordinal_base;
    /* How many entries the address table has, at 20. */
    uint32_t address_table_entries;
    /* How many entries the name pointer table and the ordinal table each have, at 24. */
    uint32_t number_of_name_pointers;
    /* The RVA of the address table, at 28. */
    uint32_t export_address_table_rva;
    /* The RVA of the name pointer table, at 32. */
    uint32_t name_pointer_rva;
    /* The RVA of the ordinal table, at 36. */
    uint32_t ordinal_table_rva;
};

/* What the export directory says. */
struct goblin_pe_export_directory {
    /* The image's own name as a DLL. */
    struct goblin_pe_slice name;
    /* The export directory table, as stored. */
    struct goblin_pe_export_directory_table record;
    /* Whether the name can be read. */
    bool has_name;
    /* Whether the name is cut. */
    bool is_name_cut;
    /* Whether the image has an export directory that is read. If not, all else is zeros. */
    bool is_present;
    /* Zeros. */
    uint8_t reserved[5];
};

/* Reads the export directory table. It is not present if the image has none, or if permissive mode
   skips a damaged one.

   Faults: in strict mode a damaged export directory (too many name pointers are no damage here);
   else as `goblin_pe_next_imports`, but no STEPS. */
GOBLIN_PE_MUST_USE struct goblin_pe_fault goblin_pe_read_export_directory(
    const struct goblin_pe_image *image, struct goblin_pe_export_directory *directory);

/* Where a walk over the export address table is: an index in it. To look up an ordinal, set the
   index to `ordinal - ordinal_base`, and room to 1. */
struct goblin_pe_export_address_cursor {
    /* The index of the next entry. */
    size_t index;
};

/* An entry of the export address table. */
struct goblin_pe_export_address {
    /* The ordinal. */
    size_t ordinal;
    /* The RVA; of a forwarder, that of its text; 0 if the ordinal is unused. */
    size_t rva;
    /* The file offset of `rva`, if it has one; else 0. */
    size_t offset;
    /* Whether it is forwarded: `rva` lies in the export directory. `goblin_pe_forwarder_at` reads
       where to. */
    bool is_forwarder;
    /* Whether `rva` has a file offset. */
    bool has_offset;
    /* Zeros. */
    uint8_t reserved[6];
};

/* Gives the next entries of the export address table: all ordinals, also those without a name.

   Faults: as `goblin_pe_read_export_directory`. */
GOBLIN_PE_MUST_USE struct goblin_pe_fault goblin_pe_next_export_addresses(
    const struct goblin_pe_image *image, struct goblin_pe_export_address_cursor *cursor,
    struct goblin_pe_export_address *addresses, size_t room, struct goblin_pe_batch *batch);

/* Reads the forwarder whose text is at an RVA.

   Faults: UNMAPPED; READ if there is no text; FORWARDER and FORWARDER_ORDINAL; OPTIONS. */
GOBLIN_PE_MUST_USE struct goblin_pe_fault goblin_pe_forwarder_at(
    const struct goblin_pe_image *image, size_t rva, struct goblin_pe_forwarder *forwarder);

/* ---- Base relocations of an image ---------------------------------------------------------- */

/* Where a walk over blocks is: an offset in the base relocation directory. */
struct goblin_pe_relocation_block_cursor {
    /* The offset of the next block. */
    size_t offset;
};

/* Where a walk over the base relocations of one block is; a block row holds the beginning. */
struct goblin_pe_base_relocation_cursor {
    /* The offset of the next entry; an entry has two bytes. */
    size_t offset;
    /* The offset past the last entry. */
    size_t end;
    /* The RVA of the page. */
    size_t page_rva;
};

/* A block of base relocations, for one page. */
struct goblin_pe_relocation_block {
    /* The RVA of the page. */
    size_t rva;
    /* The size of the block, with the 8 bytes of its header. */
    uint32_t size;
    /* Zero. */
    uint32_t reserved;
    /* Where its base relocations begin. */
    struct goblin_pe_base_relocation_cursor relocations;
};

/* Gives the next blocks of base relocations.

   Faults: in strict mode a damaged directory; in both modes bytes that are no block, after the
   blocks before them; else as `goblin_pe_read_export_directory`. */
GOBLIN_PE_MUST_USE struct goblin_pe_fault goblin_pe_next_relocation_blocks(
    const struct goblin_pe_image *image, struct goblin_pe_relocation_block_cursor *cursor,
    struct goblin_pe_relocation_block *blocks, size_t room, struct goblin_pe_batch *batch);

/* A base relocation.

   Source: PE Format, "Base Relocation Block". */
struct goblin_pe_base_relocation {
    /* What is relocated: an RVA. */
    size_t rva;
    /* An `IMAGE_REL_BASED_*`; ABSOLUTE is padding. */
    uint32_t typ;
    /* Zero. */
    uint32_t reserved;
};

/* Gives the next base relocations of a block. A last odd byte is no relocation. Never faults. */
GOBLIN_PE_MUST_USE struct goblin_pe_fault goblin_pe_next_base_relocations(
    const struct goblin_pe_image *image, struct goblin_pe_base_relocation_cursor *cursor,
    struct goblin_pe_base_relocation *relocations, size_t room, struct goblin_pe_batch *batch);

/* ---- Symbols and relocations of COFF ------------------------------------------------------- */

/* Where a walk over symbols is: the index of a record. To look up a symbol by its index, as
   relocations name it, set the index, and room to 1. The index of an auxiliary record gives that
   record as if it were a symbol. */
struct goblin_pe_symbol_cursor {
    /* The index of the next record. */
    size_t index;
};

/* A symbol, as its record describes it.

   Source: PE Format, "COFF Symbol Table". Numbers are as stored; a record has 18 bytes, and `at`
   gives a field's offset in it. */
struct goblin_pe_symbol_record {
    /* The eight bytes of the name, padded with NULs, at 0. If the first byte is 0, the name is in
       the string table, and the last four bytes are its offset there, counted from the table's
       length field. */
    uint8_t name[8];
    /* The value of the symbol, at 8. Its section and class say what it means; mostly it is an
       offset in the section, in bytes. */
    uint32_t value;
    /* The number of its section, counted from 1, at 12; or `IMAGE_SYM_UNDEFINED` (0),
       `IMAGE_SYM_ABSOLUTE` (-1) or `IMAGE_SYM_DEBUG` (-2). */
    int16_t section_number;
    /* Its type, at 14: an `IMAGE_SYM_TYPE_*` in the low four bits, an `IMAGE_SYM_DTYPE_*` above
       them. Microsoft's tools store 0x20 for a function, else 0. */
    uint16_t typ;
    /* Its class, an `IMAGE_SYM_CLASS_*`, at 16. */
    uint8_t storage_class;
    /* How many auxiliary records follow it, at 17. The next symbol follows these. */
    uint8_t number_of_aux_symbols;
};

/* A symbol. */
struct goblin_pe_symbol {
    /* The name; empty, and `has_name` is false, if it can't be read or is not UTF-8. */
    struct goblin_pe_slice name;
    /* Its auxiliary records, 18 bytes each. */
    struct goblin_pe_slice auxiliary;
    /* The index of its record in the symbol table, where auxiliary records count. */
    size_t index;
    /* The symbol record, as stored. */
    struct goblin_pe_symbol_record record;
    /* Whether it has a name. */
    bool has_name;
    /* Whether the name is cut. */
    bool is_name_cut;
    /* Zeros. */
    uint8_t reserved[2];
};

/* Gives the next symbols of an image or an object, and steps over their auxiliary records.

   Faults: a file that is too short for the symbol table or the string table; COFF_LENGTH. */
GOBLIN_PE_MUST_USE struct goblin_pe_fault goblin_pe_next_symbols(
    const struct goblin_pe_image *image, struct goblin_pe_symbol_cursor *cursor,
    struct goblin_pe_symbol *symbols, size_t room, struct goblin_pe_batch *batch);

/* Sets `text` to the text at an offset of the string table, up to a NUL. A text that is longer than
   `options.longest_name` ends with the character that passes the limit. The offset counts from the
   table's length field, as stored offsets do.

   Returns whether there is one, and it is UTF-8. */
bool goblin_pe_string_at(
    const struct goblin_pe_image *image, size_t offset, struct goblin_pe_slice *text);

/* Which auxiliary records a symbol has, by its class and type. An undefined external symbol of
   value 0 has those of a weak external. */
enum goblin_pe_auxiliary_kind {
    /* The symbol has no auxiliary record of a kind below. */
    GOBLIN_PE_AUXILIARY_KIND_NONE = 0,
    /* The definition of a function. */
    GOBLIN_PE_AUXILIARY_KIND_FUNCTION_DEFINITION = 1,
    /* The beginning or the end of a function. */
    GOBLIN_PE_AUXILIARY_KIND_BEGIN_AND_END_FUNCTION = 2,
    /* A symbol that another one may replace. */
    GOBLIN_PE_AUXILIARY_KIND_WEAK_EXTERNAL = 3,
    /* The name of a source file. */
    GOBLIN_PE_AUXILIARY_KIND_FILE = 4,
    /* The definition of a section. */
    GOBLIN_PE_AUXILIARY_KIND_SECTION_DEFINITION = 5
};

/* The first auxiliary record of a symbol: the fields of its kind; all others are zeros. */
struct goblin_pe_auxiliary {
    /* FUNCTION_DEFINITION: the index of the symbol at the function's beginning. WEAK_EXTERNAL: the
       index of the symbol that replaces it. */
    uint32_t tag_index;
    /* FUNCTION_DEFINITION. */
    uint32_t total_size;
    /* FUNCTION_DEFINITION. */
    uint32_t pointer_to_line_number;
    /* FUNCTION_DEFINITION, BEGIN_AND_END_FUNCTION. */
    uint32_t pointer_to_next_function;
    /* BEGIN_AND_END_FUNCTION. */
    uint16_t line_number;
    /* SECTION_DEFINITION: the section that this one goes with, from 1. */
    uint16_t number;
    /* SECTION_DEFINITION. */
    uint32_t length;
    /* SECTION_DEFINITION. */
    uint32_t checksum;
    /* SECTION_DEFINITION. */
    uint16_t number_of_relocations;
    /* SECTION_DEFINITION. */
    uint16_t number_of_line_numbers;
    /* SECTION_DEFINITION: an `IMAGE_COMDAT_SELECT_*`. */
    uint8_t selection;
    /* FILE: whether the name is cut. */
    bool is_file_cut;
    /* Zeros. */
    uint8_t reserved[2];
    /* WEAK_EXTERNAL: an `IMAGE_WEAK_EXTERN_SEARCH_*`. */
    uint32_t characteristics;
    /* FILE: the name of the source file. If it begins with four zeros it is in the string table, at
       `string_offset`. */
    struct goblin_pe_slice file;
    /* FILE: where the name is in the string table; else 0. */
    uint32_t string_offset;
    /* Zero. */
    uint32_t reserved2;
};

/* Reads the auxiliary records of a symbol, and returns their kind, one of
   `goblin_pe_auxiliary_kind`. The kind is NONE if the symbol has none, or they are cut, or its
   class and type name no kind. The raw bytes are in `symbol.auxiliary`. */
uint32_t goblin_pe_read_auxiliary(
    const struct goblin_pe_image *image, const struct goblin_pe_symbol *symbol,
    struct goblin_pe_auxiliary *auxiliary);

/* A relocation of a COFF object. It says which bytes of a section a linker changes, and how.

   Source: PE Format, "COFF Relocations (Object Only)". Numbers are as stored. The record has 10
   bytes, and `at` gives the offset of a field in it. */
struct goblin_pe_coff_relocation {
    /* The address of the bytes that are changed, at 0: their offset in the section, in bytes, plus
       the section's own address, which is mostly 0. In the first relocation of a section with
       `IMAGE_SCN_LNK_NRELOC_OVFL` it is the number of relocations. */
    uint32_t virtual_address;
    /* The index in the symbol table of the symbol whose address the linker puts there, at 4. */
    uint32_t symbol_table_index;
    /* How the linker puts it there, at 8: an `IMAGE_REL_*` of the machine that the COFF header
       names. */
    uint16_t typ;
};

/* Gives the next relocations of a section of an object. If the section has more than 65,535, the
   first one holds their number, and is none itself: the cursor of the section's row is after it.

   Faults: READ if the file is too short for them. */
GOBLIN_PE_MUST_USE struct goblin_pe_fault goblin_pe_next_coff_relocations(
    const struct goblin_pe_image *image, struct goblin_pe_coff_relocation_cursor *cursor,
    struct goblin_pe_coff_relocation *relocations, size_t room, struct goblin_pe_batch *batch);

/* ---- Checksum ------------------------------------------------------------------------------ */

/* Computes the checksum of `image.bytes`, for `optional_header.windows_fields.check_sum`. Windows
   tests it in drivers. Compute it after all other changes to the bytes.

   Returns whether the image has an optional header. */
bool goblin_pe_checksum(const struct goblin_pe_image *image, uint32_t *sum);

/* ---- Writing a header ---------------------------------------------------------------------- */

/* Writes the header that the record says: DOS header, stub, PE signature, COFF header, and an
   optional header with sixteen directories, if it has one. Sets `written` to the size. With room 0
   it writes nothing, and sets `written` to the size that is needed.

   The bytes of a header that strict mode read are those of the file, up to the last of its
   directories. If the file has fewer than sixteen, zeros follow, where the file may have its
   section table. So write elsewhere, and copy at most `image.section_table` bytes into the file.
   The PE signature follows the stub, whatever `pe_pointer` says.

   Faults: BAD_MAGIC; FIELD_TOO_WIDE; KIND; READ if room is not 0 and too little, or the file has no
   stub of `dos_stub_size` bytes. Nothing is written then. */
GOBLIN_PE_MUST_USE struct goblin_pe_fault goblin_pe_write_header(
    const struct goblin_pe_image *image, uint8_t *out, size_t room, size_t *written);

#ifdef __cplusplus
}
#endif

#endif
