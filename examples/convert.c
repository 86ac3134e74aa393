/*
 * convert - a stored sheet in records of the other size
 *
 *     convert SIZE SHEET [OUTPUT]
 *     convert -h
 *
 * SIZE is the bytes of a record of the file SHEET, 20 or 28. The sheet in records of 28 or 20 bytes
 * is written to the file OUTPUT, which must not exist yet, or to standard output. A sheet that
 * declares pollutant 5 or 6 stays in records of 28 bytes.
 *
 * EXIT STATUS
 *
 *     0  converted
 *     1  refused: see standard error
 *     2  wrong usage or an I/O error: see standard error
 *
 * Where the status is not 0, the file OUTPUT is as it was.
 * Only the library says whether the sheet can be converted.
 */
#include <conformity.h>

#include "number.h"

#include <stdio.h>

enum outcome { HELPED = 0, CONVERTED = 0, REFUSED = 1, TROUBLE = 2 };

static const char USAGE[] = "convert SIZE SHEET [OUTPUT]";

static const char HELP[] =
    "\n"
    "SIZE is the bytes of a record of the file SHEET, 20 or 28. The sheet in records of 28 or 20\n"
    "bytes is written to the file OUTPUT, which must not exist yet, or to standard output. A sheet\n"
    "that declares pollutant 5 or 6 stays in records of 28 bytes.\n"
    "\n"
    "exit status:\n"
    "  0  converted\n"
    "  1  refused: see standard error\n"
    "  2  wrong usage or an I/O error: see standard error\n"
    "Where it is not 0, the file OUTPUT is as it was.\n";

static const char NOT_WRITTEN[] = "not every byte could be written";

/* One byte more than the longest sheet has a place, so that the library sees it and refuses it. */
struct sheet {
    uint8_t bytes[CONFORMITY_SHEET_MAX_28 + 1];
    size_t length;
};

static enum outcome trouble(const char *where, const char *why)
{
    fprintf(stderr, "convert: %s: %s\n", where, why);
    return TROUBLE;
}

/* Whether the refusal of this number is of a record, which the code then names, counted from 0. */
static int names_record(uint32_t number)
{
    return (number >= CONFORMITY_REFUSED_KIND && number <= CONFORMITY_REFUSED_ZERO) ||
           (number >= CONFORMITY_REFUSED_SMALL_ENGINE && number <= CONFORMITY_REFUSED_RUN_IN);
}

static enum outcome refused(const char *path, size_t size, uint32_t code)
{
    uint32_t number = conformity_refusal_number(code);
    fprintf(stderr, "convert: %s: refused %u", path, (unsigned)number);
    if (names_record(number)) {
        fprintf(stderr, " at record %u", (unsigned)conformity_refusal_record(code));
    }
    fprintf(stderr, ": %s\n", conformity_refusal_text_sized(size, number));
    return REFUSED;
}

/* Answers what is wrong, or NULL. */
static const char *read_sheet(const char *path, struct sheet *sheet)
{
    const char *fault = NULL;
    FILE *file = fopen(path, "rb");
    if (file == NULL) {
        return strerror(errno);
    }
    sheet->length = fread(sheet->bytes, 1, sizeof sheet->bytes, file);
    if (ferror(file)) {
        fault = strerror(errno);
    }
    fclose(file);
    return fault;
}

static int write_bytes(const struct sheet *sheet, FILE *file)
{
    return fwrite(sheet->bytes, 1, sheet->length, file) == sheet->length && fflush(file) == 0;
}

/* A part of a sheet may be a sheet itself: where not all is written, nothing stays. */
static enum outcome write_file(const struct sheet *sheet, const char *path)
{
    FILE *file = fopen(path, "wbx");
    int is_written;
    if (file == NULL) {
        return trouble(path, strerror(errno));
    }
    is_written = write_bytes(sheet, file);
    if (fclose(file) != 0 || !is_written) {
        remove(path);
        return trouble(path, NOT_WRITTEN);
    }
    return CONVERTED;
}

static enum outcome write_output(const struct sheet *sheet)
{
    return write_bytes(sheet, stdout) ? CONVERTED : trouble("standard output", NOT_WRITTEN);
}

/* The path of the output is NULL where the command line names none: for standard output. */
static enum outcome convert(size_t size, const char *path, const char *output_path)
{
    static struct sheet sheet, output;
    const char *fault = read_sheet(path, &sheet);
    uint32_t code;
    if (fault != NULL) {
        return trouble(path, fault);
    }
    code = conformity_convert(size, sheet.bytes, sheet.length, output.bytes, sizeof output.bytes);
    if (code != 0) {
        return refused(path, size, code);
    }
    output.length = conformity_converted_length(size, sheet.length);
    return output_path != NULL ? write_file(&output, output_path) : write_output(&output);
}

static enum outcome help(void)
{
    printf("usage: %s\n%s", USAGE, HELP);
    return fflush(stdout) == 0 ? HELPED : trouble("standard output", NOT_WRITTEN);
}

static enum outcome run(int argc, char **argv)
{
    uint32_t size = 0;
    const char *fault;
    if (argc == 2 && strcmp(argv[1], "-h") == 0) {
        return help();
    }
    if (argc != 3 && argc != 4) {
        return trouble("usage", USAGE);
    }
    fault = read_number(argv[1], &size);
    return fault != NULL ? trouble(argv[1], fault) : convert(size, argv[2], argv[3]);
}

int main(int argc, char **argv)
{
    return (int)run(argc, argv);
}
