/*
 * bench - control program of an engine test bench
 *
 *     bench [-s SIZE] [-o FILE] < lines-of-the-test-cell
 *     bench -h
 *
 * SIZE is the bytes of a record: 20, which it is without -s, for four pollutants, or 28 for six.
 *
 * LINES
 *
 *     plan N                              1 to 5, before the limits
 *     limit POLLUTANT LIMIT [DEVIATION]   pollutant co, hc, nox, pm or a number; limit in
 *                                         thousandths of its unit; deviation in millionths,
 *                                         plan 1 only
 *     small-engine volume=V speed=S date=D     swept volume per cylinder in cubic centimetres,
 *                                         rated speed per minute and date of the test, such as
 *                                         19980930; after the limits, before the engines
 *     run-in [co=X] [hc=X] [nox=X] [pm=X] [5=X] [6=X]     the first engine's values after
 *                                         running-in, as an engine's are given; after the limits
 *                                         and the small engine, before the engines
 *     engine [co=X] [hc=X] [nox=X] [pm=X] [5=X] [6=X] [cause=C]     measurements in thousandths;
 *                                         5 and 6 with -s 28 only; the cause of a gross emitter,
 *                                         or cause=? while it is sought, plan 4 only
 *     finding ENGINE CAUSE                the cause of an engine that was sought
 *     stop                                testing stopped by the manufacturer
 *
 * NAME=NUMBER words stand in any order. Numbers are whole: no sign, no decimal point, no comma.
 * Upper case is read as lower case. Empty lines, lines that begin with # and a byte order mark at
 * the start say nothing, nor do a plan, a limit, a small engine and run-in values that stand
 * already: cells send theirs at every start. Lines end in LF or CR LF; the last one may have no
 * end.
 *
 * After each engine, each finding, and a stop, the program prints how the series stands; it stops
 * reading when the series is decided. A line that is not understood, or that the library refuses,
 * is passed over: it is told with the reason, and the test goes on with the sheet as it was.
 * Without that limit, small engine, run-in values, engine or finding the series may pass where it
 * would have failed, so a decision after such a line has an exit status of its own, and the last
 * line counts the lines passed over.
 *
 * FILE
 *
 * With -o the sheet is kept in FILE, which the program `verdict` reads if its records have 20
 * bytes. A record or finding is on the disk before the next line is read; a volume or speed above
 * 65535 is kept as 65535. A FILE that holds a sheet is resumed: plan, limits, small engine, run-in
 * values and engines are those of the sheet. The bytes of a record that a crash has torn are told,
 * and cut when the next record is written. A FILE that is no sheet, or one of records of the other
 * size, or that another bench keeps, is left as it is. A pipe or a device is only written to, and
 * takes no finding.
 *
 * EXIT STATUS
 *
 *     0  decided
 *     1  undecided, or held, when the lines end
 *     2  wrong usage, a FILE that is no sheet or is taken, or an I/O error: see standard error
 *     3  decided, but lines were passed over
 *
 * Only the library says whether a record is acceptable and what the verdict is.
 */
#define _POSIX_C_SOURCE 200809L

#include <conformity.h>

#include "number.h"

#include <ctype.h>
#include <errno.h>
#include <fcntl.h>
#include <poll.h>
#include <signal.h>
#include <stdio.h>
#include <string.h>
#include <sys/stat.h>
#include <unistd.h>

#define BLANKS " \t\r"
#define BYTE_ORDER_MARK "\xef\xbb\xbf"
#define MOST_WORDS 9 /* one more than any line has, so that a longer one is seen to be longer */

/* Also the exit status; the last: decided, but lines were passed over. */
enum outcome { HELPED = 0, DECIDED = 0, UNDECIDED = 1, TROUBLE = 2, DECIDED_ON_LESS = 3 };

/* Places in a record (docs/FORMAT.md, section 1): the header builds records, but reads none. */
enum { KIND = 0, POLLUTANT = 1, PLAN = 2, CAUSE = 2 };
#define NO_RECORD 0  /* no kind of record has this number */
#define CAUSE_SIZE 2 /* bytes of a cause */

struct test {
    size_t size; /* of a record */
    uint8_t sheet[CONFORMITY_SHEET_MAX_28];
    size_t used;
    uint32_t plan; /* 0, which the library refuses, until a line or the sheet has named it */
    unsigned long line_number;
    unsigned long passed_over;
    unsigned long first_passed_over;
    const char *path; /* of the file of -o, or NULL */
    int file;
    int is_stream; /* the file is a pipe or a device, of which nothing is read or written again */
};

struct input {
    uint8_t bytes[4096];
    size_t next;
    size_t count;
    int ended;
    int error; /* errno of the read that failed, or 0 */
};

static const char USAGE[] = "bench [-s SIZE] [-o FILE] < lines, or bench -h";

static const char HELP[] =
    "\n"
    "lines:\n"
    "  plan N                              1 to 5, before the limits\n"
    "  limit POLLUTANT LIMIT [DEVIATION]   pollutant co, hc, nox, pm or a number; limit in\n"
    "                                      thousandths of its unit; deviation in millionths,\n"
    "                                      plan 1 only\n"
    "  small-engine volume=V speed=S date=D     swept volume per cylinder in cubic centimetres,\n"
    "                                      rated speed per minute and date of the test, such as\n"
    "                                      19980930; after the limits, before the engines\n"
    "  run-in [co=X] [hc=X] [nox=X] [pm=X] [5=X] [6=X]     the first engine's values after\n"
    "                                      running-in, as an engine's are given; after the limits\n"
    "                                      and the small engine, before the engines\n"
    "  engine [co=X] [hc=X] [nox=X] [pm=X] [5=X] [6=X] [cause=C]     measurements in thousandths;\n"
    "                                      5 and 6 with -s 28 only; the cause of a gross emitter,\n"
    "                                      or cause=? while it is sought, plan 4 only\n"
    "  finding ENGINE CAUSE                the cause of an engine that was sought\n"
    "  stop                                testing stopped by the manufacturer\n"
    "Numbers are whole: no sign, no decimal point, no comma. Empty lines and lines that begin\n"
    "with # say nothing.\n"
    "\n"
    "-s SIZE is the bytes of a record: 20 for four pollutants, 28 for six; without -s it is 20.\n"
    "-o FILE keeps the sheet in FILE, and resumes the sheet that FILE holds.\n"
    "\n"
    "exit status:\n"
    "  0  decided\n"
    "  1  undecided, or held, when the lines end\n"
    "  2  wrong usage, a FILE that is no sheet or is taken, or an I/O error: see standard error\n"
    "  3  decided, but lines were passed over\n";

static const char *const POLLUTANTS[] = {"none", "co", "hc", "nox", "pm", "5", "6"};
static const char *const SMALL_ENGINE_VALUES[] = {"volume", "speed", "date"};
#define SMALL_ENGINE_COUNT (sizeof SMALL_ENGINE_VALUES / sizeof SMALL_ENGINE_VALUES[0])
static const char *const VERDICTS[] = {"another", "pass", "fail", "referred", "held"};
static const char *const GROUNDS[] = {"none",    "row",      "equal cause",
                                      "stopped", "referred", "finding pending"};
static const char *const DECISIONS[] = {"open", "pass", "fail"};

/* A later library may answer a number that this program has no word for. */
#define WORD(words, number) word_of(words, sizeof(words) / sizeof((words)[0]), number)
static const char *word_of(const char *const words[], size_t count, uint32_t number)
{
    return number < count ? words[number] : "unknown";
}

/* Says on standard error why the exit status is 2; where that fails, on standard output. */
static enum outcome trouble(const char *where, const char *why)
{
    if (fprintf(stderr, "bench: %s: %s\n", where, why) < 0) {
        printf("bench: %s: %s\n", where, why);
    }
    return TROUBLE;
}

/* ---- Understanding a line: each answers what is wrong, or NULL ---- */

/* 0 where no pollutant of records of this size has the name. */
static uint32_t pollutant_named(size_t size, const char *name)
{
    uint32_t pollutant = conformity_pollutants(size);
    while (pollutant > 0 && strcmp(name, POLLUTANTS[pollutant]) != 0) {
        pollutant--;
    }
    return pollutant;
}

static const char *read_pollutant(size_t size, const char *word, uint32_t *pollutant)
{
    *pollutant = pollutant_named(size, word);
    if (*pollutant != 0) {
        return NULL;
    }
    return isalpha((unsigned char)word[0]) ? "an unknown name" : read_number(word, pollutant);
}

static const char *wrong_count(size_t count, size_t least, size_t most)
{
    return count < least ? "too few words" : count > most ? "too many words" : NULL;
}

static const char *read_plan(struct test *test, char **words, size_t count)
{
    uint32_t plan = 0;
    const char *fault = wrong_count(count, 2, 2);
    if (fault == NULL) {
        fault = read_number(words[1], &plan);
    }
    if (fault != NULL) {
        return fault;
    }
    if (plan < CONFORMITY_PLAN_KNOWN_DEVIATION || plan > CONFORMITY_PLAN_CORRECTED) {
        return "the plan is not 1 to 5";
    }
    if (test->plan != 0 && test->plan != plan) {
        return "a second plan, unlike the first";
    }
    test->plan = plan; /* which goes into the record of each limit */
    return NULL;
}

static const char *read_limit(const struct test *test, char **words, size_t count,
                              uint8_t *record)
{
    uint32_t pollutant = 0, limit = 0, deviation = 0;
    const char *fault = wrong_count(count, 3, 4);
    if (fault == NULL) {
        fault = read_pollutant(test->size, words[1], &pollutant);
    }
    if (fault == NULL) {
        fault = read_number(words[2], &limit);
    }
    if (fault == NULL && count == 4) {
        fault = read_number(words[3], &deviation);
    }
    if (fault == NULL) {
        conformity_pollutant_record_sized(test->size, record, pollutant, test->plan, limit,
                                          deviation);
    }
    return fault;
}

/* Of NAME=NUMBER, which becomes NAME: the number, empty where there is none. */
static const char *number_of(char *word)
{
    size_t name_length = strcspn(word, "=");
    const char *number = word[name_length] == '=' ? word + name_length + 1 : "";
    word[name_length] = '\0';
    return number;
}

/* The number of a name that has this place among the values. */
static const char *read_value(const char *number, size_t place, uint32_t *values, int *given)
{
    if (given[place]) {
        return "a name is given twice";
    }
    given[place] = 1;
    return read_number(number, &values[place]);
}

/* A cause that is sought is given by the word, and by no number. */
static const char *read_cause(const char *number, size_t place, uint32_t *values, int *given)
{
    int is_sought = strcmp(number, "?") == 0;
    const char *fault = read_value(is_sought ? "0" : number, place, values, given);
    if (fault == NULL && values[place] > CONFORMITY_CAUSE_MAX) {
        return "the cause is not 0 to 65534, and not ?";
    }
    if (is_sought) {
        values[place] = CONFORMITY_CAUSE_PENDING;
    }
    return fault;
}

/* The place of a name among the values; their count where it has none. */
static size_t small_engine_place(const char *name)
{
    size_t place = 0;
    while (place < SMALL_ENGINE_COUNT && strcmp(name, SMALL_ENGINE_VALUES[place]) != 0) {
        place++;
    }
    return place;
}

static const char *read_small_engine_value(char *word, uint32_t *values, int *given)
{
    const char *number = number_of(word);
    size_t place = small_engine_place(word);
    return place < SMALL_ENGINE_COUNT ? read_value(number, place, values, given)
                                      : "an unknown name";
}

/* With as many words as names, and no name twice, each name is given. */
static const char *read_small_engine(size_t size, char **words, size_t count, uint8_t *record)
{
    uint32_t values[SMALL_ENGINE_COUNT] = {0};
    int given[SMALL_ENGINE_COUNT] = {0};
    const char *fault = wrong_count(count, 1 + SMALL_ENGINE_COUNT, 1 + SMALL_ENGINE_COUNT);
    size_t i;
    for (i = 1; i < count && fault == NULL; i++) {
        fault = read_small_engine_value(words[i], values, given);
    }
    if (fault == NULL) {
        conformity_small_engine_record_sized(size, record, values[0], values[1], values[2]);
    }
    return fault;
}

/* Each pollutant has the place of its number among the values; place 0 is the cause's, which run-in
   values do not have. */
#define VALUE_COUNT (1 + CONFORMITY_POLLUTANTS_28)

static const char *read_engine_value(size_t size, int has_cause, char *word, uint32_t *values,
                                     int *given)
{
    const char *number = number_of(word);
    uint32_t place = pollutant_named(size, word);
    if (place > 0) {
        return read_value(number, place, values, given);
    }
    return has_cause && strcmp(word, "cause") == 0 ? read_cause(number, place, values, given)
                                                   : "an unknown name";
}

static const char *read_engine_values(size_t size, int has_cause, char **words, size_t count,
                                      uint32_t *values)
{
    int given[VALUE_COUNT] = {0};
    size_t most = conformity_pollutants(size) + (has_cause ? 1 : 0);
    const char *fault = wrong_count(count, 2, 1 + most);
    size_t i;
    for (i = 1; i < count && fault == NULL; i++) {
        fault = read_engine_value(size, has_cause, words[i], values, given);
    }
    return fault;
}

static const char *read_run_in(size_t size, char **words, size_t count, uint8_t *record)
{
    uint32_t values[VALUE_COUNT] = {0};
    const char *fault = read_engine_values(size, 0, words, count, values);
    if (fault == NULL) {
        conformity_run_in_record_sized(size, record, values + 1);
    }
    return fault;
}

static const char *read_engine(size_t size, char **words, size_t count, uint8_t *record)
{
    uint32_t values[VALUE_COUNT] = {0};
    const char *fault = read_engine_values(size, 1, words, count, values);
    if (fault == NULL) {
        conformity_engine_record_sized(size, record, values[0], values + 1);
    }
    return fault;
}

static const char *read_finding(char **words, size_t count, uint32_t *engine, uint32_t *finding)
{
    const char *fault = wrong_count(count, 3, 3);
    if (fault == NULL) {
        fault = read_number(words[1], engine);
    }
    return fault == NULL ? read_number(words[2], finding) : fault;
}

static const char *read_words(struct test *test, char **words, size_t count, uint8_t *record)
{
    if (strcmp(words[0], "plan") == 0) {
        return read_plan(test, words, count);
    }
    if (strcmp(words[0], "limit") == 0) {
        return read_limit(test, words, count, record);
    }
    if (strcmp(words[0], "small-engine") == 0) {
        return read_small_engine(test->size, words, count, record);
    }
    if (strcmp(words[0], "run-in") == 0) {
        return read_run_in(test->size, words, count, record);
    }
    if (strcmp(words[0], "engine") == 0) {
        return read_engine(test->size, words, count, record);
    }
    if (strcmp(words[0], "stop") == 0) {
        conformity_stop_record_sized(test->size, record);
        return wrong_count(count, 1, 1);
    }
    return "an unknown name";
}

/* ---- The sheet ---- */

static uint32_t engines_on(const struct test *test)
{
    uint32_t engines = 0;
    size_t at;
    for (at = 0; at < test->used; at += test->size) {
        engines += test->sheet[at + KIND] == CONFORMITY_KIND_ENGINE;
    }
    return engines;
}

/* The bytes that the sheet's pollutants with their limits take: they come first. */
static size_t limits_on(const struct test *test)
{
    size_t end = 0;
    while (end < test->used && test->sheet[end + KIND] == CONFORMITY_KIND_POLLUTANT) {
        end += test->size;
    }
    return end;
}

/* The bytes of what cells send at every start: all records before the first engine or the stop. */
static size_t start_on(const struct test *test)
{
    size_t end = 0;
    while (end < test->used && test->sheet[end + KIND] != CONFORMITY_KIND_ENGINE &&
           test->sheet[end + KIND] != CONFORMITY_KIND_STOP) {
        end += test->size;
    }
    return end;
}

/* The place of the cause of an engine, counted from 1, that is on the sheet. */
static size_t cause_on(const struct test *test, uint32_t engine)
{
    return start_on(test) + (engine - 1) * test->size + CAUSE;
}

static int stands_already(const struct test *test, const uint8_t *record)
{
    size_t at;
    for (at = 0; at < start_on(test); at += test->size) {
        if (memcmp(test->sheet + at, record, test->size) == 0) {
            return 1;
        }
    }
    return 0;
}

static enum outcome print_standing(const struct test *test)
{
    uint8_t report[CONFORMITY_REPORT_SIZE_28];
    uint32_t verdict;
    size_t at;
    if (conformity_report_sized(test->size, test->sheet, test->used, report, sizeof report) != 0) {
        return trouble("library", "it refuses a sheet that it has accepted");
    }
    verdict = conformity_report_verdict(report);
    fputs(WORD(VERDICTS, verdict), stdout);
    if (verdict != CONFORMITY_VERDICT_ANOTHER) {
        printf(" at %u (%s)", (unsigned)conformity_report_engine(report),
               WORD(GROUNDS, conformity_report_ground(report)));
    }
    for (at = 0; at < limits_on(test); at += test->size) {
        uint32_t pollutant = test->sheet[at + POLLUTANT];
        uint32_t decision = conformity_report_decision_sized(test->size, report, pollutant);
        printf("; %s %s", WORD(POLLUTANTS, pollutant), WORD(DECISIONS, decision));
        if (decision != CONFORMITY_DECISION_OPEN) {
            printf(" at %u", (unsigned)conformity_report_decision_engine_sized(test->size, report,
                                                                               pollutant));
        }
    }
    putchar('\n');
    return verdict == CONFORMITY_VERDICT_ANOTHER || verdict == CONFORMITY_VERDICT_HELD ? UNDECIDED
                                                                                       : DECIDED;
}

/* ---- The file of -o ---- */

static int read_file(int file, uint8_t *bytes, size_t size, size_t *length)
{
    ssize_t count = 1;
    *length = 0;
    while (count != 0 && *length < size) {
        count = read(file, bytes + *length, size - *length);
        if (count < 0 && errno != EINTR) {
            return 0;
        }
        *length += count > 0 ? (size_t)count : 0;
    }
    return 1;
}

static int write_file(int file, const uint8_t *bytes, size_t length)
{
    size_t done = 0;
    while (done < length) {
        ssize_t count = write(file, bytes + done, length - done);
        if (count < 0 && errno != EINTR) {
            return 0;
        }
        done += count > 0 ? (size_t)count : 0;
    }
    return 1;
}

/* EINVAL comes from a pipe or device that knows no fsync. */
static int sync_file(int file)
{
    int result;
    do {
        result = fsync(file);
    } while (result != 0 && errno == EINTR);
    return result == 0 || errno == EINVAL;
}

/* The bytes of a torn record, where there are some, are fewer than those written over them. */
static enum outcome keep_record(const struct test *test, const uint8_t *record)
{
    char why[256];
    const char *error, *cut;
    if (test->path == NULL ||
        (write_file(test->file, record, test->size) && sync_file(test->file))) {
        return UNDECIDED;
    }
    error = strerror(errno);
    cut = ftruncate(test->file, (off_t)test->used) == 0 ? "is" : "could not be";
    snprintf(why, sizeof why, "line %lu is not kept: %s; the file %s cut back to whole records",
             test->line_number, error, cut);
    return trouble(test->path, why);
}

/* The two bytes have an even place, so that they lie in one sector: a crash leaves both or none. */
static int write_cause(const struct test *test, size_t at, const uint8_t *cause)
{
    return lseek(test->file, (off_t)at, SEEK_SET) >= 0 &&
           write_file(test->file, cause, CAUSE_SIZE) && sync_file(test->file) &&
           lseek(test->file, (off_t)test->used, SEEK_SET) >= 0;
}

/* The cause that was pending is written again where the one that was found cannot be. */
static enum outcome keep_finding(const struct test *test, size_t at)
{
    static const uint8_t pending[CAUSE_SIZE] = {0xff, 0xff};
    char why[256];
    const char *error, *set_back;
    if (test->path == NULL || write_cause(test, at, test->sheet + at)) {
        return UNDECIDED;
    }
    error = strerror(errno);
    set_back = write_cause(test, at, pending) ? "is" : "could not be";
    snprintf(why, sizeof why, "line %lu is not kept: %s; the cause %s set back to pending",
             test->line_number, error, set_back);
    return trouble(test->path, why);
}

static enum outcome no_sheet(const struct test *test, uint32_t code)
{
    char why[256];
    uint32_t number = conformity_refusal_number(code);
    snprintf(why, sizeof why, "no sheet, left as it is: refused %u at record %u: %s",
             (unsigned)number, (unsigned)conformity_refusal_record(code),
             conformity_refusal_text_sized(test->size, number));
    return trouble(test->path, why);
}

/* Else its first record could be taken for one of this size, torn or with a torn one behind it. */
static enum outcome other_size(const struct test *test)
{
    char why[64];
    snprintf(why, sizeof why, "left as it is: its records have %u bytes: see -s",
             (unsigned)conformity_other_size(test->size));
    return trouble(test->path, why);
}

/* A sheet does not stay one where the lines stand in it, or the messages are written to it. */
static int is_standard_stream(const struct stat *file)
{
    struct stat stream;
    int descriptor;
    for (descriptor = STDIN_FILENO; descriptor <= STDERR_FILENO; descriptor++) {
        if (fstat(descriptor, &stream) == 0 && stream.st_dev == file->st_dev &&
            stream.st_ino == file->st_ino) {
            return 1;
        }
    }
    return 0;
}

static int lock_file(int file)
{
    struct flock lock = {0}; /* start and length 0: the whole file, however long it grows */
    lock.l_type = F_WRLCK;
    lock.l_whence = SEEK_SET;
    return fcntl(file, F_SETLK, &lock) == 0;
}

/* 0 where the bytes are a sheet of records of this size. */
static uint32_t refusal_of(size_t size, const uint8_t *bytes, size_t length)
{
    uint8_t report[CONFORMITY_REPORT_SIZE_28];
    return conformity_report_sized(size, bytes, length, report, sizeof report);
}

/* Also with a torn record behind it, which begins with its kind. */
static int is_sheet(size_t size, const uint8_t *bytes, size_t length)
{
    size_t whole = length - length % size;
    return refusal_of(size, bytes, whole) == 0 &&
           (whole == length || bytes[whole + KIND] != NO_RECORD);
}

/* Takes the sheet that the file holds and prints how it stands; an empty file is a new sheet. */
static enum outcome resume(struct test *test)
{
    uint8_t bytes[CONFORMITY_SHEET_MAX_28 + CONFORMITY_RECORD_SIZE_28] = {0}; /* full: too long */
    size_t length, torn;
    uint32_t code;
    if (!read_file(test->file, bytes, sizeof bytes, &length)) {
        return trouble(test->path, strerror(errno));
    }
    if (is_sheet(conformity_other_size(test->size), bytes, length)) {
        return other_size(test);
    }
    torn = length % test->size;
    if (torn == length && bytes[KIND] != CONFORMITY_KIND_POLLUTANT) {
        torn = 0; /* these bytes do not begin a sheet: the library refuses them */
    }
    length -= torn;
    if (length > 0 && (code = refusal_of(test->size, bytes, length)) != 0) {
        return no_sheet(test, code);
    }
    if (lseek(test->file, (off_t)length, SEEK_SET) < 0) {
        return trouble(test->path, strerror(errno));
    }
    if (torn > 0) {
        printf("torn record of %u bytes at the end, cut by the next record\n", (unsigned)torn);
    }
    if (length == 0) {
        return UNDECIDED;
    }
    memcpy(test->sheet, bytes, length);
    test->used = length;
    test->plan = test->sheet[PLAN];
    printf("resumed after engine %u: ", (unsigned)engines_on(test));
    return print_standing(test);
}

static enum outcome open_sheet(struct test *test, const char *path)
{
    struct stat status;
    test->path = path;
    test->file = open(path, O_RDWR | O_CREAT | O_NOCTTY, 0666);
    if (test->file < 0 || fstat(test->file, &status) != 0) {
        return trouble(path, strerror(errno));
    }
    test->is_stream = !S_ISREG(status.st_mode);
    if (test->is_stream) {
        return UNDECIDED; /* reading from it might never end */
    }
    if (is_standard_stream(&status)) {
        return trouble(path, "no sheet, left as it is: it is standard input, output or error");
    }
    if (!lock_file(test->file)) {
        return trouble(path, errno == EACCES || errno == EAGAIN ? "another bench keeps this sheet"
                                                                : strerror(errno));
    }
    return resume(test);
}

/* ---- The test ---- */

/* The refusal is 0 for a line that is not understood. */
static void pass_over(struct test *test, uint32_t refusal, const char *reason)
{
    if (test->passed_over == 0) {
        test->first_passed_over = test->line_number;
    }
    test->passed_over++;
    printf("line %lu: passed over: ", test->line_number);
    if (refusal != 0) {
        printf("refused %u: ", (unsigned)refusal);
    }
    puts(reason);
}

static enum outcome refused(struct test *test, uint32_t code)
{
    uint32_t number = conformity_refusal_number(code);
    pass_over(test, number, conformity_refusal_text_sized(test->size, number));
    return UNDECIDED;
}

static enum outcome take_record(struct test *test, const uint8_t *record)
{
    uint32_t code = conformity_append_sized(test->size, test->sheet, sizeof test->sheet,
                                            test->used, record, test->size);
    if (code != 0) {
        return refused(test, code);
    }
    if (keep_record(test, record) == TROUBLE) {
        return TROUBLE;
    }
    test->used += test->size;
    if (record[KIND] == CONFORMITY_KIND_ENGINE) {
        printf("engine %u: ", (unsigned)engines_on(test));
    } else if (record[KIND] == CONFORMITY_KIND_STOP) {
        fputs("stop: ", stdout);
    } else {
        return UNDECIDED; /* a limit, a small engine or run-in values, before the first engine */
    }
    return print_standing(test);
}

/* A finding adds no record: it changes the one that stands. */
static enum outcome take_finding(struct test *test, char **words, size_t count)
{
    uint32_t engine = 0, finding = 0, code;
    const char *fault = read_finding(words, count, &engine, &finding);
    if (fault == NULL && test->is_stream) {
        fault = "the record is in a pipe or a device, and cannot be changed";
    }
    if (fault != NULL) {
        pass_over(test, 0, fault);
        return UNDECIDED;
    }
    code = conformity_finding(test->size, test->sheet, test->used, engine, finding);
    if (code != 0) {
        return refused(test, code);
    }
    if (keep_finding(test, cause_on(test, engine)) == TROUBLE) {
        return TROUBLE;
    }
    printf("finding of engine %u: ", (unsigned)engine);
    return print_standing(test);
}

/* The fault is what was wrong with the line as it was read, or NULL. */
static enum outcome take_line(struct test *test, char *line, const char *fault)
{
    uint8_t record[CONFORMITY_RECORD_SIZE_28] = {NO_RECORD};
    char *words[MOST_WORDS];
    size_t count = 0;
    char *word = strtok(line, BLANKS);
    for (; word != NULL && count < MOST_WORDS; word = strtok(NULL, BLANKS)) {
        words[count++] = word;
    }
    if (count == 0 ? fault == NULL : words[0][0] == '#') {
        return UNDECIDED; /* a comment may be longer than other lines */
    }
    if (fault == NULL && strcmp(words[0], "finding") == 0) {
        return take_finding(test, words, count);
    }
    if (fault == NULL) {
        fault = read_words(test, words, count, record);
    }
    if (fault != NULL) {
        pass_over(test, 0, fault);
        return UNDECIDED;
    }
    if (record[KIND] == NO_RECORD || stands_already(test, record)) {
        return UNDECIDED;
    }
    return take_record(test, record);
}

/* ---- Standard input ---- */

static int wait_for_input(void)
{
    struct pollfd standard_input = {STDIN_FILENO, POLLIN, 0};
    return poll(&standard_input, 1, -1) >= 0 || errno == EINTR;
}

/* By read(2): stdio takes a read that is interrupted, or has to wait, for an error. */
static void fill(struct input *input)
{
    ssize_t count;
    do {
        count = read(STDIN_FILENO, input->bytes, sizeof input->bytes);
    } while (count < 0 && (errno == EINTR || (errno == EAGAIN && wait_for_input())));
    input->error = count < 0 ? errno : 0;
    input->ended = count <= 0;
    input->count = count < 0 ? 0 : (size_t)count;
    input->next = 0;
}

static int next_byte(struct input *input)
{
    if (input->next == input->count && !input->ended) {
        fill(input);
    }
    return input->next < input->count ? input->bytes[input->next++] : EOF;
}

/*
 * Reads a line without its end, in lower case; answers 0 when there are no more. A line that a
 * failure of the input cuts off is not taken: the number that it ends in may have lost digits.
 */
static int read_line(struct input *input, char *line, size_t size, const char **fault)
{
    size_t length = 0;
    int byte = next_byte(input);
    int begun = byte != EOF;
    *fault = NULL;
    for (; byte != EOF && byte != '\n'; byte = next_byte(input)) {
        if (*fault == NULL && byte == '\0') {
            *fault = "the line has a zero byte";
        }
        if (*fault == NULL && length + 1 == size) {
            *fault = "the line is too long";
        }
        if (*fault == NULL) {
            line[length++] = (char)tolower(byte);
        }
    }
    line[length] = '\0';
    return begun && input->error == 0;
}

static enum outcome run(struct test *test)
{
    static struct input input; /* all zero: nothing read */
    char line[256];
    const char *fault;
    enum outcome outcome = UNDECIDED;
    while (outcome == UNDECIDED && read_line(&input, line, sizeof line, &fault)) {
        size_t mark = strlen(BYTE_ORDER_MARK);
        int marked = ++test->line_number == 1 && strncmp(line, BYTE_ORDER_MARK, mark) == 0;
        outcome = take_line(test, marked ? line + mark : line, fault);
    }
    if (outcome == UNDECIDED) {
        printf("undecided after engine %u\n", (unsigned)engines_on(test));
    }
    if (test->passed_over > 0) {
        printf("lines passed over: %lu, the first was line %lu\n", test->passed_over,
               test->first_passed_over);
    }
    if (input.error != 0) {
        return trouble("standard input", strerror(input.error));
    }
    return outcome == DECIDED && test->passed_over > 0 ? DECIDED_ON_LESS : outcome;
}

/* ---- The program ---- */

/*
 * The file of -o must not get the number of a standard stream that is closed: messages would be
 * written to the sheet. /dev/null opened the other way round makes reading, or writing, fail.
 */
static int open_missing_streams(void)
{
    int descriptor;
    for (descriptor = STDIN_FILENO; descriptor <= STDERR_FILENO; descriptor++) {
        if (fcntl(descriptor, F_GETFD) < 0 &&
            open("/dev/null", descriptor == STDIN_FILENO ? O_WRONLY : O_RDONLY) != descriptor) {
            return 0;
        }
    }
    return 1;
}

/* -s SIZE and -o FILE, each at most once, in either order. */
static const char *read_options(int argc, char **argv, const char **size, const char **path)
{
    int i;
    for (i = 1; i + 1 < argc; i += 2) {
        const char **option = strcmp(argv[i], "-s") == 0   ? size
                              : strcmp(argv[i], "-o") == 0 ? path
                                                           : NULL;
        if (option == NULL || *option != NULL) {
            return USAGE;
        }
        *option = argv[i + 1];
    }
    return i == argc ? NULL : USAGE;
}

/* The word is NULL where there is no -s. */
static const char *read_size(const char *word, size_t *size)
{
    uint32_t number = CONFORMITY_RECORD_SIZE;
    const char *fault = word == NULL ? NULL : read_number(word, &number);
    *size = number;
    return fault == NULL && conformity_pollutants(*size) == 0
               ? conformity_refusal_text(CONFORMITY_REFUSED_SIZE)
               : fault;
}

static enum outcome start(int argc, char **argv)
{
    static struct test test; /* all zero: an empty sheet */
    const char *size = NULL, *path = NULL, *fault;
    enum outcome outcome = UNDECIDED;
    if (!open_missing_streams()) {
        return trouble("/dev/null", strerror(errno));
    }
    signal(SIGPIPE, SIG_IGN); /* what a pipe or a file does not take is to be told: */
    signal(SIGXFSZ, SIG_IGN); /* it must not end the program */
    setvbuf(stdout, NULL, _IOLBF, BUFSIZ); /* the lines are watched as the test goes on */
    if (argc == 2 && strcmp(argv[1], "-h") == 0) {
        printf("usage: %s\n%s", USAGE, HELP);
        return HELPED;
    }
    fault = read_options(argc, argv, &size, &path);
    if (fault == NULL) {
        fault = read_size(size, &test.size);
    }
    if (fault != NULL) {
        return trouble("usage", fault);
    }
    if (path != NULL) {
        outcome = open_sheet(&test, path);
    }
    return outcome == UNDECIDED ? run(&test) : outcome;
}

int main(int argc, char **argv)
{
    enum outcome outcome = start(argc, argv);
    /* Output that fails does not stop the test, but is told at its end. */
    if (fflush(stdout) != 0 || ferror(stdout)) {
        outcome = trouble("standard output", "not every line could be written");
    }
    return (int)outcome;
}
