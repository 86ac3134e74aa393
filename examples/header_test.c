/*
 * header_test - checks include/conformity.h: every constant, builder and reader against document
 * 01's bytes and document 02's for 28-byte records, small engines and run-in values, every refusal,
 * in its order, through the library, sheets of either size and the converter between them, held
 * sheets and findings, and document 02's declared values. Prints what fails, and last a line
 * `N passed, M failed`.
 */
#include <conformity.h>

#include <stdio.h>
#include <string.h>

static unsigned passed, failed;

#define CHECK(condition) check((condition) != 0, #condition, __LINE__)
static void check(int holds, const char *condition, int line)
{
    if (holds) {
        passed++;
    } else {
        failed++;
        printf("header_test.c:%d: does not hold: %s\n", line, condition);
    }
}

static int same(const uint8_t *bytes, const uint8_t *expected, size_t length)
{
    return memcmp(bytes, expected, length) == 0;
}

/* ---- The header by itself ---- */

static void constants(void)
{
    CHECK(CONFORMITY_RECORD_SIZE == 20 && CONFORMITY_REPORT_SIZE == 20);
    CHECK(CONFORMITY_RECORDS_MAX == 39 && CONFORMITY_SHEET_MAX == 780);
    CHECK(CONFORMITY_SHEET_MAX == CONFORMITY_RECORDS_MAX * CONFORMITY_RECORD_SIZE);
    CHECK(CONFORMITY_POLLUTANTS == 4);
    CHECK(CONFORMITY_RECORD_SIZE_28 == 28 && CONFORMITY_REPORT_SIZE_28 == 28);
    CHECK(CONFORMITY_RECORDS_MAX_28 == 41 && CONFORMITY_SHEET_MAX_28 == 1148);
    CHECK(CONFORMITY_SHEET_MAX_28 == CONFORMITY_RECORDS_MAX_28 * CONFORMITY_RECORD_SIZE_28);
    CHECK(CONFORMITY_POLLUTANTS_28 == 6);
    CHECK(CONFORMITY_VALUE_MAX == 9999999);
    CHECK(CONFORMITY_DEVIATION_MAX == 4000000);
    CHECK(CONFORMITY_CAUSE_MAX == 65534 && CONFORMITY_CAUSE_PENDING == 65535);
    CHECK(CONFORMITY_TESTS_MAX == 3);
    CHECK(CONFORMITY_PARTICULATE_LIMIT == 150 && CONFORMITY_PARTICULATE_LIMIT_SMALL_ENGINE == 250);
    CHECK(CONFORMITY_REPORT_MARK == 16);
    CHECK(CONFORMITY_KIND_POLLUTANT == 1 && CONFORMITY_KIND_ENGINE == 2);
    CHECK(CONFORMITY_KIND_STOP == 3 && CONFORMITY_KIND_SMALL_ENGINE == 5);
    CHECK(CONFORMITY_KIND_RUN_IN == 6);
    CHECK(CONFORMITY_CARBON_MONOXIDE == 1 && CONFORMITY_HYDROCARBONS == 2);
    CHECK(CONFORMITY_NITROGEN_OXIDES == 3 && CONFORMITY_PARTICULATES == 4);
    CHECK(CONFORMITY_POLLUTANT_5 == 5 && CONFORMITY_POLLUTANT_6 == 6);
    CHECK(CONFORMITY_PLAN_KNOWN_DEVIATION == 1 && CONFORMITY_PLAN_UNKNOWN_DEVIATION == 2);
    CHECK(CONFORMITY_PLAN_ATTRIBUTES == 3 && CONFORMITY_PLAN_IN_SERVICE == 4);
    CHECK(CONFORMITY_PLAN_CORRECTED == 5);
    CHECK(CONFORMITY_VERDICT_ANOTHER == 0 && CONFORMITY_VERDICT_PASS == 1);
    CHECK(CONFORMITY_VERDICT_FAIL == 2 && CONFORMITY_VERDICT_REFERRED == 3);
    CHECK(CONFORMITY_VERDICT_HELD == 4);
    CHECK(CONFORMITY_GROUND_NONE == 0 && CONFORMITY_GROUND_ROW == 1);
    CHECK(CONFORMITY_GROUND_EQUAL_CAUSE == 2 && CONFORMITY_GROUND_STOPPED == 3);
    CHECK(CONFORMITY_GROUND_REFERRED == 4 && CONFORMITY_GROUND_PENDING == 5);
    CHECK(CONFORMITY_DECISION_OPEN == 0 && CONFORMITY_DECISION_PASS == 1);
    CHECK(CONFORMITY_DECISION_FAIL == 2);
}

/* Sizes that no record has; the last two are 20 and 28 in the low bytes. */
static const size_t NO_SIZES[] = {
    0, 1, 4, 19, 21, 24, 27, 29, 40, 56, 280, SIZE_MAX, SIZE_MAX / 2 + 21, SIZE_MAX / 2 + 29,
};
#define NO_SIZE_COUNT (sizeof NO_SIZES / sizeof NO_SIZES[0])

static void sizes(void)
{
    size_t i;
    CHECK(conformity_pollutants(20) == 4 && conformity_pollutants(28) == 6);
    CHECK(conformity_other_size(20) == 28 && conformity_other_size(28) == 20);
    CHECK(conformity_converted_length(20, 100) == 140);
    CHECK(conformity_converted_length(28, 140) == 100);
    CHECK(conformity_converted_length(20, CONFORMITY_SHEET_MAX) == 1092);
    CHECK(conformity_converted_length(28, 1092) == CONFORMITY_SHEET_MAX);
    CHECK(conformity_converted_length(20, 0) == 0 && conformity_converted_length(28, 0) == 0);
    for (i = 0; i < NO_SIZE_COUNT; i++) {
        CHECK(conformity_pollutants(NO_SIZES[i]) == 0);
        CHECK(conformity_other_size(NO_SIZES[i]) == 0);
        CHECK(conformity_converted_length(NO_SIZES[i], 140) == 0);
    }
}

static void builders(void)
{
    static const uint8_t pollutant[20] = {1, 4, 1, 0, 0x7f, 0x96, 0x98, 0, 0x00, 0x09, 0x3d, 0};
    static const uint8_t engine[20] = {2,    0,    0xfe, 0xff, 0x04, 0x03, 0x02, 0x01, 0, 0,
                                       0,    0,    0xff, 0xff, 0xff, 0xff, 0x7f, 0x96, 0x98, 0};
    static const uint8_t stop[20] = {3};
    static const uint8_t small_engine[20] = {5, 0, 0xbb, 0x02, 0xb9, 0x0b, 0,
                                             0, 0x82, 0xe2, 0x30, 0x01}; /* 699, 3001, 19980930 */
    static const uint8_t run_in[20] = {6,    0,    0,    0,    0x04, 0x03, 0x02, 0x01, 0, 0,
                                       0,    0,    0xff, 0xff, 0xff, 0xff, 0x7f, 0x96, 0x98, 0};
    static const uint8_t wide_pollutant[20] = {1,    255,  255,  0, 0xff, 0xff, 0xff, 0xff,
                                               0xff, 0xff, 0xff, 0xff};
    static const uint8_t pending_engine[20] = {2, 0, 0xff, 0xff};
    static const uint8_t wide_engine[20] = {2, 0xff, 0xff, 0xff};
    static const uint8_t wide_small_engine[20] = {5, 0, 0xff, 0xff, 0xff, 0xff, 0,
                                                  0, 0xff, 0xff, 0xff, 0xff};
    static const uint32_t measurements[4] = {0x01020304, 0, UINT32_MAX, CONFORMITY_VALUE_MAX};
    static const uint32_t none[4] = {0, 0, 0, 0};
    uint8_t record[CONFORMITY_RECORD_SIZE + 1]; /* and a byte that no builder may touch */

    memset(record, 0xa5, sizeof record);
    conformity_pollutant_record(record, CONFORMITY_PARTICULATES, CONFORMITY_PLAN_KNOWN_DEVIATION,
                                CONFORMITY_VALUE_MAX, CONFORMITY_DEVIATION_MAX);
    CHECK(same(record, pollutant, 20) && record[20] == 0xa5);

    memset(record, 0xa5, sizeof record);
    conformity_engine_record(record, CONFORMITY_CAUSE_MAX, measurements);
    CHECK(same(record, engine, 20) && record[20] == 0xa5);

    memset(record, 0xa5, sizeof record);
    conformity_stop_record(record);
    CHECK(same(record, stop, 20) && record[20] == 0xa5);

    memset(record, 0xa5, sizeof record);
    conformity_small_engine_record(record, 699, 3001, 19980930);
    CHECK(same(record, small_engine, 20) && record[20] == 0xa5);

    memset(record, 0xa5, sizeof record);
    conformity_run_in_record(record, measurements);
    CHECK(same(record, run_in, 20) && record[20] == 0xa5);

    /* 257 and 65536 + 7 must not become 1 and 7, nor must 65536 mark a finding that is pending. */
    conformity_pollutant_record(record, 257, 257, UINT32_MAX, UINT32_MAX);
    CHECK(same(record, wide_pollutant, 20));
    conformity_engine_record(record, CONFORMITY_CAUSE_PENDING, none);
    CHECK(same(record, pending_engine, 20));
    conformity_engine_record(record, 65536, none);
    CHECK(same(record, wide_engine, 20));
    conformity_engine_record(record, 65536 + 7, none);
    CHECK(same(record, wide_engine, 20));
    conformity_engine_record(record, UINT32_MAX, none);
    CHECK(same(record, wide_engine, 20));
    conformity_small_engine_record(record, 65536 + 699, 65536, UINT32_MAX);
    CHECK(same(record, wide_small_engine, 20));
    conformity_small_engine_record(record, 65535, 65535, UINT32_MAX);
    CHECK(same(record, wide_small_engine, 20));
}

/* The bytes from a place on are 0xa5 still. */
static int is_untouched(const uint8_t *bytes, size_t place, size_t length)
{
    while (place < length && bytes[place] == 0xa5) {
        place++;
    }
    return place == length;
}

/* The bytes of a 28-byte record; those of a 20-byte one are its first 20. For no other size is
   there a record. */
static void sized_builders(void)
{
    static const uint8_t pollutant[28] = {1, 6, 1, 0, 0x7f, 0x96, 0x98, 0, 0x00, 0x09, 0x3d, 0};
    static const uint8_t engine[28] = {2,    0,    0xfe, 0xff, 0x04, 0x03, 0x02, 0x01, 0,    0,
                                       0,    0,    0xff, 0xff, 0xff, 0xff, 0x7f, 0x96, 0x98, 0,
                                       0x08, 0x07, 0x06, 0x05, 0x0c, 0x0b, 0x0a, 0x09};
    static const uint8_t stop[28] = {3};
    static const uint8_t small_engine[28] = {5, 0, 0xbb, 0x02, 0xb9, 0x0b, 0,
                                             0, 0x82, 0xe2, 0x30, 0x01};
    static const uint8_t run_in[28] = {6,    0,    0,    0,    0x04, 0x03, 0x02, 0x01, 0,    0,
                                       0,    0,    0xff, 0xff, 0xff, 0xff, 0x7f, 0x96, 0x98, 0,
                                       0x08, 0x07, 0x06, 0x05, 0x0c, 0x0b, 0x0a, 0x09};
    static const uint32_t measurements[6] = {
        0x01020304, 0, UINT32_MAX, CONFORMITY_VALUE_MAX, 0x05060708, 0x090a0b0c,
    };
    size_t i;
    for (i = 0; i < 2 + NO_SIZE_COUNT; i++) {
        size_t size = i == 0 ? 20 : i == 1 ? 28 : NO_SIZES[i - 2];
        size_t written = i < 2 ? size : 0;
        uint8_t record[CONFORMITY_RECORD_SIZE_28 + 1];

        memset(record, 0xa5, sizeof record);
        conformity_pollutant_record_sized(size, record, CONFORMITY_POLLUTANT_6,
                                          CONFORMITY_PLAN_KNOWN_DEVIATION, CONFORMITY_VALUE_MAX,
                                          CONFORMITY_DEVIATION_MAX);
        CHECK(same(record, pollutant, written) && is_untouched(record, written, sizeof record));

        memset(record, 0xa5, sizeof record);
        conformity_engine_record_sized(size, record, CONFORMITY_CAUSE_MAX, measurements);
        CHECK(same(record, engine, written) && is_untouched(record, written, sizeof record));

        memset(record, 0xa5, sizeof record);
        conformity_stop_record_sized(size, record);
        CHECK(same(record, stop, written) && is_untouched(record, written, sizeof record));

        memset(record, 0xa5, sizeof record);
        conformity_small_engine_record_sized(size, record, 699, 3001, 19980930);
        CHECK(same(record, small_engine, written) && is_untouched(record, written, sizeof record));

        memset(record, 0xa5, sizeof record);
        conformity_run_in_record_sized(size, record, measurements);
        CHECK(same(record, run_in, written) && is_untouched(record, written, sizeof record));
    }
}

static void readers(void)
{
    static const uint8_t report[20] = {16, 2, 1, 31, 1, 3, 0, 0, 2, 31, 1, 30};
    static const uint8_t sheet[20] = {1, 4, 3};
    CHECK(conformity_is_report(report) == 1);
    CHECK(conformity_is_report(sheet) == 0);
    CHECK(conformity_report_verdict(report) == CONFORMITY_VERDICT_FAIL);
    CHECK(conformity_report_ground(report) == CONFORMITY_GROUND_ROW);
    CHECK(conformity_report_engine(report) == 31);
    CHECK(conformity_report_decision(report, 1) == CONFORMITY_DECISION_PASS);
    CHECK(conformity_report_decision(report, 2) == CONFORMITY_DECISION_OPEN);
    CHECK(conformity_report_decision(report, 3) == CONFORMITY_DECISION_FAIL);
    CHECK(conformity_report_decision(report, 4) == CONFORMITY_DECISION_PASS);
    CHECK(conformity_report_decision_engine(report, 1) == 3);
    CHECK(conformity_report_decision_engine(report, 2) == 0);
    CHECK(conformity_report_decision_engine(report, 3) == 31);
    CHECK(conformity_report_decision_engine(report, 4) == 30);
    /* No pollutant: an answer, and no reading outside the report. */
    CHECK(conformity_report_decision(report, 0) == 0);
    CHECK(conformity_report_decision(report, 5) == 0);
    CHECK(conformity_report_decision(report, UINT32_MAX) == 0);
    CHECK(conformity_report_decision_engine(report, 0) == 0);
    CHECK(conformity_report_decision_engine(report, 5) == 0);
    CHECK(conformity_report_decision_engine(report, UINT32_MAX) == 0);
}

static void sized_readers(void)
{
    static const uint8_t report[28] = {16, 2, 1, 31, 1, 3, 0, 0, 2, 31, 1, 30, 2, 29, 1, 28};
    static const uint32_t decisions[8] = {0, 1, 0, 2, 1, 2, 1, 0};
    static const uint32_t engines[8] = {0, 3, 0, 31, 30, 29, 28, 0};
    uint32_t pollutant;
    size_t i;
    CHECK(conformity_is_report(report) == 1);
    CHECK(conformity_report_verdict(report) == CONFORMITY_VERDICT_FAIL);
    CHECK(conformity_report_ground(report) == CONFORMITY_GROUND_ROW);
    CHECK(conformity_report_engine(report) == 31);
    for (pollutant = 0; pollutant < 8; pollutant++) {
        int has_four = pollutant <= 4;
        CHECK(conformity_report_decision_sized(28, report, pollutant) == decisions[pollutant]);
        CHECK(conformity_report_decision_engine_sized(28, report, pollutant) == engines[pollutant]);
        CHECK(conformity_report_decision_sized(20, report, pollutant) ==
              (has_four ? decisions[pollutant] : 0));
        CHECK(conformity_report_decision_engine_sized(20, report, pollutant) ==
              (has_four ? engines[pollutant] : 0));
    }
    CHECK(conformity_report_decision_sized(28, report, UINT32_MAX) == 0);
    CHECK(conformity_report_decision_engine_sized(28, report, UINT32_MAX) == 0);
    for (i = 0; i < NO_SIZE_COUNT; i++) {
        CHECK(conformity_report_decision_sized(NO_SIZES[i], report, 1) == 0);
        CHECK(conformity_report_decision_engine_sized(NO_SIZES[i], report, 1) == 0);
    }
}

/* Of the numbers up to the greatest refusal's. */
static int is_no_refusal(uint32_t number)
{
    return number >= 25 && number <= 29;
}

static void codes(void)
{
    uint32_t number, other;
    CHECK(conformity_refusal_number(0) == 0 && conformity_refusal_record(0) == 0);
    CHECK(conformity_refusal_number(12 * 256 + 36) == 12);
    CHECK(conformity_refusal_record(12 * 256 + 36) == 36);
    CHECK(conformity_refusal_number(15 * 256 + 255) == 15);
    CHECK(conformity_refusal_record(15 * 256 + 255) == 255);
    CHECK(CONFORMITY_REFUSED_SMALL_ENGINE == 16 && CONFORMITY_REFUSED_DATE == 17);
    CHECK(CONFORMITY_REFUSED_PARTICULATE_LIMIT == 18 && CONFORMITY_REFUSED_RUN_IN == 19);
    CHECK(conformity_refusal_number(18 * 256 + 6) == CONFORMITY_REFUSED_PARTICULATE_LIMIT);
    CHECK(conformity_refusal_record(18 * 256 + 6) == 6);
    CHECK(conformity_refusal_number(19 * 256 + 38) == CONFORMITY_REFUSED_RUN_IN);
    CHECK(conformity_refusal_record(19 * 256 + 38) == 38);
    CHECK(CONFORMITY_REFUSED_TESTS == 20 && CONFORMITY_REFUSED_VALUE == 21);
    CHECK(CONFORMITY_REFUSED_LATE_TEST == 22);
    CHECK(CONFORMITY_REFUSED_NOT_PENDING == 23 && CONFORMITY_REFUSED_FINDING == 24);
    CHECK(CONFORMITY_REFUSED_SIZE == 30 && CONFORMITY_REFUSED_NARROWING == 31);
    CHECK(CONFORMITY_REFUSED_CONVERTED_OUTPUT == 32);
    /* A sentence of its own for each number: 0, 1 to 24, 30 to 32, and one for all others. */
    for (number = 0; number <= CONFORMITY_REFUSED_CONVERTED_OUTPUT; number++) {
        CHECK(conformity_refusal_text(number)[0] != '\0');
        for (other = 0; other < number; other++) {
            CHECK((strcmp(conformity_refusal_text(number), conformity_refusal_text(other)) == 0) ==
                  (is_no_refusal(number) && is_no_refusal(other)));
        }
    }
    CHECK(strcmp(conformity_refusal_text(25), conformity_refusal_text(UINT32_MAX)) == 0);
    CHECK(strcmp(conformity_refusal_text(25), conformity_refusal_text(33)) == 0);
}

/* The sentences that speak of small engines, of run-in values and of findings. */
static void later_texts(void)
{
    CHECK(strcmp(conformity_refusal_text(CONFORMITY_REFUSED_KIND),
                 "the record's kind is not 1, 2, 3, 5 or 6") == 0);
    CHECK(strcmp(conformity_refusal_text(CONFORMITY_REFUSED_SMALL_ENGINE),
                 "the small engine is a second one, is not straight after the pollutants, "
                 "or is in plan 4") == 0);
    CHECK(strcmp(conformity_refusal_text(CONFORMITY_REFUSED_DATE),
                 "the date is no day of the years 1 to 9999") == 0);
    CHECK(strcmp(conformity_refusal_text(CONFORMITY_REFUSED_PARTICULATE_LIMIT),
                 "the particulate limit is not the one for the volume, speed and date: "
                 "250 or 150") == 0);
    CHECK(strcmp(conformity_refusal_text(CONFORMITY_REFUSED_RUN_IN),
                 "the run-in record is a second one, follows an engine, or is in plan 4") == 0);
    CHECK(strcmp(conformity_refusal_text(CONFORMITY_REFUSED_CAUSE),
                 "the cause is 0 for a gross emitter in plan 4, "
                 "or not 0 for any other engine") == 0);
    CHECK(strcmp(conformity_refusal_text(CONFORMITY_REFUSED_NOT_PENDING),
                 "the finding of that engine is not pending, or there is no such engine") == 0);
    CHECK(strcmp(conformity_refusal_text(CONFORMITY_REFUSED_FINDING),
                 "the finding is not 1 to 65534") == 0);
}

struct sized_text {
    uint32_t number;
    const char *of_20;
    const char *of_28;
};

/* The sentences that have a number of the size in them. */
static const struct sized_text SIZED_TEXTS[] = {
    {CONFORMITY_REFUSED_LENGTH, "longer than 780 bytes", "longer than 1148 bytes"},
    {CONFORMITY_REFUSED_POLLUTANT, "not 1 to 4,", "not 1 to 6,"},
    {CONFORMITY_REFUSED_RECORD, "not 20 bytes", "not 28 bytes"},
    {CONFORMITY_REFUSED_OUTPUT, "than 20 bytes", "than 28 bytes"},
};
#define SIZED_TEXT_COUNT (sizeof SIZED_TEXTS / sizeof SIZED_TEXTS[0])

static int is_sized_text(uint32_t number)
{
    size_t i;
    for (i = 0; i < SIZED_TEXT_COUNT; i++) {
        if (SIZED_TEXTS[i].number == number) {
            return 1;
        }
    }
    return 0;
}

static void sized_texts(void)
{
    uint32_t number;
    size_t i;
    for (number = 0; number <= CONFORMITY_REFUSED_CONVERTED_OUTPUT + 1; number++) {
        const char *text = conformity_refusal_text(number);
        CHECK(strcmp(conformity_refusal_text_sized(20, number), text) == 0);
        CHECK(strcmp(conformity_refusal_text_sized(24, number), text) == 0);
        CHECK((strcmp(conformity_refusal_text_sized(28, number), text) == 0) !=
              is_sized_text(number));
    }
    for (i = 0; i < SIZED_TEXT_COUNT; i++) {
        const struct sized_text *text = &SIZED_TEXTS[i];
        CHECK(strstr(conformity_refusal_text(text->number), text->of_20) != NULL);
        CHECK(strstr(conformity_refusal_text_sized(28, text->number), text->of_28) != NULL);
    }
}

/* ---- The header and the library together ---- */

/*
 * The tests that follow are made three times: through the entries that take no size, then through
 * those that do, with 20 and with 28.
 */
static size_t record_size = CONFORMITY_RECORD_SIZE;
static int size_is_named;

static uint32_t append_to(uint8_t *bytes, size_t length, size_t place, const uint8_t *record,
                          size_t record_length)
{
    return size_is_named
               ? conformity_append_sized(record_size, bytes, length, place, record, record_length)
               : conformity_append(bytes, length, place, record, record_length);
}

static uint32_t report_on(const uint8_t *sheet, size_t sheet_length, uint8_t *output,
                          size_t output_length)
{
    return size_is_named
               ? conformity_report_sized(record_size, sheet, sheet_length, output, output_length)
               : conformity_report(sheet, sheet_length, output, output_length);
}

static size_t longest(void)
{
    return record_size == CONFORMITY_RECORD_SIZE ? CONFORMITY_SHEET_MAX : CONFORMITY_SHEET_MAX_28;
}

/* A buffer longer than any sheet; its bytes are compared with a copy after each call. */
static uint8_t buffer[CONFORMITY_SHEET_MAX_28 + 2 * CONFORMITY_RECORD_SIZE_28];
static uint8_t before[sizeof buffer];
static size_t used;

static void new_sheet(void)
{
    memset(buffer, 0xa5, sizeof buffer);
    used = 0;
}

/* Appends; checks that just the record's bytes change on success, and none on a refusal. */
static uint32_t append_length(const uint8_t *record, size_t record_length, size_t buffer_length)
{
    uint32_t code;
    memcpy(before, buffer, sizeof buffer);
    code = append_to(buffer, buffer_length, used, record, record_length);
    if (code == 0) {
        memcpy(before + used, record, record_size);
        used += record_size;
    }
    CHECK(same(buffer, before, sizeof buffer));
    return code;
}

static uint32_t append(const uint8_t *record)
{
    return append_length(record, record_size, sizeof buffer);
}

static uint32_t append_pollutant(uint32_t pollutant, uint32_t plan, uint32_t limit,
                                 uint32_t deviation)
{
    uint8_t record[CONFORMITY_RECORD_SIZE_28];
    conformity_pollutant_record_sized(record_size, record, pollutant, plan, limit, deviation);
    return append(record);
}

/* An engine that measures one pollutant alone. */
static uint32_t append_measured(uint32_t pollutant, uint32_t measurement, uint32_t cause)
{
    uint32_t measurements[CONFORMITY_POLLUTANTS_28] = {0, 0, 0, 0, 0, 0};
    uint8_t record[CONFORMITY_RECORD_SIZE_28];
    measurements[pollutant - 1] = measurement;
    conformity_engine_record_sized(record_size, record, cause, measurements);
    return append(record);
}

static uint32_t append_engine(uint32_t particulates, uint32_t cause)
{
    return append_measured(CONFORMITY_PARTICULATES, particulates, cause);
}

static uint32_t append_stop(void)
{
    uint8_t record[CONFORMITY_RECORD_SIZE_28];
    conformity_stop_record_sized(record_size, record);
    return append(record);
}

static uint32_t append_small_engine(uint32_t volume, uint32_t speed, uint32_t date)
{
    uint8_t record[CONFORMITY_RECORD_SIZE_28];
    conformity_small_engine_record_sized(record_size, record, volume, speed, date);
    return append(record);
}

/* The value of particulates alone. */
static uint32_t append_run_in(uint32_t particulates)
{
    uint32_t values[CONFORMITY_POLLUTANTS_28] = {0, 0, 0, 0, 0, 0};
    uint8_t record[CONFORMITY_RECORD_SIZE_28];
    values[CONFORMITY_PARTICULATES - 1] = particulates;
    conformity_run_in_record_sized(record_size, record, values);
    return append(record);
}

static uint32_t code_of(uint32_t number, uint32_t record)
{
    return number * 256 + record;
}

/* Of each kind, every byte that must be zero. */
static void refused_zeros(void)
{
    static const uint32_t measurements[CONFORMITY_POLLUTANTS_28] = {0, 0, 0, 140, 0, 0};
    uint8_t record[CONFORMITY_RECORD_SIZE_28];
    size_t i;
    new_sheet();
    for (i = 12; i <= record_size; i++) {
        size_t byte = i < record_size ? i : 3;
        conformity_pollutant_record_sized(record_size, record, 4, 3, 150, 0);
        record[byte] = 1;
        CHECK(append(record) == code_of(CONFORMITY_REFUSED_ZERO, 0));
    }
    CHECK(append_pollutant(4, 3, 150, 0) == 0);
    for (i = 1; i < record_size; i++) {
        conformity_stop_record_sized(record_size, record);
        record[i] = 1;
        CHECK(append(record) == code_of(CONFORMITY_REFUSED_ZERO, 1));
    }
    conformity_engine_record_sized(record_size, record, 0, measurements);
    record[1] = 1;
    CHECK(append(record) == code_of(CONFORMITY_REFUSED_ZERO, 1));
    for (i = 9; i < record_size; i++) {
        size_t byte = i == 9 ? 1 : i == 10 ? 6 : i == 11 ? 7 : i;
        conformity_small_engine_record_sized(record_size, record, 700, 3000, 19981001);
        record[byte] = 1;
        CHECK(append(record) == code_of(CONFORMITY_REFUSED_ZERO, 1));
    }
    for (i = 1; i <= 3; i++) {
        conformity_run_in_record_sized(record_size, record, measurements);
        record[i] = 1;
        CHECK(append(record) == code_of(CONFORMITY_REFUSED_ZERO, 1));
    }
}

static void refused_records(void)
{
    uint8_t record[CONFORMITY_RECORD_SIZE_28] = {0};
    uint32_t pollutant;
    size_t i;
    new_sheet();
    CHECK(append(record) == code_of(CONFORMITY_REFUSED_KIND, 0));
    CHECK(append_engine(140, 0) == code_of(CONFORMITY_REFUSED_ORDER, 0));
    CHECK(append_pollutant(conformity_pollutants(record_size) + 1, 3, 150, 0) ==
          code_of(CONFORMITY_REFUSED_POLLUTANT, 0));
    CHECK(append_pollutant(257, 3, 150, 0) == code_of(CONFORMITY_REFUSED_POLLUTANT, 0));
    CHECK(append_pollutant(4, 257, 150, 0) == code_of(CONFORMITY_REFUSED_PLAN, 0));
    CHECK(append_pollutant(4, 3, 0, 0) == code_of(CONFORMITY_REFUSED_LIMIT, 0));
    CHECK(append_pollutant(4, 3, CONFORMITY_VALUE_MAX + 1, 0) ==
          code_of(CONFORMITY_REFUSED_LIMIT, 0));
    CHECK(append_pollutant(4, 3, 150, 1) == code_of(CONFORMITY_REFUSED_DEVIATION, 0));
    CHECK(append_pollutant(4, 1, 150, CONFORMITY_DEVIATION_MAX + 1) ==
          code_of(CONFORMITY_REFUSED_DEVIATION, 0));
    CHECK(append_pollutant(4, 3, CONFORMITY_VALUE_MAX, 0) == 0);
    CHECK(append_pollutant(3, 3, 150, 0) == code_of(CONFORMITY_REFUSED_POLLUTANT, 1));
    CHECK(append_engine(CONFORMITY_VALUE_MAX + 1, 0) == code_of(CONFORMITY_REFUSED_MEASUREMENT, 1));
    CHECK(append_engine(140, 1) == code_of(CONFORMITY_REFUSED_CAUSE, 1));
    CHECK(append_engine(140, CONFORMITY_CAUSE_PENDING) == code_of(CONFORMITY_REFUSED_CAUSE, 1));
    for (pollutant = 1; pollutant <= conformity_pollutants(record_size); pollutant++) {
        uint32_t measurements[CONFORMITY_POLLUTANTS_28] = {0, 0, 0, 140, 0, 0};
        measurements[pollutant - 1] = pollutant == CONFORMITY_PARTICULATES ? 0 : 1;
        conformity_engine_record_sized(record_size, record, 0, measurements);
        CHECK(append(record) == code_of(CONFORMITY_REFUSED_MEASUREMENT, 1));
    }
    for (i = 1; i <= 19; i++) {
        CHECK(append_engine(CONFORMITY_VALUE_MAX, 0) == 0);
    }
    CHECK(append_engine(140, 0) == code_of(CONFORMITY_REFUSED_ENGINES, 20));
    CHECK(append_stop() == 0);
    CHECK(append_stop() == code_of(CONFORMITY_REFUSED_ORDER, 21));

    new_sheet();
    CHECK(append_pollutant(4, CONFORMITY_PLAN_IN_SERVICE, 1000, 0) == 0);
    CHECK(append_stop() == code_of(CONFORMITY_REFUSED_STOP, 1));
    CHECK(append_engine(1501, 0) == code_of(CONFORMITY_REFUSED_CAUSE, 1));
    CHECK(append_engine(1500, CONFORMITY_CAUSE_PENDING) == code_of(CONFORMITY_REFUSED_CAUSE, 1));
    CHECK(append_engine(1501, 65536) == code_of(CONFORMITY_REFUSED_ZERO, 1));
    CHECK(append_engine(1501, 65536 + 7) == code_of(CONFORMITY_REFUSED_ZERO, 1));
    CHECK(append_engine(1500, 65536 + 7) == code_of(CONFORMITY_REFUSED_CAUSE, 1));
    CHECK(append_engine(1501, CONFORMITY_CAUSE_MAX) == 0);
    CHECK(append_engine(1501, CONFORMITY_CAUSE_PENDING) == 0);
}

static void refused_memory(void)
{
    uint8_t record[CONFORMITY_RECORD_SIZE_28 + 1] = {0};
    uint8_t output[CONFORMITY_REPORT_SIZE_28 + 1];
    uint8_t untouched[sizeof output];
    static const uint8_t nothing_yet[CONFORMITY_REPORT_SIZE_28] = {CONFORMITY_REPORT_MARK};
    size_t size = record_size;
    new_sheet();
    conformity_pollutant_record_sized(size, record, 4, 3, 150, 0);
    /* 14 before 13 before the sheet there before the joined sheet. */
    CHECK(append_length(record, size - 1, 0) == code_of(CONFORMITY_REFUSED_RECORD, 0));
    CHECK(append_length(record, size + 1, sizeof buffer) == code_of(CONFORMITY_REFUSED_RECORD, 0));
    CHECK(append_length(record, 0, sizeof buffer) == code_of(CONFORMITY_REFUSED_RECORD, 0));
    CHECK(append_length(record, conformity_other_size(size), sizeof buffer) ==
          code_of(CONFORMITY_REFUSED_RECORD, 0));
    CHECK(append_length(record, size, 0) == code_of(CONFORMITY_REFUSED_BUFFER, 0));
    CHECK(append_length(record, size, size - 1) == code_of(CONFORMITY_REFUSED_BUFFER, 0));
    used = 1;
    CHECK(append_length(record, size, size) == code_of(CONFORMITY_REFUSED_BUFFER, 0));
    CHECK(append_length(record, size, size + 1) == code_of(CONFORMITY_REFUSED_LENGTH, 0));
    used = SIZE_MAX;
    CHECK(append_to(buffer, sizeof buffer, used, record, size) ==
          code_of(CONFORMITY_REFUSED_BUFFER, 0));
    used = size; /* the sheet there is 0xa5 bytes, and the joined one has a fault in record 0 too */
    CHECK(append_length(record, size, sizeof buffer) == code_of(CONFORMITY_REFUSED_KIND, 0));
    used = 0;
    CHECK(append_length(record, size, size) == 0);

    memset(output, 0xa5, sizeof output);
    memset(untouched, 0xa5, sizeof untouched);
    CHECK(report_on(buffer, 0, output, size - 1) == code_of(CONFORMITY_REFUSED_OUTPUT, 0));
    CHECK(report_on(buffer, 0, output, size) == code_of(CONFORMITY_REFUSED_LENGTH, 0));
    CHECK(report_on(buffer, size + 1, output, size) == code_of(CONFORMITY_REFUSED_LENGTH, 0));
    CHECK(report_on(buffer, longest() + size, output, size) ==
          code_of(CONFORMITY_REFUSED_LENGTH, 0));
    CHECK(report_on(buffer, 2 * size, output, size + 1) == code_of(CONFORMITY_REFUSED_KIND, 1));
    CHECK(same(output, untouched, sizeof output));
    CHECK(report_on(buffer, size, output, size + 1) == 0);
    CHECK(same(output, nothing_yet, size) && output[size] == 0xa5);
}

/* Where a length is 0 the pointer may be null: the answers are those for any other pointer. */
static void no_memory(void)
{
    uint8_t bytes[2 * CONFORMITY_RECORD_SIZE_28];
    uint8_t *pointers[2] = {NULL, bytes};
    uint32_t refused_record = code_of(CONFORMITY_REFUSED_RECORD, 0);
    uint32_t refused_buffer = code_of(CONFORMITY_REFUSED_BUFFER, 0);
    size_t size = record_size;
    size_t i;
    conformity_pollutant_record_sized(size, bytes, CONFORMITY_PARTICULATES,
                                      CONFORMITY_PLAN_ATTRIBUTES, 150, 0);
    for (i = 0; i < 2; i++) {
        uint8_t *none = pointers[i];
        CHECK(append_to(none, 0, 0, none, 0) == refused_record);
        CHECK(append_to(none, 0, size, none, 0) == refused_record);
        CHECK(append_to(none, 0, 0, bytes, size) == refused_buffer);
        CHECK(append_to(none, 0, SIZE_MAX, bytes, size) == refused_buffer);
        CHECK(append_to(bytes, 2 * size, size, none, 0) == refused_record);
        CHECK(report_on(none, 0, none, 0) == code_of(CONFORMITY_REFUSED_OUTPUT, 0));
        CHECK(report_on(bytes, size, none, 0) == code_of(CONFORMITY_REFUSED_OUTPUT, 0));
        CHECK(report_on(none, 0, bytes + size, size) == code_of(CONFORMITY_REFUSED_LENGTH, 0));
        CHECK(conformity_convert(size, none, 0, none, 0) == code_of(CONFORMITY_REFUSED_LENGTH, 0));
        CHECK(conformity_convert(size, bytes, size, none, 0) ==
              code_of(CONFORMITY_REFUSED_CONVERTED_OUTPUT, 0));
    }
}

static void append_every_pollutant(void)
{
    uint32_t pollutant;
    for (pollutant = 1; pollutant <= conformity_pollutants(record_size); pollutant++) {
        CHECK(append_pollutant(pollutant, CONFORMITY_PLAN_UNKNOWN_DEVIATION, 150, 0) == 0);
    }
}

static const uint32_t EVERY_MEASUREMENT[CONFORMITY_POLLUTANTS_28] = {150, 150, 150, 150, 150, 150};

static uint32_t append_every_run_in(void)
{
    uint8_t record[CONFORMITY_RECORD_SIZE_28];
    conformity_run_in_record_sized(record_size, record, EVERY_MEASUREMENT);
    return append(record);
}

/* As many engines as the plan has rows, and a stop. */
static void append_every_engine(void)
{
    uint8_t record[CONFORMITY_RECORD_SIZE_28];
    int engine;
    conformity_engine_record_sized(record_size, record, 0, EVERY_MEASUREMENT);
    for (engine = 1; engine <= 32; engine++) {
        CHECK(append(record) == 0);
    }
    CHECK(append_stop() == 0);
}

/* With a record more none is longer than a sheet may be: that record is refused, not the length. */
static void shorter_by_a_kind(void)
{
    int has_small_engine, has_run_in;
    for (has_small_engine = 0; has_small_engine <= 1; has_small_engine++) {
        for (has_run_in = 0; has_run_in <= 1 - has_small_engine; has_run_in++) {
            uint32_t refused;
            new_sheet();
            append_every_pollutant();
            CHECK(!has_small_engine || append_small_engine(700, 3000, 19981001) == 0);
            CHECK(!has_run_in || append_every_run_in() == 0);
            append_every_engine();
            CHECK(used == longest() - (has_small_engine || has_run_in ? 1 : 2) * record_size);
            refused = code_of(CONFORMITY_REFUSED_ORDER, (uint32_t)(used / record_size));
            CHECK(append_stop() == refused);
            CHECK(append_small_engine(700, 3000, 19981001) == refused);
            CHECK(append_every_run_in() == refused);
        }
    }
}

/* The longest sheet there is: every pollutant, a small engine, run-in values, 32 engines and a
   stop. */
static void longest_sheet(void)
{
    uint8_t record[CONFORMITY_RECORD_SIZE_28];
    new_sheet();
    append_every_pollutant();
    CHECK(append_small_engine(700, 3000, 19981001) == 0);
    CHECK(append_every_run_in() == 0);
    append_every_engine();
    CHECK(used == longest());
    CHECK(append_stop() == code_of(CONFORMITY_REFUSED_LENGTH, 0));
    conformity_stop_record_sized(record_size, record);
    CHECK(append_length(record, record_size, longest()) == code_of(CONFORMITY_REFUSED_BUFFER, 0));
}

/* ---- The converter ---- */

/* As long as any output, and a record more. */
static uint8_t converted[CONFORMITY_SHEET_MAX_28 + CONFORMITY_RECORD_SIZE_28];

/* Converts into that many bytes of `converted`; checks that just the converted sheet is written on
   success, and nothing on a refusal. */
static uint32_t convert(size_t size, const uint8_t *sheet, size_t sheet_length,
                        size_t output_length)
{
    size_t written;
    uint32_t code;
    memset(converted, 0xa5, sizeof converted);
    code = conformity_convert(size, sheet, sheet_length, converted, output_length);
    written = code == 0 ? conformity_converted_length(size, sheet_length) : 0;
    CHECK(is_untouched(converted, written, sizeof converted));
    return code;
}

/* The sheet in the other size has the same report, but for its length, and is the sheet again when
   it is converted back. */
static void check_converted(const uint8_t *sheet_report)
{
    uint8_t other_report[CONFORMITY_REPORT_SIZE_28] = {0};
    uint8_t back[CONFORMITY_SHEET_MAX_28];
    size_t other = conformity_other_size(record_size);
    size_t length = conformity_converted_length(record_size, used);
    CHECK(convert(record_size, buffer, used, length) == 0);
    CHECK(conformity_report_sized(other, converted, length, other_report, other) == 0);
    CHECK(same(other_report, sheet_report, sizeof other_report));
    CHECK(conformity_convert(other, converted, length, back, used) == 0);
    CHECK(same(back, buffer, used));
}

/* ---- Verdicts ---- */

/* Checks the report of the sheet for particulates: verdict, ground, engine and decision. */
#define CHECK_REPORT(verdict, ground, engine, decision) \
    do { \
        uint8_t report_[CONFORMITY_REPORT_SIZE_28] = {0}; \
        CHECK(report_on(buffer, used, report_, sizeof report_) == 0); \
        CHECK(conformity_is_report(report_)); \
        CHECK(conformity_report_verdict(report_) == (verdict)); \
        CHECK(conformity_report_ground(report_) == (ground)); \
        CHECK(conformity_report_engine(report_) == (engine)); \
        CHECK(conformity_report_decision(report_, 3) == CONFORMITY_DECISION_OPEN); \
        CHECK(conformity_report_decision(report_, 4) == (decision)); \
        CHECK(conformity_report_decision_engine(report_, 4) == ((decision) == 0 ? 0u : (engine))); \
        check_converted(report_); \
    } while (0)

/* Each verdict and ground once, on document 01's own series where it has one. */
static void verdicts(void)
{
    int i;
    new_sheet();
    CHECK(append_pollutant(4, CONFORMITY_PLAN_ATTRIBUTES, 150, 0) == 0);
    CHECK_REPORT(CONFORMITY_VERDICT_ANOTHER, CONFORMITY_GROUND_NONE, 0, CONFORMITY_DECISION_OPEN);
    for (i = 0; i < 4; i++) {
        CHECK(append_engine(140, 0) == 0);
    }
    CHECK_REPORT(CONFORMITY_VERDICT_PASS, CONFORMITY_GROUND_ROW, 4, CONFORMITY_DECISION_PASS);
    CHECK(append_engine(9000, 0) == 0); /* after the decision, counted for nothing */
    CHECK_REPORT(CONFORMITY_VERDICT_PASS, CONFORMITY_GROUND_ROW, 4, CONFORMITY_DECISION_PASS);

    new_sheet();
    CHECK(append_pollutant(4, CONFORMITY_PLAN_ATTRIBUTES, 150, 0) == 0);
    CHECK(append_stop() == 0);
    CHECK_REPORT(CONFORMITY_VERDICT_FAIL, CONFORMITY_GROUND_STOPPED, 0, CONFORMITY_DECISION_OPEN);

    new_sheet();
    CHECK(append_pollutant(4, CONFORMITY_PLAN_KNOWN_DEVIATION, 4000, 440186) == 0);
    for (i = 0; i < 3; i++) {
        CHECK(append_engine(8000, 0) == 0);
    }
    CHECK_REPORT(CONFORMITY_VERDICT_FAIL, CONFORMITY_GROUND_ROW, 3, CONFORMITY_DECISION_FAIL);

    new_sheet();
    CHECK(append_pollutant(4, CONFORMITY_PLAN_IN_SERVICE, 1000, 0) == 0);
    CHECK(append_engine(1501, 7) == 0);
    CHECK(append_engine(1501, 7) == 0);
    CHECK(append_engine(1500, 0) == 0);
    CHECK_REPORT(CONFORMITY_VERDICT_FAIL, CONFORMITY_GROUND_EQUAL_CAUSE, 3,
                 CONFORMITY_DECISION_OPEN);
}

/* Two gross emitters of different causes, and others about the limit so that no row decides. */
static void referral(void)
{
    int i;
    new_sheet();
    CHECK(append_pollutant(4, CONFORMITY_PLAN_IN_SERVICE, 1000, 0) == 0);
    CHECK(append_engine(1501, 7) == 0);
    CHECK(append_engine(1501, 8) == 0);
    for (i = 3; i <= 15; i++) {
        CHECK(append_engine(i % 2 == 0 ? 1200 : 800, 0) == 0);
    }
    CHECK_REPORT(CONFORMITY_VERDICT_REFERRED, CONFORMITY_GROUND_REFERRED, 15,
                 CONFORMITY_DECISION_OPEN);
}

/* Of limit 2000: 2000, then fifteen times 4000, 1000. */
static void thirty_one_engines(uint32_t plan)
{
    int i;
    new_sheet();
    CHECK(append_pollutant(4, plan, 2000, 0) == 0);
    CHECK(append_engine(2000, 0) == 0);
    for (i = 0; i < 15; i++) {
        CHECK(append_engine(4000, 0) == 0);
        CHECK(append_engine(1000, 0) == 0);
    }
}

/* Row 31 passes in the corrected sheet alone. A stop is taken as in plan 2, and no plan is 6. */
static void corrected_sheet(void)
{
    thirty_one_engines(CONFORMITY_PLAN_UNKNOWN_DEVIATION);
    CHECK_REPORT(CONFORMITY_VERDICT_ANOTHER, CONFORMITY_GROUND_NONE, 31, CONFORMITY_DECISION_OPEN);
    CHECK(append_stop() == 0);
    CHECK_REPORT(CONFORMITY_VERDICT_FAIL, CONFORMITY_GROUND_STOPPED, 31, CONFORMITY_DECISION_OPEN);

    thirty_one_engines(CONFORMITY_PLAN_CORRECTED);
    CHECK_REPORT(CONFORMITY_VERDICT_PASS, CONFORMITY_GROUND_ROW, 31, CONFORMITY_DECISION_PASS);
    CHECK(append_stop() == 0);
    CHECK_REPORT(CONFORMITY_VERDICT_PASS, CONFORMITY_GROUND_ROW, 31, CONFORMITY_DECISION_PASS);

    new_sheet();
    CHECK(append_pollutant(4, CONFORMITY_PLAN_CORRECTED + 1, 2000, 0) ==
          code_of(CONFORMITY_REFUSED_PLAN, 0));
}

static void three_engines(uint32_t limit, uint32_t reading)
{
    int i;
    new_sheet();
    CHECK(append_pollutant(4, CONFORMITY_PLAN_UNKNOWN_DEVIATION, limit, 0) == 0);
    for (i = 0; i < 3; i++) {
        CHECK(append_engine(reading, 0) == 0);
    }
}

/* The logarithm of 9000001 is that of 9000000, and that of 9000002 is higher. */
static void finer_logarithm(void)
{
    three_engines(9000000, 9000001);
    CHECK_REPORT(CONFORMITY_VERDICT_PASS, CONFORMITY_GROUND_ROW, 3, CONFORMITY_DECISION_PASS);
    three_engines(9000000, 9000002);
    CHECK_REPORT(CONFORMITY_VERDICT_FAIL, CONFORMITY_GROUND_ROW, 3, CONFORMITY_DECISION_FAIL);
    three_engines(9000000, 9000010);
    CHECK_REPORT(CONFORMITY_VERDICT_FAIL, CONFORMITY_GROUND_ROW, 3, CONFORMITY_DECISION_FAIL);
}

/* ---- Document 02, F-1: small engines ---- */

struct small_engine_case {
    uint32_t limit; /* of particulates */
    uint32_t volume;
    uint32_t speed;
    uint32_t date;
    uint32_t number; /* of the refusal, or 0 */
};

static const struct small_engine_case SMALL_ENGINE_CASES[] = {
    {250, 699, 3001, 19980930, 0},
    {250, 699, 3001, 19981001, CONFORMITY_REFUSED_PARTICULATE_LIMIT},
    {250, 700, 3001, 19980930, CONFORMITY_REFUSED_PARTICULATE_LIMIT},
    {250, 699, 3000, 19980930, CONFORMITY_REFUSED_PARTICULATE_LIMIT},
    {150, 699, 3001, 19980930, CONFORMITY_REFUSED_PARTICULATE_LIMIT},
    {150, 699, 3001, 19981001, 0},
    {150, 700, 3001, 19980930, 0},
    {150, 699, 3000, 19980930, 0},
    {249, 699, 3001, 19980930, CONFORMITY_REFUSED_PARTICULATE_LIMIT},
    {251, 699, 3001, 19980930, CONFORMITY_REFUSED_PARTICULATE_LIMIT},
    {149, 700, 3000, 19981001, CONFORMITY_REFUSED_PARTICULATE_LIMIT},
    {151, 700, 3000, 19981001, CONFORMITY_REFUSED_PARTICULATE_LIMIT},
    /* Volume and speed have no range. */
    {150, 0, 0, 19980930, 0},
    {250, 0, 65535, 19980930, 0},
    {150, 65535, 65535, 19980930, 0},
    /* 65536 + 699 and 65536 must not become 699 and 0. */
    {250, 65536 + 699, 3001, 19980930, CONFORMITY_REFUSED_PARTICULATE_LIMIT},
    {150, 65536 + 699, 3001, 19980930, 0},
    {250, 699, 65536, 19980930, 0},
    {150, 699, 65536, 19980930, CONFORMITY_REFUSED_PARTICULATE_LIMIT},
    {150, UINT32_MAX, UINT32_MAX, 19981001, 0},
    /* Days, and numbers that are none; with a number that is none the limit is not asked about. */
    {250, 699, 3001, 10101, 0},
    {150, 699, 3001, 99991231, 0},
    {250, 699, 3001, 40229, 0},
    {250, 699, 3001, 4000229, 0},
    {250, 699, 3001, 19960229, 0},
    {150, 699, 3001, 20000229, 0},
    {250, 699, 3001, 0, CONFORMITY_REFUSED_DATE},
    {250, 699, 3001, 101, CONFORMITY_REFUSED_DATE},
    {250, 699, 3001, 10001, CONFORMITY_REFUSED_DATE},
    {250, 699, 3001, 10100, CONFORMITY_REFUSED_DATE},
    {250, 699, 3001, 1000229, CONFORMITY_REFUSED_DATE},
    {250, 699, 3001, 19000229, CONFORMITY_REFUSED_DATE},
    {250, 699, 3001, 19970229, CONFORMITY_REFUSED_DATE},
    {250, 699, 3001, 19960230, CONFORMITY_REFUSED_DATE},
    {250, 699, 3001, 19980431, CONFORMITY_REFUSED_DATE},
    {250, 699, 3001, 19980931, CONFORMITY_REFUSED_DATE},
    {250, 699, 3001, 19980132, CONFORMITY_REFUSED_DATE},
    {250, 699, 3001, 19981301, CONFORMITY_REFUSED_DATE},
    {250, 699, 3001, 100000101, CONFORMITY_REFUSED_DATE},
    {250, 699, 3001, UINT32_MAX, CONFORMITY_REFUSED_DATE},
    {999, 699, 3001, 19980931, CONFORMITY_REFUSED_DATE},
};

static void small_engine_cases(void)
{
    size_t i;
    for (i = 0; i < sizeof SMALL_ENGINE_CASES / sizeof SMALL_ENGINE_CASES[0]; i++) {
        const struct small_engine_case *c = &SMALL_ENGINE_CASES[i];
        uint32_t refused = c->number == 0 ? 0 : code_of(c->number, 1);
        new_sheet();
        CHECK(append_pollutant(4, CONFORMITY_PLAN_ATTRIBUTES, c->limit, 0) == 0);
        CHECK(append_small_engine(c->volume, c->speed, c->date) == refused);
    }
}

/* The record counts as no engine, and the sheet is judged by the limit that it declares. */
static void small_engine_verdicts(void)
{
    int i;
    new_sheet();
    CHECK(append_pollutant(4, CONFORMITY_PLAN_ATTRIBUTES, 250, 0) == 0);
    CHECK(append_small_engine(699, 3001, 19980930) == 0);
    CHECK_REPORT(CONFORMITY_VERDICT_ANOTHER, CONFORMITY_GROUND_NONE, 0, CONFORMITY_DECISION_OPEN);
    for (i = 0; i < 4; i++) {
        CHECK(append_engine(140, 0) == 0);
    }
    CHECK_REPORT(CONFORMITY_VERDICT_PASS, CONFORMITY_GROUND_ROW, 4, CONFORMITY_DECISION_PASS);
    for (i = 5; i <= 19; i++) {
        CHECK(append_engine(140, 0) == 0);
    }
    CHECK(append_engine(140, 0) == code_of(CONFORMITY_REFUSED_ENGINES, 21));

    new_sheet();
    CHECK(append_pollutant(4, CONFORMITY_PLAN_ATTRIBUTES, 150, 0) == 0);
    CHECK(append_small_engine(699, 3001, 19981001) == 0);
    CHECK(append_engine(250, 0) == 0);
    CHECK(append_engine(250, 0) == 0);
    CHECK_REPORT(CONFORMITY_VERDICT_ANOTHER, CONFORMITY_GROUND_NONE, 2, CONFORMITY_DECISION_OPEN);
    CHECK(append_engine(250, 0) == 0);
    CHECK_REPORT(CONFORMITY_VERDICT_FAIL, CONFORMITY_GROUND_ROW, 3, CONFORMITY_DECISION_FAIL);

    new_sheet();
    CHECK(append_pollutant(4, CONFORMITY_PLAN_KNOWN_DEVIATION, 150, 1) == 0);
    CHECK(append_small_engine(700, 3000, 19981001) == 0);
    CHECK(append_stop() == 0);
    CHECK_REPORT(CONFORMITY_VERDICT_FAIL, CONFORMITY_GROUND_STOPPED, 0, CONFORMITY_DECISION_OPEN);
}

/* Of other pollutants no limit is asked for, and the date is a day all the same. */
static void no_particulates(void)
{
    new_sheet();
    CHECK(append_pollutant(1, CONFORMITY_PLAN_CORRECTED, 999, 0) == 0);
    CHECK(append_pollutant(3, CONFORMITY_PLAN_CORRECTED, 999, 0) == 0);
    CHECK(append_small_engine(699, 3001, 19980931) == code_of(CONFORMITY_REFUSED_DATE, 2));
    CHECK(append_small_engine(699, 3001, 19980930) == 0);

    new_sheet();
    CHECK(append_pollutant(3, CONFORMITY_PLAN_ATTRIBUTES, 999, 0) == 0);
    CHECK(append_pollutant(4, CONFORMITY_PLAN_ATTRIBUTES, 250, 0) == 0);
    CHECK(append_small_engine(700, 3001, 19980930) ==
          code_of(CONFORMITY_REFUSED_PARTICULATE_LIMIT, 2));
    CHECK(append_small_engine(699, 3001, 19980930) == 0);
}

/* Straight after the pollutants, once, not in plan 4; and no record is of kind 4 or 7. */
static void misplaced_small_engines(void)
{
    uint8_t record[CONFORMITY_RECORD_SIZE_28];
    new_sheet();
    CHECK(append_small_engine(699, 3001, 19980930) == code_of(CONFORMITY_REFUSED_ORDER, 0));
    CHECK(append_pollutant(3, CONFORMITY_PLAN_ATTRIBUTES, 250, 0) == 0);
    conformity_small_engine_record_sized(record_size, record, 699, 3001, 19980930);
    record[0] = 4;
    CHECK(append(record) == code_of(CONFORMITY_REFUSED_KIND, 1));
    record[0] = 7;
    CHECK(append(record) == code_of(CONFORMITY_REFUSED_KIND, 1));
    CHECK(append_small_engine(699, 3001, 19980930) == 0);
    CHECK(append_small_engine(699, 3001, 19980930) == code_of(CONFORMITY_REFUSED_SMALL_ENGINE, 2));
    CHECK(append_pollutant(4, CONFORMITY_PLAN_ATTRIBUTES, 250, 0) ==
          code_of(CONFORMITY_REFUSED_ORDER, 2));
    CHECK(append_measured(3, 140, 0) == 0);
    CHECK(append_small_engine(699, 3001, 19980930) == code_of(CONFORMITY_REFUSED_SMALL_ENGINE, 3));

    new_sheet();
    CHECK(append_pollutant(4, CONFORMITY_PLAN_ATTRIBUTES, 250, 0) == 0);
    CHECK(append_engine(140, 0) == 0);
    CHECK(append_small_engine(699, 3001, 19980930) == code_of(CONFORMITY_REFUSED_SMALL_ENGINE, 2));
    CHECK(append_stop() == 0);
    CHECK(append_small_engine(699, 3001, 19980930) == code_of(CONFORMITY_REFUSED_ORDER, 3));

    new_sheet();
    CHECK(append_pollutant(4, CONFORMITY_PLAN_IN_SERVICE, 250, 0) == 0);
    CHECK(append_small_engine(699, 3001, 19980930) == code_of(CONFORMITY_REFUSED_SMALL_ENGINE, 1));
}

/* The first in the order 2, 3, 16, 17, 18, 12 of a small engine with each later fault too. */
static void small_engine_order(void)
{
    uint8_t record[CONFORMITY_RECORD_SIZE_28];
    conformity_small_engine_record_sized(record_size, record, 699, 3001, 0);
    record[1] = 1;
    new_sheet();
    record[0] = 4;
    CHECK(append(record) == code_of(CONFORMITY_REFUSED_KIND, 0));
    record[0] = CONFORMITY_KIND_SMALL_ENGINE;
    CHECK(append(record) == code_of(CONFORMITY_REFUSED_ORDER, 0));
    CHECK(append_pollutant(4, CONFORMITY_PLAN_IN_SERVICE, 999, 0) == 0);
    CHECK(append(record) == code_of(CONFORMITY_REFUSED_SMALL_ENGINE, 1));

    new_sheet();
    CHECK(append_pollutant(4, CONFORMITY_PLAN_ATTRIBUTES, 250, 0) == 0);
    CHECK(append(record) == code_of(CONFORMITY_REFUSED_DATE, 1));
    conformity_small_engine_record_sized(record_size, record, 699, 3001, 19981001);
    record[1] = 1;
    CHECK(append(record) == code_of(CONFORMITY_REFUSED_PARTICULATE_LIMIT, 1));
    conformity_small_engine_record_sized(record_size, record, 699, 3001, 19980930);
    record[1] = 1;
    CHECK(append(record) == code_of(CONFORMITY_REFUSED_ZERO, 1));
}

/* The sheet in the buffer is refused by every entry alike, and append names the faulty record. */
static void refused_by_all(uint32_t refused)
{
    uint8_t record[CONFORMITY_RECORD_SIZE_28], report[CONFORMITY_REPORT_SIZE_28];
    memset(report, 0xa5, sizeof report);
    CHECK(report_on(buffer, used, report, sizeof report) == refused);
    CHECK(is_untouched(report, 0, sizeof report));
    CHECK(convert(record_size, buffer, used, 0) == refused);
    CHECK(conformity_finding(record_size, buffer, used, 0, 0) == refused);
    CHECK(append_stop() == refused);
    /* 14 and 13 come before it, and 15. */
    conformity_stop_record_sized(record_size, record);
    CHECK(append_length(record, record_size - 1, 0) == code_of(CONFORMITY_REFUSED_RECORD, 0));
    CHECK(append_length(record, record_size, used) == code_of(CONFORMITY_REFUSED_BUFFER, 0));
    CHECK(report_on(buffer, used, report, record_size - 1) ==
          code_of(CONFORMITY_REFUSED_OUTPUT, 0));
}

static void refused_small_engine_sheet(uint32_t number, uint32_t date)
{
    new_sheet();
    CHECK(append_pollutant(4, CONFORMITY_PLAN_ATTRIBUTES, 250, 0) == 0);
    conformity_small_engine_record_sized(record_size, buffer + used, 699, 3001, date);
    used += record_size;
    refused_by_all(code_of(number, 1));
}

static void small_engines(void)
{
    small_engine_cases();
    small_engine_verdicts();
    no_particulates();
    misplaced_small_engines();
    small_engine_order();
    refused_small_engine_sheet(CONFORMITY_REFUSED_DATE, 19980931);
    refused_small_engine_sheet(CONFORMITY_REFUSED_PARTICULATE_LIMIT, 19981001);
}

/* ---- Document 02, F-2: run-in engines ---- */

/* A series of particulates, and how it stands after so many engines. */
struct run_in_case {
    uint32_t plan;
    uint32_t limit;
    uint32_t deviation;
    uint32_t value; /* of the first engine after running-in */
    uint32_t engines[5];
    size_t count;
    uint32_t verdict;
    uint32_t engine;
};

static const struct run_in_case RUN_IN_CASES[] = {
    /* Plan 3: measurement * 90 is above 100 * 100 from 112 on. */
    {3, 100, 0, 90, {100, 110, 111, 111}, 3, CONFORMITY_VERDICT_ANOTHER, 3},
    {3, 100, 0, 90, {100, 110, 111, 111}, 4, CONFORMITY_VERDICT_PASS, 4},
    {3, 100, 0, 90, {100, 110, 111, 112}, 4, CONFORMITY_VERDICT_ANOTHER, 4},
    {3, 100, 0, 90, {100, 110, 111, 111, CONFORMITY_VALUE_MAX}, 5, CONFORMITY_VERDICT_PASS, 4},
    /* The first engine counts as its value after running-in. */
    {3, 100, 0, 100, {1, 1, 1, 1}, 4, CONFORMITY_VERDICT_PASS, 4},
    {3, 100, 0, 101, {1, 1, 1}, 3, CONFORMITY_VERDICT_FAIL, 3},
    {3, 100, 0, 100, {CONFORMITY_VALUE_MAX, 1, 1, 1}, 4, CONFORMITY_VERDICT_PASS, 4},
    {3, 100, 0, 100, {1, 1, 1, 2}, 4, CONFORMITY_VERDICT_ANOTHER, 4},
    /* Lower first measurements make the others count for more. */
    {3, 1, 0, 1, {2, 1, 1, 2}, 4, CONFORMITY_VERDICT_PASS, 4},
    {3, 1, 0, 1, {1, 1, 1, 2}, 4, CONFORMITY_VERDICT_ANOTHER, 4},
    /* The greatest products, equal and not. */
    {3, CONFORMITY_VALUE_MAX, 0, CONFORMITY_VALUE_MAX, {9999998, 9999998, 9999998, 9999998}, 4,
     CONFORMITY_VERDICT_PASS, 4},
    {3, CONFORMITY_VALUE_MAX, 0, CONFORMITY_VALUE_MAX,
     {9999998, CONFORMITY_VALUE_MAX, CONFORMITY_VALUE_MAX, CONFORMITY_VALUE_MAX,
      CONFORMITY_VALUE_MAX},
     5, CONFORMITY_VERDICT_FAIL, 5},
    /* Products about 4,294,967,296, which 32 bits do not hold. */
    {3, 65536, 0, 65535, {65536, 65537, 65537, 65537}, 4, CONFORMITY_VERDICT_PASS, 4},
    {3, 65535, 0, 65536, {65537, 65536, 65536}, 3, CONFORMITY_VERDICT_FAIL, 3},
    /* Plan 1: run in to half and to twice the limit, and on a line of 4100, 4200, 3900. */
    {1, 4000, 625020, 2000, {4000, 4000, 4000}, 3, CONFORMITY_VERDICT_PASS, 3},
    {1, 4000, 625021, 2000, {4000, 4000, 4000}, 3, CONFORMITY_VERDICT_ANOTHER, 3},
    {1, 4000, 440186, 8000, {4000, 4000, 4000}, 3, CONFORMITY_VERDICT_FAIL, 3},
    {1, 4000, 440187, 8000, {4000, 4000, 4000}, 3, CONFORMITY_VERDICT_ANOTHER, 3},
    {1, 4000, 78087, 3700, {4100, 4200, 3900}, 3, CONFORMITY_VERDICT_PASS, 3},
    {1, 4000, 78088, 3700, {4100, 4200, 3900}, 3, CONFORMITY_VERDICT_ANOTHER, 3},
    {1, 4000, 625020, 2000, {0}, 0, CONFORMITY_VERDICT_ANOTHER, 0},
    /* Plans 2 and 5. */
    {2, 4000, 0, 4000, {8000, 8000, 8000}, 3, CONFORMITY_VERDICT_PASS, 3},
    {2, 4000, 0, 4000, {8000, 8000, 4000}, 3, CONFORMITY_VERDICT_ANOTHER, 3},
    {2, 4000, 0, 8000, {4000, 4000, 4000}, 3, CONFORMITY_VERDICT_FAIL, 3},
    {2, 4000, 0, 8000, {4000, 4000, 8000}, 3, CONFORMITY_VERDICT_ANOTHER, 3},
    {2, 9000000, 0, 9000001, {1, 1, 1}, 3, CONFORMITY_VERDICT_PASS, 3},
    {2, 9000000, 0, 9000002, {1, 1, 1}, 3, CONFORMITY_VERDICT_FAIL, 3},
    {5, 4000, 0, 4000, {8000, 8000, 8000}, 3, CONFORMITY_VERDICT_PASS, 3},
    {5, 4000, 0, 8000, {4000, 4000, 4000}, 3, CONFORMITY_VERDICT_FAIL, 3},
};

static void run_in_cases(void)
{
    size_t i, j;
    for (i = 0; i < sizeof RUN_IN_CASES / sizeof RUN_IN_CASES[0]; i++) {
        const struct run_in_case *c = &RUN_IN_CASES[i];
        uint32_t ground = c->verdict == CONFORMITY_VERDICT_ANOTHER ? CONFORMITY_GROUND_NONE
                                                                   : CONFORMITY_GROUND_ROW;
        new_sheet();
        CHECK(append_pollutant(4, c->plan, c->limit, c->deviation) == 0);
        CHECK(append_run_in(c->value) == 0);
        for (j = 0; j < c->count; j++) {
            CHECK(append_engine(c->engines[j], 0) == 0);
        }
        /* With one pollutant its decision has the verdict's number. */
        CHECK_REPORT(c->verdict, ground, c->engine, c->verdict);
    }
}

/* The record counts as no engine, also behind a small engine; a stop straight after it fails. */
static void run_in_is_no_engine(void)
{
    int i;
    new_sheet();
    CHECK(append_pollutant(4, CONFORMITY_PLAN_ATTRIBUTES, 150, 0) == 0);
    CHECK(append_small_engine(700, 3000, 19981001) == 0);
    CHECK(append_run_in(150) == 0);
    CHECK_REPORT(CONFORMITY_VERDICT_ANOTHER, CONFORMITY_GROUND_NONE, 0, CONFORMITY_DECISION_OPEN);
    for (i = 1; i <= 19; i++) {
        CHECK(append_engine(300, 0) == 0);
    }
    CHECK_REPORT(CONFORMITY_VERDICT_PASS, CONFORMITY_GROUND_ROW, 4, CONFORMITY_DECISION_PASS);
    CHECK(append_engine(300, 0) == code_of(CONFORMITY_REFUSED_ENGINES, 22));

    new_sheet();
    CHECK(append_pollutant(4, CONFORMITY_PLAN_KNOWN_DEVIATION, 4000, 625020) == 0);
    CHECK(append_run_in(2000) == 0);
    CHECK(append_stop() == 0);
    CHECK_REPORT(CONFORMITY_VERDICT_FAIL, CONFORMITY_GROUND_STOPPED, 0, CONFORMITY_DECISION_OPEN);
}

/* Refused as an engine's measurements are. */
static void refused_run_in_values(void)
{
    uint8_t record[CONFORMITY_RECORD_SIZE_28];
    uint32_t refused = code_of(CONFORMITY_REFUSED_MEASUREMENT, 1), pollutant;
    new_sheet();
    CHECK(append_pollutant(4, CONFORMITY_PLAN_ATTRIBUTES, 150, 0) == 0);
    CHECK(append_run_in(0) == refused);
    CHECK(append_run_in(CONFORMITY_VALUE_MAX + 1) == refused);
    CHECK(append_run_in(UINT32_MAX) == refused);
    for (pollutant = 1; pollutant <= conformity_pollutants(record_size); pollutant++) {
        uint32_t values[CONFORMITY_POLLUTANTS_28] = {0, 0, 0, 140, 0, 0};
        values[pollutant - 1] = pollutant == CONFORMITY_PARTICULATES ? 0 : 1;
        conformity_run_in_record_sized(record_size, record, values);
        CHECK(append(record) == refused);
    }
    CHECK(append_run_in(CONFORMITY_VALUE_MAX) == 0);
}

/* Before the first engine, behind the pollutants and the small engine, once, not in plan 4. */
static void misplaced_run_ins(void)
{
    new_sheet();
    CHECK(append_run_in(90) == code_of(CONFORMITY_REFUSED_ORDER, 0));
    CHECK(append_pollutant(4, CONFORMITY_PLAN_ATTRIBUTES, 150, 0) == 0);
    CHECK(append_run_in(90) == 0);
    CHECK(append_run_in(90) == code_of(CONFORMITY_REFUSED_RUN_IN, 2));
    CHECK(append_small_engine(700, 3000, 19981001) == code_of(CONFORMITY_REFUSED_SMALL_ENGINE, 2));
    CHECK(append_pollutant(4, CONFORMITY_PLAN_ATTRIBUTES, 150, 0) ==
          code_of(CONFORMITY_REFUSED_ORDER, 2));
    CHECK(append_engine(140, 0) == 0);
    CHECK(append_run_in(90) == code_of(CONFORMITY_REFUSED_RUN_IN, 3));
    CHECK(append_stop() == 0);
    CHECK(append_run_in(90) == code_of(CONFORMITY_REFUSED_ORDER, 4));

    new_sheet();
    CHECK(append_pollutant(4, CONFORMITY_PLAN_ATTRIBUTES, 150, 0) == 0);
    CHECK(append_engine(140, 0) == 0);
    CHECK(append_run_in(90) == code_of(CONFORMITY_REFUSED_RUN_IN, 2));

    new_sheet();
    CHECK(append_pollutant(4, CONFORMITY_PLAN_ATTRIBUTES, 150, 0) == 0);
    CHECK(append_stop() == 0);
    CHECK(append_run_in(90) == code_of(CONFORMITY_REFUSED_ORDER, 2));

    new_sheet();
    CHECK(append_pollutant(4, CONFORMITY_PLAN_IN_SERVICE, 150, 0) == 0);
    CHECK(append_run_in(90) == code_of(CONFORMITY_REFUSED_RUN_IN, 1));
}

/* The first in the order 2, 3, 19, 8, 12 of run-in values with each later fault too. */
static void run_in_order(void)
{
    static const uint32_t none[CONFORMITY_POLLUTANTS_28] = {0, 0, 0, 0, 0, 0};
    uint8_t record[CONFORMITY_RECORD_SIZE_28];
    conformity_run_in_record_sized(record_size, record, none);
    record[1] = 1;
    new_sheet();
    record[0] = 7;
    CHECK(append(record) == code_of(CONFORMITY_REFUSED_KIND, 0));
    record[0] = CONFORMITY_KIND_RUN_IN;
    CHECK(append(record) == code_of(CONFORMITY_REFUSED_ORDER, 0));
    CHECK(append_pollutant(4, CONFORMITY_PLAN_IN_SERVICE, 150, 0) == 0);
    CHECK(append(record) == code_of(CONFORMITY_REFUSED_RUN_IN, 1));

    new_sheet();
    CHECK(append_pollutant(4, CONFORMITY_PLAN_ATTRIBUTES, 150, 0) == 0);
    CHECK(append(record) == code_of(CONFORMITY_REFUSED_MEASUREMENT, 1));
    record[16] = 1; /* particulates */
    CHECK(append(record) == code_of(CONFORMITY_REFUSED_ZERO, 1));
    record[1] = 0;
    CHECK(append(record) == 0);
}

static void refused_run_in_sheet(void)
{
    new_sheet();
    CHECK(append_pollutant(4, CONFORMITY_PLAN_ATTRIBUTES, 150, 0) == 0);
    CHECK(append_run_in(90) == 0);
    memcpy(buffer + used, buffer + used - record_size, record_size);
    used += record_size;
    refused_by_all(code_of(CONFORMITY_REFUSED_RUN_IN, 2));
}

static void run_in_engines(void)
{
    run_in_cases();
    run_in_is_no_engine();
    refused_run_in_values();
    misplaced_run_ins();
    run_in_order();
    refused_run_in_sheet();
}

/* ---- Document 02, F-5: held sheets and findings ---- */

/* Enters a finding; checks that just the two bytes of the engine's cause change on success, the
   lower first, and none on a refusal. */
static uint32_t enter(uint32_t engine, uint32_t finding)
{
    uint32_t code;
    memcpy(before, buffer, sizeof buffer);
    code = conformity_finding(record_size, buffer, used, engine, finding);
    if (code == 0) {
        size_t cause = record_size * engine + 2; /* behind one pollutant */
        before[cause] = finding & 0xffu;
        before[cause + 1] = (finding >> 8) & 0xffu;
    }
    CHECK(same(buffer, before, sizeof buffer));
    return code;
}

#define CHECK_HELD(engine) \
    CHECK_REPORT(CONFORMITY_VERDICT_HELD, CONFORMITY_GROUND_PENDING, engine, \
                 CONFORMITY_DECISION_OPEN)

/* The request's sheet: 1600, pending; 900; 1600 of this cause, of limit 1000. */
static void sheet_with_a_pending_vehicle(uint32_t cause)
{
    new_sheet();
    CHECK(append_pollutant(4, CONFORMITY_PLAN_IN_SERVICE, 1000, 0) == 0);
    CHECK(append_engine(1600, CONFORMITY_CAUSE_PENDING) == 0);
    CHECK(append_engine(900, 0) == 0);
    CHECK_REPORT(CONFORMITY_VERDICT_ANOTHER, CONFORMITY_GROUND_NONE, 2, CONFORMITY_DECISION_OPEN);
    CHECK(append_engine(1600, cause) == 0);
    CHECK_HELD(3);
}

static void findings(void)
{
    sheet_with_a_pending_vehicle(7);
    CHECK(enter(1, 7) == 0);
    CHECK_REPORT(CONFORMITY_VERDICT_FAIL, CONFORMITY_GROUND_EQUAL_CAUSE, 3,
                 CONFORMITY_DECISION_OPEN);
    CHECK(enter(1, 8) == code_of(CONFORMITY_REFUSED_NOT_PENDING, 0)); /* it is known now */

    sheet_with_a_pending_vehicle(7);
    CHECK(enter(1, 8) == 0);
    CHECK_REPORT(CONFORMITY_VERDICT_ANOTHER, CONFORMITY_GROUND_NONE, 3, CONFORMITY_DECISION_OPEN);

    /* Two pending ones are not equal; each is found by itself, in any order. */
    sheet_with_a_pending_vehicle(CONFORMITY_CAUSE_PENDING);
    CHECK(enter(3, CONFORMITY_CAUSE_MAX) == 0);
    CHECK_HELD(3);
    CHECK(enter(1, 256) == 0);
    CHECK_REPORT(CONFORMITY_VERDICT_ANOTHER, CONFORMITY_GROUND_NONE, 3, CONFORMITY_DECISION_OPEN);
}

static void refused_findings(void)
{
    static const uint32_t none[] = {0, 2, 3, 4, 257, 65537, UINT32_MAX};
    static const uint32_t wrong[] = {0, CONFORMITY_CAUSE_PENDING, 65536, 65536 + 7, UINT32_MAX};
    size_t i;
    sheet_with_a_pending_vehicle(7);
    for (i = 0; i < sizeof none / sizeof none[0]; i++) {
        CHECK(enter(none[i], 7) == code_of(CONFORMITY_REFUSED_NOT_PENDING, 0));
        CHECK(enter(none[i], 0) == code_of(CONFORMITY_REFUSED_NOT_PENDING, 0)); /* before 24 */
    }
    for (i = 0; i < sizeof wrong / sizeof wrong[0]; i++) {
        CHECK(enter(1, wrong[i]) == code_of(CONFORMITY_REFUSED_FINDING, 0));
    }
    CHECK(enter(1, 1) == 0);

    sheet_with_a_pending_vehicle(7);
    buffer[3 * record_size + 1] = 1; /* of the last engine, where it must be zero */
    CHECK(enter(1, 0) == code_of(CONFORMITY_REFUSED_ZERO, 3));
    used--;
    CHECK(enter(1, 7) == code_of(CONFORMITY_REFUSED_LENGTH, 0));
    CHECK(conformity_finding(record_size, NULL, 0, 1, 7) == code_of(CONFORMITY_REFUSED_LENGTH, 0));
}

/* Vehicles behind the row are counted for nothing: equal causes there, and one of which it is found
   later. */
static void vehicles_behind(void)
{
    sheet_with_a_pending_vehicle(7);
    CHECK(append_engine(1600, 7) == 0);
    CHECK(append_engine(1600, CONFORMITY_CAUSE_PENDING) == 0);
    CHECK_HELD(3);
    CHECK(enter(5, 7) == 0);
    CHECK_HELD(3);
    CHECK(enter(1, 8) == 0);
    CHECK_REPORT(CONFORMITY_VERDICT_FAIL, CONFORMITY_GROUND_EQUAL_CAUSE, 4,
                 CONFORMITY_DECISION_OPEN);

    new_sheet();
    CHECK(append_pollutant(4, CONFORMITY_PLAN_IN_SERVICE, 1000, 0) == 0);
    CHECK(append_engine(500, 0) == 0 && append_engine(500, 0) == 0 && append_engine(500, 0) == 0);
    CHECK(append_engine(1600, CONFORMITY_CAUSE_PENDING) == 0);
    CHECK_REPORT(CONFORMITY_VERDICT_PASS, CONFORMITY_GROUND_ROW, 3, CONFORMITY_DECISION_PASS);
    CHECK(enter(4, 7) == 0);
    CHECK_REPORT(CONFORMITY_VERDICT_PASS, CONFORMITY_GROUND_ROW, 3, CONFORMITY_DECISION_PASS);
}

/* ---- Document 02, F-10: two sizes ---- */

static void each_way(void)
{
    static const struct {
        size_t size;
        int is_named;
    } ways[] = {{20, 0}, {20, 1}, {28, 1}};
    size_t i;
    for (i = 0; i < sizeof ways / sizeof ways[0]; i++) {
        record_size = ways[i].size;
        size_is_named = ways[i].is_named;
        refused_zeros();
        refused_records();
        refused_memory();
        no_memory();
        shorter_by_a_kind();
        longest_sheet();
        verdicts();
        referral();
        corrected_sheet();
        finer_logarithm();
        small_engines();
        run_in_engines();
        findings();
        refused_findings();
        vehicles_behind();
    }
}

static void new_sheet_of_28(void)
{
    record_size = CONFORMITY_RECORD_SIZE_28;
    size_is_named = 1;
    new_sheet();
}

/* Pollutants 1 and 6 of plan 3, and four engines: the sheet of the tests that follow. */
static void six_pollutants(void)
{
    static const uint32_t measurements[CONFORMITY_POLLUTANTS_28] = {90, 0, 0, 0, 0, 50};
    uint8_t record[CONFORMITY_RECORD_SIZE_28];
    int engine;
    new_sheet_of_28();
    CHECK(append_pollutant(1, CONFORMITY_PLAN_ATTRIBUTES, 100, 0) == 0);
    CHECK(append_pollutant(6, CONFORMITY_PLAN_ATTRIBUTES, 50, 0) == 0);
    conformity_engine_record_sized(record_size, record, 0, measurements);
    for (engine = 1; engine <= 4; engine++) {
        CHECK(append(record) == 0);
    }
}

static void report_of_six(void)
{
    static const uint8_t expected[28] = {16, 1, 1, 4, 1, 4, 0, 0, 0, 0, 0, 0, 0, 0, 1, 4};
    uint8_t report[CONFORMITY_REPORT_SIZE_28 + 2];
    six_pollutants();
    memset(report, 0xa5, sizeof report);
    CHECK(report_on(buffer, used, report, 27) == code_of(CONFORMITY_REFUSED_OUTPUT, 0));
    CHECK(is_untouched(report, 0, sizeof report));
    CHECK(report_on(buffer, used, report, sizeof report) == 0);
    CHECK(same(report, expected, 28) && is_untouched(report, 28, sizeof report));
}

/* Each pollutant alone, also 5 and 6: fails in a pair of its own, and makes gross emitters. */
static void each_pollutant(void)
{
    uint32_t pollutant;
    for (pollutant = 1; pollutant <= CONFORMITY_POLLUTANTS_28; pollutant++) {
        uint8_t expected[28] = {16, 2, 1, 3};
        uint8_t equal_cause[28] = {16, 2, 2, 3};
        uint8_t report[CONFORMITY_REPORT_SIZE_28];
        int engine;
        new_sheet_of_28();
        CHECK(append_pollutant(pollutant, CONFORMITY_PLAN_ATTRIBUTES, 150, 0) == 0);
        for (engine = 1; engine <= 3; engine++) {
            CHECK(append_measured(pollutant, 151, 0) == 0);
        }
        CHECK(report_on(buffer, used, report, sizeof report) == 0);
        expected[2 + 2 * pollutant] = 2;
        expected[3 + 2 * pollutant] = 3;
        CHECK(same(report, expected, 28));

        new_sheet_of_28();
        CHECK(append_pollutant(pollutant, CONFORMITY_PLAN_IN_SERVICE, 1000, 0) == 0);
        CHECK(append_measured(pollutant, 1501, 0) == code_of(CONFORMITY_REFUSED_CAUSE, 1));
        CHECK(append_measured(pollutant, 1500, 7) == code_of(CONFORMITY_REFUSED_CAUSE, 1));
        CHECK(append_measured(pollutant, 1501, 7) == 0);
        CHECK(append_measured(pollutant, 1501, 7) == 0);
        CHECK(append_measured(pollutant, 1500, 0) == 0);
        CHECK(report_on(buffer, used, report, sizeof report) == 0);
        CHECK(same(report, equal_cause, 28));
    }
}

/* Each pollutant is corrected by its own value: pollutant p measures 100 + p of limit 100, and the
   value of one alone is above the limit, which fails in its own pair. */
static void each_run_in_value(void)
{
    uint32_t pollutant, p;
    for (pollutant = 1; pollutant <= CONFORMITY_POLLUTANTS_28; pollutant++) {
        uint8_t expected[28] = {16, 2, 1, 3};
        uint8_t record[CONFORMITY_RECORD_SIZE_28], report[CONFORMITY_REPORT_SIZE_28];
        uint32_t values[CONFORMITY_POLLUTANTS_28], measurements[CONFORMITY_POLLUTANTS_28];
        int engine;
        new_sheet_of_28();
        for (p = 1; p <= CONFORMITY_POLLUTANTS_28; p++) {
            CHECK(append_pollutant(p, CONFORMITY_PLAN_ATTRIBUTES, 100, 0) == 0);
            values[p - 1] = p == pollutant ? 101 : 100;
            measurements[p - 1] = 100 + p;
        }
        conformity_run_in_record_sized(record_size, record, values);
        CHECK(append(record) == 0);
        conformity_engine_record_sized(record_size, record, 0, measurements);
        for (engine = 1; engine <= 3; engine++) {
            CHECK(append(record) == 0);
        }
        CHECK(report_on(buffer, used, report, sizeof report) == 0);
        expected[2 + 2 * pollutant] = 2;
        expected[3 + 2 * pollutant] = 3;
        CHECK(same(report, expected, 28));
    }
}

/* Document 01's example in both sizes; the bytes that are not typed are zero. */
#define EXAMPLE_LIMIT {1, 4, 3, 0, 150}
#define EXAMPLE_ENGINE {2, 0, 0, 0, 0, 0, 0, 0, 0, 0, 0, 0, 0, 0, 0, 0, 140}
#define EXAMPLE {EXAMPLE_LIMIT, EXAMPLE_ENGINE, EXAMPLE_ENGINE, EXAMPLE_ENGINE, EXAMPLE_ENGINE}
static const uint8_t EXAMPLE_20[5][20] = EXAMPLE;
static const uint8_t EXAMPLE_28[5][28] = EXAMPLE;

/* Of either size, into outputs of every length about the converted sheet's. */
static void converted_example(void)
{
    const uint8_t *narrow = &EXAMPLE_20[0][0], *wide = &EXAMPLE_28[0][0];
    size_t length;
    for (length = 0; length <= 141; length++) {
        CHECK(convert(20, narrow, 100, length) ==
              (length < 140 ? code_of(CONFORMITY_REFUSED_CONVERTED_OUTPUT, 0) : 0));
        CHECK(length < 140 || same(converted, wide, 140));
        CHECK(convert(28, wide, 140, length) ==
              (length < 100 ? code_of(CONFORMITY_REFUSED_CONVERTED_OUTPUT, 0) : 0));
        CHECK(length < 100 || same(converted, narrow, 100));
    }
}

/* The beginning of a sheet is a sheet where it ends with a record. */
static void converted_beginnings(void)
{
    const uint8_t *sheets[2] = {&EXAMPLE_20[0][0], &EXAMPLE_28[0][0]};
    static const size_t record_sizes[2] = {20, 28};
    size_t i, length;
    for (i = 0; i < 2; i++) {
        size_t size = record_sizes[i];
        for (length = 0; length <= 5 * size; length++) {
            int is_whole = length > 0 && length % size == 0;
            CHECK(convert(size, sheets[i], length, sizeof converted) ==
                  (is_whole ? 0 : code_of(CONFORMITY_REFUSED_LENGTH, 0)));
            CHECK(!is_whole ||
                  same(converted, sheets[1 - i], conformity_converted_length(size, length)));
        }
    }
}

/* The longest sheet without pollutants 5 and 6, which has as many records in either size. */
static void longest_converted(void)
{
    uint8_t report[CONFORMITY_REPORT_SIZE_28] = {0};
    record_size = CONFORMITY_RECORD_SIZE;
    longest_sheet();
    CHECK(report_on(buffer, used, report, sizeof report) == 0);
    check_converted(report);
    CHECK(convert(20, buffer, used, 1091) == code_of(CONFORMITY_REFUSED_CONVERTED_OUTPUT, 0));
}

/* After the sheet's own refusals and before 32, also where no engine is on the sheet yet. */
static void refused_narrowing(void)
{
    size_t length;
    six_pollutants();
    CHECK(convert(28, buffer, 28, 20) == 0); /* pollutant 1 alone */
    for (length = 56; length <= used; length += 28) {
        CHECK(convert(28, buffer, length, sizeof converted) ==
              code_of(CONFORMITY_REFUSED_NARROWING, 0));
        CHECK(convert(28, buffer, length, 0) == code_of(CONFORMITY_REFUSED_NARROWING, 0));
    }
    CHECK(convert(20, buffer, used, 0) == code_of(CONFORMITY_REFUSED_LENGTH, 0));
    CHECK(convert(28, buffer, used - 1, 0) == code_of(CONFORMITY_REFUSED_LENGTH, 0));
    CHECK(convert(28, buffer, 0, 0) == code_of(CONFORMITY_REFUSED_LENGTH, 0));
    CHECK(convert(28, buffer, CONFORMITY_SHEET_MAX_28 + 28, 0) ==
          code_of(CONFORMITY_REFUSED_LENGTH, 0));
    buffer[used - 1] = 1; /* makes measurement 6 of the last engine too large */
    CHECK(convert(28, buffer, used, 0) == code_of(CONFORMITY_REFUSED_MEASUREMENT, 5));

    new_sheet_of_28();
    CHECK(append_pollutant(5, CONFORMITY_PLAN_ATTRIBUTES, 100, 0) == 0);
    CHECK(convert(28, buffer, used, 19) == code_of(CONFORMITY_REFUSED_NARROWING, 0));
}

/* Bytes of one size read in the other are refused, and the refusal is the sheet's own. */
static void size_mistaken(void)
{
    uint8_t sheet[7 * CONFORMITY_RECORD_SIZE];
    memcpy(sheet, EXAMPLE_20, sizeof EXAMPLE_20);
    memcpy(sheet + 100, EXAMPLE_20[4], 20);
    memcpy(sheet + 120, EXAMPLE_20[4], 20);
    CHECK(convert(20, sheet, 140, 0) == code_of(CONFORMITY_REFUSED_CONVERTED_OUTPUT, 0));
    CHECK(convert(28, sheet, 140, 0) == code_of(CONFORMITY_REFUSED_ZERO, 0));
    CHECK(convert(20, &EXAMPLE_28[0][0], 140, 0) == code_of(CONFORMITY_REFUSED_KIND, 1));
}

/* 30 before every other refusal, and nothing written. */
static void refused_sizes(void)
{
    const uint8_t *sheet = &EXAMPLE_20[0][0];
    uint32_t refused = code_of(CONFORMITY_REFUSED_SIZE, 0);
    uint8_t bytes[2 * CONFORMITY_RECORD_SIZE_28];
    size_t i;
    memset(bytes, 0xa5, sizeof bytes);
    for (i = 0; i < NO_SIZE_COUNT; i++) {
        size_t size = NO_SIZES[i];
        CHECK(conformity_append_sized(size, bytes, sizeof bytes, 0, sheet, 20) == refused);
        CHECK(conformity_append_sized(size, bytes, sizeof bytes, 0, sheet, 28) == refused);
        CHECK(conformity_append_sized(size, bytes, 0, SIZE_MAX, sheet, 0) == refused);
        CHECK(conformity_append_sized(size, NULL, 0, 0, NULL, 0) == refused);
        CHECK(conformity_report_sized(size, sheet, 100, bytes, sizeof bytes) == refused);
        CHECK(conformity_report_sized(size, sheet, 0, bytes, 0) == refused);
        CHECK(conformity_report_sized(size, NULL, 0, NULL, 0) == refused);
        CHECK(conformity_convert(size, sheet, 100, bytes, sizeof bytes) == refused);
        CHECK(conformity_convert(size, sheet, 0, bytes, 0) == refused);
        CHECK(conformity_convert(size, NULL, 0, NULL, 0) == refused);
        CHECK(conformity_finding(size, bytes, sizeof bytes, 1, 7) == refused);
        CHECK(conformity_finding(size, bytes, 20, 0, 0) == refused);
        CHECK(conformity_finding(size, NULL, 0, 0, 0) == refused);
    }
    CHECK(is_untouched(bytes, 0, sizeof bytes));
}

/* ---- Declared values ---- */

struct declared_case {
    uint32_t declared;
    uint32_t tests[4];
    size_t count;
    uint32_t number; /* of the refusal, or 0 and what is written */
    uint32_t sum;
    uint32_t divisor;
};

static const struct declared_case DECLARED_CASES[] = {
    {100000, {104000}, 1, 0, 100000, 1},
    {100000, {104001}, 1, 0, 0, 0},
    {100000, {104001, 103999}, 2, 0, 100000, 1},
    {100000, {104001, 104000}, 2, 0, 0, 0},
    {100000, {104001, 104000, 90000}, 3, 0, 298001, 3},
    {25, {26}, 1, 0, 25, 1},
    {25, {27}, 1, 0, 0, 0},
    {1, {CONFORMITY_VALUE_MAX, CONFORMITY_VALUE_MAX, CONFORMITY_VALUE_MAX}, 3, 0, 29999997, 3},
    {CONFORMITY_VALUE_MAX, {CONFORMITY_VALUE_MAX}, 1, 0, CONFORMITY_VALUE_MAX, 1},
    /* 20 before 21 before 22 */
    {100000, {104000}, 0, CONFORMITY_REFUSED_TESTS, 0, 0},
    {0, {0, 0, 0, 0}, 4, CONFORMITY_REFUSED_TESTS, 0, 0},
    {0, {1}, 1, CONFORMITY_REFUSED_VALUE, 0, 0},
    {CONFORMITY_VALUE_MAX + 1, {1}, 1, CONFORMITY_REFUSED_VALUE, 0, 0},
    {100000, {CONFORMITY_VALUE_MAX + 1}, 1, CONFORMITY_REFUSED_VALUE, 0, 0},
    {100000, {UINT32_MAX, UINT32_MAX, UINT32_MAX}, 3, CONFORMITY_REFUSED_VALUE, 0, 0},
    {100000, {104000, 0}, 2, CONFORMITY_REFUSED_VALUE, 0, 0},
    {100000, {104000, 1}, 2, CONFORMITY_REFUSED_LATE_TEST, 0, 0},
    {100000, {104001, 103999, 1}, 3, CONFORMITY_REFUSED_LATE_TEST, 0, 0},
};

static void declared_values(void)
{
    const uint32_t unwritten = 0xa5a5a5a5u;
    size_t i;
    for (i = 0; i < sizeof DECLARED_CASES / sizeof DECLARED_CASES[0]; i++) {
        const struct declared_case *c = &DECLARED_CASES[i];
        uint32_t sum = unwritten, divisor = unwritten;
        CHECK(conformity_declared(c->declared, c->tests, c->count, &sum, &divisor) ==
              code_of(c->number, 0));
        CHECK(sum == (c->number == 0 ? c->sum : unwritten));
        CHECK(divisor == (c->number == 0 ? c->divisor : unwritten));
    }
    {
        uint32_t sum = unwritten, divisor = unwritten;
        CHECK(conformity_declared(100000, NULL, 0, &sum, &divisor) ==
              code_of(CONFORMITY_REFUSED_TESTS, 0));
        CHECK(sum == unwritten && divisor == unwritten);
    }
}

int main(void)
{
    constants();
    sizes();
    builders();
    sized_builders();
    readers();
    sized_readers();
    codes();
    later_texts();
    sized_texts();
    each_way();
    report_of_six();
    each_pollutant();
    each_run_in_value();
    converted_example();
    converted_beginnings();
    longest_converted();
    refused_narrowing();
    size_mistaken();
    refused_sizes();
    declared_values();
    printf("%u passed, %u failed\n", passed, failed);
    return failed == 0 ? 0 : 1;
}
