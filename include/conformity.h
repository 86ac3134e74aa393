/*
 * conformity.h - conformity verdicts for engine series (Kamghedo)
 *
 * A series of engines is tested one engine at a time until the measurements
 * decide: the series passes, fails, or is referred to the authority. The rules
 * are those of Directive 96/1/EC, sections 8.1.1.1.1, 8.1.1.1.3 and 8.1.1.2.2 and
 * Appendices 1 to 3 (production), and of COM(97) 77, Appendix 1 (vehicles in
 * service), where a series is held while the cause of a gross emitter is sought.
 *
 * The caller keeps a SHEET: records of 20 bytes, or with six pollutants of 28
 * bytes (TWO SIZES, below), one after another, in memory of its own. Two functions
 * work on one of 20-byte records:
 *
 *     conformity_append   adds a record, or refuses it and changes nothing
 *     conformity_report   judges the sheet and writes a report of 20 bytes
 *
 * Records are built, and reports read, by the small functions below; no caller
 * lays out bytes by hand. A whole test:
 *
 *     uint8_t  sheet[CONFORMITY_SHEET_MAX];
 *     size_t   used = 0;
 *     uint8_t  record[CONFORMITY_RECORD_SIZE];
 *     uint8_t  report[CONFORMITY_REPORT_SIZE];
 *     uint32_t measured[CONFORMITY_POLLUTANTS] = {0, 0, 0, 140};
 *     uint32_t code;
 *
 *     conformity_pollutant_record(record, CONFORMITY_PARTICULATES,
 *                                 CONFORMITY_PLAN_ATTRIBUTES, 150, 0);
 *     code = conformity_append(sheet, sizeof sheet, used, record, sizeof record);
 *     if (code == 0) used += CONFORMITY_RECORD_SIZE;
 *
 *     conformity_engine_record(record, 0, measured);      (once for each engine)
 *     code = conformity_append(sheet, sizeof sheet, used, record, sizeof record);
 *     if (code == 0) used += CONFORMITY_RECORD_SIZE;
 *     else puts(conformity_refusal_text(conformity_refusal_number(code)));
 *
 *     code = conformity_report(sheet, used, report, sizeof report);
 *     if (code == 0 && conformity_report_verdict(report) == CONFORMITY_VERDICT_PASS)
 *         printf("pass at %u\n", (unsigned)conformity_report_engine(report));
 *
 * After four such engines this prints "pass at 4".
 *
 * TWO SIZES. A record of 20 bytes has measurements of four pollutants, one of 28
 * bytes of six. All records of a sheet have the same size; the sheet does not say
 * which, so the caller names it:
 *
 *     ..._sized  a function that takes the size, 20 or 28, as its first argument,
 *                and is otherwise the one without this ending
 *     ..._28     a constant for 28-byte records
 *
 * A function or constant on records, sheets or reports without such an ending is for
 * 20-byte records; the readers of verdict, ground and engine serve both. The test
 * above with records of 28 bytes declares its memory by the other constants
 *
 *     uint8_t  sheet[CONFORMITY_SHEET_MAX_28];
 *     uint8_t  record[CONFORMITY_RECORD_SIZE_28];
 *     uint8_t  report[CONFORMITY_REPORT_SIZE_28];
 *     uint32_t measured[CONFORMITY_POLLUTANTS_28] = {0, 0, 0, 140, 0, 0};
 *
 * and its calls are
 *
 *     conformity_pollutant_record_sized(28, record, CONFORMITY_PARTICULATES,
 *                                       CONFORMITY_PLAN_ATTRIBUTES, 150, 0);
 *     conformity_engine_record_sized(28, record, 0, measured);
 *     code = conformity_append_sized(28, sheet, sizeof sheet, used, record, sizeof record);
 *     code = conformity_report_sized(28, sheet, used, report, sizeof report);
 *
 * No bytes are accepted at both sizes: by the wrong one a sheet is refused. A function
 * carries sheets from one size to the other:
 *
 *     conformity_convert  writes the sheet in records of the other size
 *
 * In service the cause of a gross emitter may be sought for weeks. Its record is
 * then added with CONFORMITY_CAUSE_PENDING for a cause, and testing goes on; from
 * the first row that has the vehicle the series is held, unless it is decided
 * before. What is found goes into the record that stands:
 *
 *     conformity_finding  enters the cause of a vehicle whose finding is pending
 *
 * One function is about no sheet: in type approval it compares a declared carbon
 * dioxide value with the tests of one vehicle (Directive 80/1268/EEC, Annex I, 6.5):
 *
 *     conformity_declared asks for another test, or gives the approval value
 *
 * POINTERS. Each pointer to several bytes or numbers is followed by how many they
 * are, and must be valid for that many: readable, and writable where it is not
 * const. The builders and readers below take no lengths: a record or report has as
 * many bytes as its size. Where there are none any pointer will do, also a null
 * one, as an empty C++ vector's may be. `sum` and `divisor` each point to one
 * number that can be read and written. What a call writes must not overlap
 * anything else that it is given: the record not the buffer, the output not the
 * sheet, `sum` and `divisor` neither each other nor the tests. Nothing else may
 * write to these bytes, or read those that the call writes, until it returns.
 * Within that, every input has a defined answer: any bytes, any numbers, any
 * sizes, any lengths, any `used`.
 *
 * THREADS. The library has no state, allocates nothing and keeps no pointer
 * past a call. Calls on separate memory may run at the same time.
 *
 * LANGUAGE. C99 or later, or C++11 or later. Link with libconformity.a. A name that
 * ends in an underscore is for this header alone.
 */
#ifndef CONFORMITY_H
#define CONFORMITY_H

#include <stddef.h>
#include <stdint.h>

#ifdef __cplusplus
extern "C" {
#endif

/* ---- Sizes and ranges --------------------------------------------------- */

#define CONFORMITY_RECORD_SIZE 20 /* bytes of a record */
#define CONFORMITY_RECORDS_MAX 39 /* 4 pollutants, small engine, run-in, 32 engines, stop */
#define CONFORMITY_SHEET_MAX 780  /* bytes of the longest sheet */
#define CONFORMITY_REPORT_SIZE 20 /* bytes of a report */
#define CONFORMITY_POLLUTANTS 4   /* measurements in an engine's or a run-in record */

/* The same for 28-byte records. Memory of these lengths serves both sizes. */
#define CONFORMITY_RECORD_SIZE_28 28
#define CONFORMITY_RECORDS_MAX_28 41 /* 6 pollutants, small engine, run-in, 32 engines, stop */
#define CONFORMITY_SHEET_MAX_28 1148
#define CONFORMITY_REPORT_SIZE_28 28
#define CONFORMITY_POLLUTANTS_28 6

#define CONFORMITY_VALUE_MAX 9999999     /* greatest limit, measurement, CO2 value; least 1 */
#define CONFORMITY_DEVIATION_MAX 4000000 /* greatest deviation in plan 1; least 1 */
#define CONFORMITY_CAUSE_MAX 65534       /* greatest cause of a gross emitter; least 1 */
#define CONFORMITY_CAUSE_PENDING 65535   /* in its place while the finding is pending */
#define CONFORMITY_TESTS_MAX 3           /* most tests of a declared value; least 1 */

/* The two particulate limits of a sheet with a small-engine record, in thousandths of g/kWh: see
   conformity_small_engine_record. */
#define CONFORMITY_PARTICULATE_LIMIT 150
#define CONFORMITY_PARTICULATE_LIMIT_SMALL_ENGINE 250

/* ---- What a sheet says -------------------------------------------------- */

/*
 * The order of records: one pollutant record for each declared pollutant, by
 * rising number and all of one plan; then, for engines whose particulate limit
 * depends on their size and the date, one small engine, not in plan 4; then, where
 * the first engine is run in and the others are corrected by it, its run-in values,
 * not in plan 4; then the engines as they are tested; then, if the manufacturer stops
 * testing, one stop, after which nothing follows. A sheet may end after any record.
 */
enum conformity_kind {
    CONFORMITY_KIND_POLLUTANT = 1,    /* a pollutant with its limit */
    CONFORMITY_KIND_ENGINE = 2,       /* an engine, or in plan 4 a vehicle */
    CONFORMITY_KIND_STOP = 3,         /* testing stopped by the manufacturer */
    CONFORMITY_KIND_SMALL_ENGINE = 5, /* what the particulate limit depends on */
    CONFORMITY_KIND_RUN_IN = 6        /* the first engine's values after running-in */
};

enum conformity_pollutant {
    CONFORMITY_CARBON_MONOXIDE = 1,
    CONFORMITY_HYDROCARBONS = 2,
    CONFORMITY_NITROGEN_OXIDES = 3,
    CONFORMITY_PARTICULATES = 4,
    CONFORMITY_POLLUTANT_5 = 5, /* these two in 28-byte records alone, */
    CONFORMITY_POLLUTANT_6 = 6  /* for limits that name more than four */
};

/* The plan decides at the 3rd engine at the earliest, and at its last row at the latest. */
enum conformity_plan {
    CONFORMITY_PLAN_KNOWN_DEVIATION = 1,   /* 96/1/EC Appendix 1; last row 32 */
    CONFORMITY_PLAN_UNKNOWN_DEVIATION = 2, /* 96/1/EC Appendix 2, as printed: for sheets begun
                                              under it; last row 32 */
    CONFORMITY_PLAN_ATTRIBUTES = 3,        /* 96/1/EC Appendix 3; last row 19 */
    CONFORMITY_PLAN_IN_SERVICE = 4,        /* COM(97) 77 Appendix 1; last row 15 */
    CONFORMITY_PLAN_CORRECTED = 5          /* plan 2 with rows 31 and 32 corrected; last row 32 */
};

/* ---- What a report says ------------------------------------------------- */

#define CONFORMITY_REPORT_MARK 16 /* first byte of every report, and of no accepted sheet */

enum conformity_verdict {
    CONFORMITY_VERDICT_ANOTHER = 0,  /* undecided: test another engine */
    CONFORMITY_VERDICT_PASS = 1,
    CONFORMITY_VERDICT_FAIL = 2,
    CONFORMITY_VERDICT_REFERRED = 3, /* plan 4 only: the authority decides */
    CONFORMITY_VERDICT_HELD = 4      /* plan 4 only: undecided until a finding is entered; more
                                        vehicles may be tested */
};

enum conformity_ground {
    CONFORMITY_GROUND_NONE = 0,        /* the verdict is another */
    CONFORMITY_GROUND_ROW = 1,         /* a row of the plan decided */
    CONFORMITY_GROUND_EQUAL_CAUSE = 2, /* plan 4: two gross emitters of equal cause */
    CONFORMITY_GROUND_STOPPED = 3,     /* stopped by the manufacturer while undecided: fail */
    CONFORMITY_GROUND_REFERRED = 4,    /* plan 4: two or more gross emitters among 15 */
    CONFORMITY_GROUND_PENDING = 5      /* plan 4, held: the finding of a gross emitter is pending */
};

enum conformity_decision {
    CONFORMITY_DECISION_OPEN = 0, /* not decided, or the pollutant is not declared */
    CONFORMITY_DECISION_PASS = 1,
    CONFORMITY_DECISION_FAIL = 2
};

/* ---- Refusals ----------------------------------------------------------- */

/*
 * Each function returns 0 on success, and otherwise
 *
 *     refusal number * 256 + record
 *
 * where the record is counted from 0. Refusals 2 to 12 and 16 to 19 name a record;
 * 1, 13 to 15 and those from 20 on name none, and the record is 0. A sheet is refused
 * for its first faulty record, and for the number that applies to it and comes first
 * in the order 2, 3, 16, 17, 18, 19, 4, 5, .. 12. No refusal has the numbers 25 to 29.
 *
 * A number in brackets stands, for 28-byte records, in place of the one before it.
 */
enum conformity_refusal {
    /* The sheet is empty, not a whole number of records, or longer than 780 (1,148) bytes. */
    CONFORMITY_REFUSED_LENGTH = 1,
    /* The record's kind is not 1, 2, 3, 5 or 6. */
    CONFORMITY_REFUSED_KIND = 2,
    /* The first record is no pollutant, a pollutant follows another kind, or a record follows the
       stop. */
    CONFORMITY_REFUSED_ORDER = 3,
    /* The pollutant number is not 1 to 4 (6), or not above the one before. */
    CONFORMITY_REFUSED_POLLUTANT = 4,
    /* The plan is not 1 to 5, or unlike the first pollutant's. */
    CONFORMITY_REFUSED_PLAN = 5,
    /* The limit is not 1 to 9,999,999. */
    CONFORMITY_REFUSED_LIMIT = 6,
    /* The deviation is not 1 to 4,000,000 in plan 1, or not 0 in another plan. */
    CONFORMITY_REFUSED_DEVIATION = 7,
    /* A measurement is not 1 to 9,999,999, or one of an undeclared pollutant is not 0; of an engine
       or of run-in values. */
    CONFORMITY_REFUSED_MEASUREMENT = 8,
    /* The cause is 0 for a gross emitter in plan 4, which has 1 to 65,534, or 65,535 while its
       finding is pending; or it is not 0 for any other engine. */
    CONFORMITY_REFUSED_CAUSE = 9,
    /* There are more engines than the plan's last row. */
    CONFORMITY_REFUSED_ENGINES = 10,
    /* Plan 4 knows no stop by the manufacturer. */
    CONFORMITY_REFUSED_STOP = 11,
    /* A byte that must be zero is not; no record built by the functions below has one. */
    CONFORMITY_REFUSED_ZERO = 12,
    /* append: fewer than 20 (28) bytes of the buffer are left after `used`, or `used` is beyond
       it. */
    CONFORMITY_REFUSED_BUFFER = 13,
    /* append: the record is not 20 (28) bytes long. */
    CONFORMITY_REFUSED_RECORD = 14,
    /* report: the output is shorter than 20 (28) bytes. */
    CONFORMITY_REFUSED_OUTPUT = 15,
    /* The small engine is a second one, is not straight after the pollutants, or is in plan 4. */
    CONFORMITY_REFUSED_SMALL_ENGINE = 16,
    /* The date is no day of the years 1 to 9999. */
    CONFORMITY_REFUSED_DATE = 17,
    /* The particulate limit is declared and not the one for the volume, speed and date: 250 or
       150. */
    CONFORMITY_REFUSED_PARTICULATE_LIMIT = 18,
    /* The run-in record is a second one, follows an engine, or is in plan 4. */
    CONFORMITY_REFUSED_RUN_IN = 19,
    /* declared: there are no tests, or more than 3. */
    CONFORMITY_REFUSED_TESTS = 20,
    /* declared: the declared value or a test is not 1 to 9,999,999. */
    CONFORMITY_REFUSED_VALUE = 21,
    /* declared: a test follows those by which the declared value stands. */
    CONFORMITY_REFUSED_LATE_TEST = 22,
    /* finding: the finding of the engine is not pending, or there is no such engine. */
    CONFORMITY_REFUSED_NOT_PENDING = 23,
    /* finding: the finding is not 1 to 65,534. */
    CONFORMITY_REFUSED_FINDING = 24,
    /* append_sized, report_sized, convert, finding: the size is not 20 or 28. */
    CONFORMITY_REFUSED_SIZE = 30,
    /* convert, of a sheet of 28-byte records: it declares pollutant 5 or 6. */
    CONFORMITY_REFUSED_NARROWING = 31,
    /* convert: the output is shorter than the converted sheet. */
    CONFORMITY_REFUSED_CONVERTED_OUTPUT = 32
};

/* ---- The library -------------------------------------------------------- */

/*
 * Adds a record to the sheet in the first `used` bytes of the buffer; `used` is
 * 0 for a new sheet.
 *
 * Returns 0 when the record was added: the 20 bytes from `used` on are then the
 * record's, no other byte has changed, and the sheet is 20 bytes longer, which
 * the caller adds to its own `used`.
 *
 * Otherwise no byte has changed, and the refusal is the first of these:
 *     14                 the record is not 20 bytes
 *     13                 no room for it
 *     1 to 12, 16 to 19  the sheet that was there is refused (not looked at if
 *                        used is 0)
 *     1 to 12, 16 to 19  the sheet with the record added would be refused; the
 *                        record named is then the new one, used / 20 (for
 *                        refusal 1, as always, 0)
 *
 * Records may be added after the series is decided or held. They are checked like
 * any other and do not change the verdict.
 */
uint32_t conformity_append(uint8_t *buffer, size_t buffer_length, size_t used,
                           const uint8_t *record, size_t record_length);

/*
 * Judges the sheet and writes a report of 20 bytes to the start of the output.
 *
 * Returns 0 when the report was written; bytes of the output past the first 20
 * have not changed. Otherwise no byte has changed, and the refusal is the first
 * of these:
 *     15                 the output is shorter than 20 bytes
 *     1 to 12, 16 to 19  the sheet is refused
 */
uint32_t conformity_report(const uint8_t *sheet, size_t sheet_length,
                           uint8_t *output, size_t output_length);

/*
 * As conformity_append and conformity_report, with `size` bytes where they say 20.
 *
 * The size is 20 or 28. Any other is refused with 30, before all that they refuse.
 */
uint32_t conformity_append_sized(size_t size, uint8_t *buffer, size_t buffer_length, size_t used,
                                 const uint8_t *record, size_t record_length);
uint32_t conformity_report_sized(size_t size, const uint8_t *sheet, size_t sheet_length,
                                 uint8_t *output, size_t output_length);

/*
 * Writes the sheet, of records of `size` bytes, to the start of the output in
 * records of the other size: with 8 zeros behind each record of 20 bytes, without
 * the last 8 bytes of each of 28. The converted sheet has the same verdict, ground,
 * engine and decisions; converted back, it is the sheet again.
 *
 * Returns 0 when it was written: conformity_converted_length bytes, for which
 * CONFORMITY_SHEET_MAX_28 are always room enough. Bytes of the output behind them
 * have not changed. Otherwise no byte has changed, and the refusal is the first of
 * these:
 *     30                 the size is not 20 or 28
 *     1 to 12, 16 to 19  the sheet is refused
 *     31                 from 28 to 20 bytes: the sheet declares pollutant 5 or 6
 *     32                 the output is shorter than the converted sheet
 */
uint32_t conformity_convert(size_t size, const uint8_t *sheet, size_t sheet_length,
                            uint8_t *output, size_t output_length);

/*
 * Enters a finding: the cause of the vehicle that is engine `engine`, counted from 1,
 * on the sheet, of records of `size` bytes, becomes `finding` where it was
 * CONFORMITY_CAUSE_PENDING.
 *
 * Returns 0 when it was entered: the two bytes of that cause have changed, and no
 * others. The sheet is then as if the cause had stood there from the start. Findings
 * may come in any order, also of vehicles behind the one that decided. A verdict
 * other than held stays the same whatever is found. Otherwise no byte has changed,
 * and the refusal is the first of these:
 *     30                 the size is not 20 or 28
 *     1 to 12, 16 to 19  the sheet is refused
 *     23                 no vehicle whose finding is pending is that engine
 *     24                 the finding is not 1 to CONFORMITY_CAUSE_MAX
 */
uint32_t conformity_finding(size_t size, uint8_t *sheet, size_t sheet_length, uint32_t engine,
                            uint32_t finding);

/*
 * Compares the declared carbon dioxide value of a type with the tests of one
 * vehicle, `count` of them in the order in which they were run. All values are
 * whole thousandths of g/km, 1 to CONFORMITY_VALUE_MAX.
 *
 * The declared value stands if the first test, or else the mean of two, is at
 * most 104/100 of it. Otherwise a third test is run, and the approval value is
 * the mean of three. Nothing is rounded: the approval value is the fraction
 * sum / divisor.
 *
 * Returns 0 when the tests have an answer, which is then written:
 *     *divisor 0  and *sum 0: run another test, and call again with it added
 *     *divisor 1  the declared value stands: *sum is that value
 *     *divisor 3  *sum is the sum of the three tests
 *
 * Otherwise neither number has changed, and the refusal is the first of these:
 *     20       there are no tests, or more than CONFORMITY_TESTS_MAX
 *     21       the declared value or a test is out of range
 *     22       a test follows those by which the declared value stands
 */
uint32_t conformity_declared(uint32_t declared, const uint32_t *tests, size_t count,
                             uint32_t *sum, uint32_t *divisor);

/* ---- The two sizes ------------------------------------------------------ */

/* The measurements in an engine's or a run-in record of this size; 0 where the size is not 20 or
   28. */
static inline uint32_t conformity_pollutants(size_t size)
{
    return size == CONFORMITY_RECORD_SIZE      ? CONFORMITY_POLLUTANTS
           : size == CONFORMITY_RECORD_SIZE_28 ? CONFORMITY_POLLUTANTS_28
                                               : 0;
}

/* Of the sizes 20 and 28 the one that this is not; 0 where the size is neither. */
static inline size_t conformity_other_size(size_t size)
{
    return size == CONFORMITY_RECORD_SIZE      ? CONFORMITY_RECORD_SIZE_28
           : size == CONFORMITY_RECORD_SIZE_28 ? CONFORMITY_RECORD_SIZE
                                               : 0;
}

/* The bytes that conformity_convert writes for a sheet of this size and length; 0 where the size
   is not 20 or 28. */
static inline size_t conformity_converted_length(size_t size, size_t sheet_length)
{
    size_t other = conformity_other_size(size);
    return other == 0 ? 0 : sheet_length / size * other;
}

/* ---- Reading a return code ---------------------------------------------- */

/* The refusal's number (enum conformity_refusal), or 0 for success. */
static inline uint32_t conformity_refusal_number(uint32_t code)
{
    return code >> 8;
}

/* The record that the refusal names, counted from 0. */
static inline uint32_t conformity_refusal_record(uint32_t code)
{
    return code & 0xffu;
}

/* A refusal's meaning in a sentence, for a message; never null. Of a call on 28-byte records, see
   conformity_refusal_text_sized. */
static inline const char *conformity_refusal_text(uint32_t number)
{
    switch (number) {
    case 0:
        return "nothing was refused";
    case CONFORMITY_REFUSED_LENGTH:
        return "the sheet is empty, not a whole number of records, or longer than 780 bytes";
    case CONFORMITY_REFUSED_KIND:
        return "the record's kind is not 1, 2, 3, 5 or 6";
    case CONFORMITY_REFUSED_ORDER:
        return "the first record is no pollutant, a pollutant follows another kind, "
               "or a record follows the stop";
    case CONFORMITY_REFUSED_POLLUTANT:
        return "the pollutant number is not 1 to 4, or not above the one before";
    case CONFORMITY_REFUSED_PLAN:
        return "the plan is not 1 to 5, or unlike the first pollutant's";
    case CONFORMITY_REFUSED_LIMIT:
        return "the limit is not 1 to 9999999";
    case CONFORMITY_REFUSED_DEVIATION:
        return "the deviation is not 1 to 4000000 in plan 1, or not 0 in another plan";
    case CONFORMITY_REFUSED_MEASUREMENT:
        return "a measurement is not 1 to 9999999, or one of an undeclared pollutant is not 0";
    case CONFORMITY_REFUSED_CAUSE:
        return "the cause is 0 for a gross emitter in plan 4, or not 0 for any other engine";
    case CONFORMITY_REFUSED_ENGINES:
        return "there are more engines than the plan's last row";
    case CONFORMITY_REFUSED_STOP:
        return "plan 4 knows no stop by the manufacturer";
    case CONFORMITY_REFUSED_ZERO:
        return "a byte that must be zero is not";
    case CONFORMITY_REFUSED_BUFFER:
        return "the buffer has no room for another record";
    case CONFORMITY_REFUSED_RECORD:
        return "the record is not 20 bytes long";
    case CONFORMITY_REFUSED_OUTPUT:
        return "the output is shorter than 20 bytes";
    case CONFORMITY_REFUSED_SMALL_ENGINE:
        return "the small engine is a second one, is not straight after the pollutants, "
               "or is in plan 4";
    case CONFORMITY_REFUSED_DATE:
        return "the date is no day of the years 1 to 9999";
    case CONFORMITY_REFUSED_PARTICULATE_LIMIT:
        return "the particulate limit is not the one for the volume, speed and date: 250 or 150";
    case CONFORMITY_REFUSED_RUN_IN:
        return "the run-in record is a second one, follows an engine, or is in plan 4";
    case CONFORMITY_REFUSED_TESTS:
        return "there are no tests, or more than 3";
    case CONFORMITY_REFUSED_VALUE:
        return "the declared value or a test is not 1 to 9999999";
    case CONFORMITY_REFUSED_LATE_TEST:
        return "a test follows those by which the declared value stands";
    case CONFORMITY_REFUSED_NOT_PENDING:
        return "the finding of that engine is not pending, or there is no such engine";
    case CONFORMITY_REFUSED_FINDING:
        return "the finding is not 1 to 65534";
    case CONFORMITY_REFUSED_SIZE:
        return "the record size is not 20 or 28";
    case CONFORMITY_REFUSED_NARROWING:
        return "the sheet declares pollutant 5 or 6, which records of 20 bytes have no place for";
    case CONFORMITY_REFUSED_CONVERTED_OUTPUT:
        return "the output is shorter than the converted sheet";
    default:
        return "no refusal has this number";
    }
}

/* The same for a call on records of this size, whose numbers are in some of the sentences. */
static inline const char *conformity_refusal_text_sized(size_t size, uint32_t number)
{
    if (size == CONFORMITY_RECORD_SIZE_28) {
        switch (number) {
        case CONFORMITY_REFUSED_LENGTH:
            return "the sheet is empty, not a whole number of records, or longer than 1148 bytes";
        case CONFORMITY_REFUSED_POLLUTANT:
            return "the pollutant number is not 1 to 6, or not above the one before";
        case CONFORMITY_REFUSED_RECORD:
            return "the record is not 28 bytes long";
        case CONFORMITY_REFUSED_OUTPUT:
            return "the output is shorter than 28 bytes";
        default:
            break;
        }
    }
    return conformity_refusal_text(number);
}

/* ---- Building records --------------------------------------------------- */

/*
 * A builder writes every byte of the record and checks nothing: conformity_append
 * does. A number too large for its field is written as the field's greatest, and
 * never cut down to a smaller one that might be accepted. The field's greatest is
 * refused, but for two kinds of fields. A small engine's volume and speed have no
 * range: 65,535 is accepted there and stands for every number from 65,535 on. The rule
 * asks whether the volume is under 700 and the speed above 3000, and so answers for
 * 65,535 as it would for the larger number. And as a cause 65,535 is
 * CONFORMITY_CAUSE_PENDING: a record with a larger cause gets a byte 1 that is not zero
 * too, so that it is refused, with 9 or 12. For a size that is not 20 or 28 nothing is
 * written, and the library refuses the size.
 */

/* For the builders: `number`, or `greatest` where it is larger. */
static inline uint32_t conformity_at_most_(uint32_t number, uint32_t greatest)
{
    return number < greatest ? number : greatest;
}

/* For the builders: a field of `width` bytes, least significant first, whatever the machine's
   own order. */
static inline void conformity_put_(uint8_t *field, size_t width, uint32_t number)
{
    size_t i;
    for (i = 0; i < width; i++) {
        field[i] = (number >> (8 * i)) & 0xffu;
    }
}

/* For the builders: the kind, and zeros behind it; answers 0, and writes nothing, where the size is
   not 20 or 28. */
static inline int conformity_begin_(size_t size, uint8_t *record, uint8_t kind)
{
    size_t i;
    if (conformity_pollutants(size) == 0) {
        return 0;
    }
    record[0] = kind;
    for (i = 1; i < size; i++) {
        record[i] = 0;
    }
    return 1;
}

/* For the builders: the measurements of a record that has begun, from byte 4 on. */
static inline void conformity_put_measurements_(size_t size, uint8_t *record,
                                                const uint32_t *measurements)
{
    uint32_t i;
    for (i = 0; i < conformity_pollutants(size); i++) {
        conformity_put_(record + 4 + 4 * i, 4, measurements[i]);
    }
}

/*
 * Testing stopped by the manufacturer: fails a series that is undecided. Not in
 * plan 4.
 */
static inline void conformity_stop_record_sized(size_t size, uint8_t *record)
{
    conformity_begin_(size, record, CONFORMITY_KIND_STOP);
}

static inline void conformity_stop_record(uint8_t record[CONFORMITY_RECORD_SIZE])
{
    conformity_stop_record_sized(CONFORMITY_RECORD_SIZE, record);
}

/*
 * A pollutant with its limit.
 *     pollutant  enum conformity_pollutant
 *     plan       enum conformity_plan, the same for every pollutant of a sheet
 *     limit      in thousandths of the limit's unit, 1 to CONFORMITY_VALUE_MAX
 *     deviation  plan 1: the deviation s of the natural logarithms, in millionths,
 *                1 to CONFORMITY_DEVIATION_MAX; 0 in the other plans
 */
static inline void conformity_pollutant_record_sized(size_t size, uint8_t *record,
                                                     uint32_t pollutant, uint32_t plan,
                                                     uint32_t limit, uint32_t deviation)
{
    if (conformity_begin_(size, record, CONFORMITY_KIND_POLLUTANT)) {
        conformity_put_(record + 1, 1, conformity_at_most_(pollutant, 0xffu));
        conformity_put_(record + 2, 1, conformity_at_most_(plan, 0xffu));
        conformity_put_(record + 4, 4, limit);
        conformity_put_(record + 8, 4, deviation);
    }
}

static inline void conformity_pollutant_record(uint8_t record[CONFORMITY_RECORD_SIZE],
                                               uint32_t pollutant, uint32_t plan,
                                               uint32_t limit, uint32_t deviation)
{
    conformity_pollutant_record_sized(CONFORMITY_RECORD_SIZE, record, pollutant, plan, limit,
                                      deviation);
}

/*
 * A small engine: what the particulate limit depends on (96/1/EC, 8.1.1.1.1). At
 * most once on a sheet, straight after the pollutants. Not in plan 4.
 *     volume  swept volume per cylinder in cubic centimetres; any number
 *     speed   rated speed per minute; any number
 *     date    of the test, year * 10000 + month * 100 + day, so that 30 September
 *             1998 is 19980930: a day of the Gregorian calendar, taken back to
 *             year 1, in the years 1 to 9999
 * Where the sheet declares particulates, their limit must be
 *     CONFORMITY_PARTICULATE_LIMIT_SMALL_ENGINE
 *             if the volume is under 700, the speed above 3000 and the date
 *             19980930 or earlier
 *     CONFORMITY_PARTICULATE_LIMIT
 *             otherwise
 * The other limits are not asked about.
 */
static inline void conformity_small_engine_record_sized(size_t size, uint8_t *record,
                                                        uint32_t volume, uint32_t speed,
                                                        uint32_t date)
{
    if (conformity_begin_(size, record, CONFORMITY_KIND_SMALL_ENGINE)) {
        conformity_put_(record + 2, 2, conformity_at_most_(volume, 0xffffu));
        conformity_put_(record + 4, 2, conformity_at_most_(speed, 0xffffu));
        conformity_put_(record + 8, 4, date);
    }
}

static inline void conformity_small_engine_record(uint8_t record[CONFORMITY_RECORD_SIZE],
                                                  uint32_t volume, uint32_t speed,
                                                  uint32_t date)
{
    conformity_small_engine_record_sized(CONFORMITY_RECORD_SIZE, record, volume, speed, date);
}

/*
 * The first engine's values after running-in, by which every engine is corrected
 * (96/1/EC, 8.1.1.2.2). At most once on a sheet, after the pollutants and the small
 * engine if there is one, before the first engine. Not in plan 4.
 *     values  conformity_pollutants(size) of them, laid out and in range as an
 *             engine's measurements are: values[pollutant - 1]; 0 for a pollutant that
 *             the sheet does not declare
 * The engines' records then hold what was measured at zero hours, the first engine's
 * too. Of each pollutant every engine counts as its measurement * value / the first
 * engine's measurement, so that the first one counts as its value after running-in.
 * Nothing is divided: plans 1, 2 and 5 add and subtract logarithms, and plan 3
 * compares measurement * value with limit * the first engine's measurement.
 */
static inline void conformity_run_in_record_sized(size_t size, uint8_t *record,
                                                  const uint32_t *values)
{
    if (conformity_begin_(size, record, CONFORMITY_KIND_RUN_IN)) {
        conformity_put_measurements_(size, record, values);
    }
}

static inline void conformity_run_in_record(uint8_t record[CONFORMITY_RECORD_SIZE],
                                            const uint32_t values[CONFORMITY_POLLUTANTS])
{
    conformity_run_in_record_sized(CONFORMITY_RECORD_SIZE, record, values);
}

/*
 * An engine, or in plan 4 a vehicle.
 *     cause         plan 4: what made a gross emitter one, as numbered by the
 *                   caller, 1 to CONFORMITY_CAUSE_MAX; equal causes, equal
 *                   numbers; CONFORMITY_CAUSE_PENDING until it is found, see
 *                   conformity_finding. 0 for every other vehicle and in the other
 *                   plans. A vehicle is a gross emitter if a measurement is above
 *                   3/2 of its limit
 *     measurements  conformity_pollutants(size) of them, in thousandths of the
 *                   limit's unit, 1 to CONFORMITY_VALUE_MAX, carbon monoxide first:
 *                   measurements[pollutant - 1]; 0 for a pollutant that the sheet
 *                   does not declare
 */
static inline void conformity_engine_record_sized(size_t size, uint8_t *record, uint32_t cause,
                                                  const uint32_t *measurements)
{
    if (conformity_begin_(size, record, CONFORMITY_KIND_ENGINE)) {
        conformity_put_(record + 1, 1, cause > CONFORMITY_CAUSE_PENDING ? 0xffu : 0);
        conformity_put_(record + 2, 2, conformity_at_most_(cause, 0xffffu));
        conformity_put_measurements_(size, record, measurements);
    }
}

static inline void conformity_engine_record(uint8_t record[CONFORMITY_RECORD_SIZE],
                                            uint32_t cause,
                                            const uint32_t measurements[CONFORMITY_POLLUTANTS])
{
    conformity_engine_record_sized(CONFORMITY_RECORD_SIZE, record, cause, measurements);
}

/* ---- Reading a report --------------------------------------------------- */

/* The first four bytes are the same in reports of either size, and so are their readers. */

/* Whether these bytes bear the mark of a report (1) or not (0). */
static inline int conformity_is_report(const uint8_t report[CONFORMITY_REPORT_SIZE])
{
    return report[0] == CONFORMITY_REPORT_MARK;
}

/* The series: enum conformity_verdict. */
static inline uint32_t conformity_report_verdict(const uint8_t report[CONFORMITY_REPORT_SIZE])
{
    return report[1];
}

/* What the verdict rests on: enum conformity_ground. */
static inline uint32_t conformity_report_ground(const uint8_t report[CONFORMITY_REPORT_SIZE])
{
    return report[2];
}

/* The engine, counted from 1, at which the series was decided or is held; for another, the engines
   so far. */
static inline uint32_t conformity_report_engine(const uint8_t report[CONFORMITY_REPORT_SIZE])
{
    return report[3];
}

/* For the readers: whether a report of this size has a place for the pollutant. */
static inline int conformity_has_pollutant_(size_t size, uint32_t pollutant)
{
    return pollutant >= 1 && pollutant <= conformity_pollutants(size);
}

/* A pollutant's decision, enum conformity_decision; open for a number that is no pollutant's, and
   for a size that is not 20 or 28. */
static inline uint32_t conformity_report_decision_sized(size_t size, const uint8_t *report,
                                                        uint32_t pollutant)
{
    return conformity_has_pollutant_(size, pollutant) ? report[2 + 2 * pollutant] : 0;
}

static inline uint32_t conformity_report_decision(const uint8_t report[CONFORMITY_REPORT_SIZE],
                                                  uint32_t pollutant)
{
    return conformity_report_decision_sized(CONFORMITY_REPORT_SIZE, report, pollutant);
}

/* The engine, counted from 1, at which the pollutant was decided; 0 where it is open. */
static inline uint32_t conformity_report_decision_engine_sized(size_t size, const uint8_t *report,
                                                               uint32_t pollutant)
{
    return conformity_has_pollutant_(size, pollutant) ? report[3 + 2 * pollutant] : 0;
}

static inline uint32_t
conformity_report_decision_engine(const uint8_t report[CONFORMITY_REPORT_SIZE],
                                  uint32_t pollutant)
{
    return conformity_report_decision_engine_sized(CONFORMITY_REPORT_SIZE, report, pollutant);
}

#ifdef __cplusplus
}
#endif

#endif /* CONFORMITY_H */
