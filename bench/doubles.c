/* A plain version of report in doubles with the C library's log, to time the delivered library
   against. It reads and checks the same sheets and writes the same 20 bytes; near a line its
   rounding may answer differently, which is why it is no reference for answers. */

#include <math.h>
#include <stddef.h>
#include <stdint.h>
#include <string.h>

enum { RECORD = 20, LONGEST_SHEET = 780, POLLUTANTS = 4, PLANS = 5, LARGEST = 9999999 };
enum { POLLUTANT = 1, ENGINE = 2, STOP = 3, SMALL_ENGINE = 5, RUN_IN = 6 };
enum { OPEN = 0, PASS = 1, FAIL = 2, REFERRED = 3, HELD = 4 };
enum { BY_ROW = 1, BY_EQUAL_CAUSE = 2, BY_STOP = 3, BY_REFERRAL = 4, BY_PENDING = 5 };
enum { PENDING = 65535 };

static const int last_rows[PLANS + 1] = {[1] = 32, [2] = 32, [3] = 19, [4] = 15, [5] = 32};

/* The decision numbers by plan, row 3 first. Plan 3 counts, and plan 4 has no fail number at 15;
   in the last row what does not pass fails. */
static const double pass_numbers[PLANS + 1][30] = {
    [1] = {3.327, 3.261, 3.195, 3.129, 3.063, 2.997, 2.931, 2.865, 2.799, 2.733,
           2.667, 2.601, 2.535, 2.469, 2.403, 2.337, 2.271, 2.205, 2.139, 2.073,
           2.007, 1.941, 1.875, 1.809, 1.743, 1.677, 1.611, 1.545, 1.479, -2.112},
    [2] = {-0.80381, -0.76339, -0.72982, -0.69962, -0.67129, -0.64406, -0.61750, -0.59135,
           -0.56542, -0.53960, -0.51379, -0.48791, -0.46191, -0.43573, -0.40933, -0.38266,
           -0.35570, -0.32840, -0.30072, -0.27263, -0.24410, -0.21509, -0.18557, -0.15550,
           -0.12483, -0.09354, -0.06159, -0.02892, -0.00449, -0.03876},
    [4] = {-0.80381, -0.76339, -0.72982, -0.69962, -0.67129, -0.64406, -0.61750, -0.59135,
           -0.56542, -0.53960, -0.51379, -0.48791, 0.15474},
    [5] = {-0.80381, -0.76339, -0.72982, -0.69962, -0.67129, -0.64406, -0.61750, -0.59135,
           -0.56542, -0.53960, -0.51379, -0.48791, -0.46191, -0.43573, -0.40933, -0.38266,
           -0.35570, -0.32840, -0.30072, -0.27263, -0.24410, -0.21509, -0.18557, -0.15550,
           -0.12483, -0.09354, -0.06159, -0.02892, 0.00449, 0.03876},
};
static const double fail_numbers[PLANS + 1][30] = {
    [1] = {-4.724, -4.790, -4.856, -4.922, -4.988, -5.054, -5.120, -5.185, -5.251, -5.317,
           -5.383, -5.449, -5.515, -5.581, -5.647, -5.713, -5.779, -5.845, -5.911, -5.977,
           -6.043, -6.109, -6.175, -6.241, -6.307, -6.373, -6.439, -6.505, -6.571, -2.112},
    [2] = {16.64743, 7.68627, 4.67136, 3.25573, 2.45431, 1.94369, 1.59105, 1.33295,
           1.13566, 0.97970, 0.85307, 0.74801, 0.65928, 0.58321, 0.51718, 0.45922,
           0.40788, 0.36203, 0.32078, 0.28343, 0.24943, 0.21831, 0.18970, 0.16328,
           0.13880, 0.11603, 0.09480, 0.07493, 0.05629, 0.03879},
    [4] = {16.64743, 7.68627, 4.67136, 3.25573, 2.45431, 1.94369, 1.59105, 1.33295,
           1.13566, 0.97970, 0.85307, 0.74801},
    [5] = {16.64743, 7.68627, 4.67136, 3.25573, 2.45431, 1.94369, 1.59105, 1.33295,
           1.13566, 0.97970, 0.85307, 0.74801, 0.65928, 0.58321, 0.51718, 0.45922,
           0.40788, 0.36203, 0.32078, 0.28343, 0.24943, 0.21831, 0.18970, 0.16328,
           0.13880, 0.11603, 0.09480, 0.07493, 0.05629, 0.03876},
};

struct series {
    int plan, declared, small_engines, run_ins, engines, highest, stopped;
    uint32_t limits[POLLUTANTS], deviations[POLLUTANTS];
};

/* The level is the logarithm that the measurements' are held against; in plan 3 an engine is over
   the limit if so many times its measurement is above the product. */
struct standing {
    double level, times, product, deviation, sum, squares;
    int over, decision, engine;
};

struct gross {
    uint16_t causes[15];
    int count, equal, pending;
};

static uint32_t number_at(const uint8_t *record, int place)
{
    uint32_t number;
    memcpy(&number, record + place, sizeof number);
    return number;
}

static uint16_t short_at(const uint8_t *record, int place)
{
    return (uint16_t)(record[place] | record[place + 1] << 8);
}

static uint16_t cause_of(const uint8_t *engine)
{
    return short_at(engine, 2);
}

static int all_zero(const uint8_t *record, int from)
{
    for (int place = from; place < RECORD; place++)
        if (record[place] != 0)
            return 0;
    return 1;
}

static int in_range(uint32_t number)
{
    return number >= 1 && number <= LARGEST;
}

static int fits(uint32_t x, uint32_t limit)
{
    return limit == 0 ? x == 0 : in_range(x);
}

static int pollutant_fault(const uint8_t *record, const struct series *series)
{
    int number = record[1], plan = record[2];
    uint32_t deviation = number_at(record, 8);
    if (number < 1 || number > POLLUTANTS || number <= series->highest)
        return 4;
    if (plan < 1 || plan > PLANS || (series->declared > 0 && plan != series->plan))
        return 5;
    if (!in_range(number_at(record, 4)))
        return 6;
    if (plan == 1 ? deviation < 1 || deviation > 4000000 : deviation != 0)
        return 7;
    return record[3] == 0 && all_zero(record, 12) ? 0 : 12;
}

static int engine_fault(const uint8_t *record, const struct series *series)
{
    int is_gross = 0;
    for (int i = 0; i < POLLUTANTS; i++) {
        uint32_t x = number_at(record, 4 + 4 * i);
        if (!fits(x, series->limits[i]))
            return 8;
        is_gross |= 2 * (uint64_t)x > 3 * (uint64_t)series->limits[i];
    }
    uint16_t cause = cause_of(record);
    if (series->plan == 4 && is_gross ? cause == 0 : cause != 0)
        return 9;
    if (series->engines == last_rows[series->plan])
        return 10;
    return record[1] == 0 ? 0 : 12;
}

static int is_day(uint32_t date)
{
    static const uint32_t days[13] = {0, 31, 28, 31, 30, 31, 30, 31, 31, 30, 31, 30, 31};
    uint32_t year = date / 10000, month = date / 100 % 100, day = date % 100;
    int leap = year % 4 == 0 && (year % 100 != 0 || year % 400 == 0);
    return year >= 1 && year <= 9999 && month >= 1 && month <= 12 && day >= 1 &&
           day <= days[month] + (month == 2 && leap);
}

static int small_engine_fault(const uint8_t *record, const struct series *series)
{
    uint32_t date = number_at(record, 8), limit = series->limits[POLLUTANTS - 1];
    int is_small = short_at(record, 2) < 700 && short_at(record, 4) > 3000;
    if (series->small_engines > 0 || series->run_ins > 0 || series->engines > 0 ||
        series->plan == 4)
        return 16;
    if (!is_day(date))
        return 17;
    if (limit != 0 && limit != (is_small && date <= 19980930 ? 250 : 150))
        return 18;
    return record[1] == 0 && short_at(record, 6) == 0 && all_zero(record, 12) ? 0 : 12;
}

static int run_in_fault(const uint8_t *record, const struct series *series)
{
    if (series->run_ins > 0 || series->engines > 0 || series->plan == 4)
        return 19;
    for (int i = 0; i < POLLUTANTS; i++)
        if (!fits(number_at(record, 4 + 4 * i), series->limits[i]))
            return 8;
    return record[1] == 0 && short_at(record, 2) == 0 ? 0 : 12;
}

static int fault(const uint8_t *record, const struct series *series)
{
    int kind = record[0];
    if ((kind < POLLUTANT || kind > STOP) && kind != SMALL_ENGINE && kind != RUN_IN)
        return 2;
    if ((series->declared == 0 && kind != POLLUTANT) ||
        (kind == POLLUTANT &&
         (series->small_engines > 0 || series->run_ins > 0 || series->engines > 0)) ||
        series->stopped)
        return 3;
    if (kind == POLLUTANT)
        return pollutant_fault(record, series);
    if (kind == ENGINE)
        return engine_fault(record, series);
    if (kind == SMALL_ENGINE)
        return small_engine_fault(record, series);
    if (kind == RUN_IN)
        return run_in_fault(record, series);
    if (series->plan == 4)
        return 11;
    return all_zero(record, 1) ? 0 : 12;
}

static void take(const uint8_t *record, struct series *series)
{
    if (record[0] == POLLUTANT) {
        series->highest = record[1];
        series->plan = record[2];
        series->limits[record[1] - 1] = number_at(record, 4);
        series->deviations[record[1] - 1] = number_at(record, 8);
        series->declared++;
    } else if (record[0] == ENGINE) {
        series->engines++;
    } else if (record[0] == SMALL_ENGINE) {
        series->small_engines++;
    } else if (record[0] == RUN_IN) {
        series->run_ins++;
    } else {
        series->stopped = 1;
    }
}

static uint32_t check(const uint8_t *sheet, size_t length, struct series *series)
{
    if (length == 0 || length % RECORD != 0 || length > LONGEST_SHEET)
        return 1 * 256;
    for (size_t record = 0; record < length / RECORD; record++) {
        int number = fault(sheet + record * RECORD, series);
        if (number != 0)
            return (uint32_t)number * 256 + (uint32_t)record;
        take(sheet + record * RECORD, series);
    }
    return 0;
}

static int known_decision(const struct standing *standing, int n)
{
    double statistic = -standing->sum / standing->deviation;
    if (statistic > pass_numbers[1][n - 3])
        return PASS;
    return statistic < fail_numbers[1][n - 3] || n == 32 ? FAIL : OPEN;
}

static int unknown_decision(const struct standing *standing, int plan, int n)
{
    double mean = standing->sum / n;
    double variance = standing->squares / n - mean * mean;
    double spread = variance > 0 ? sqrt(variance) : 0;
    if (mean <= pass_numbers[plan][n - 3] * spread)
        return PASS;
    return mean >= fail_numbers[plan][n - 3] * spread || n == last_rows[plan] ? FAIL : OPEN;
}

static int attribute_decision(const struct standing *standing, int n)
{
    if (n > 3 && standing->over <= (n == 19 ? 8 : (n - 4) / 2))
        return PASS;
    return standing->over >= n / 2 + 2 || n == 19 ? FAIL : OPEN;
}

static int decision(const struct standing *standing, int plan, int n)
{
    switch (plan) {
    case 1: return known_decision(standing, n);
    case 2:
    case 4:
    case 5: return unknown_decision(standing, plan, n);
    case 3: return attribute_decision(standing, n);
    default: return OPEN;
    }
}

static void open_standing(struct standing *standing, int plan, uint32_t limit, uint32_t deviation)
{
    standing->level = plan == 3 ? 0 : log(limit);
    standing->times = 1;
    standing->product = limit;
    standing->deviation = deviation / 1e6;
}

/* By the first engine's value after running-in, and by what it measured before. */
static void correct(struct standing *standing, int plan, uint32_t value, uint32_t first)
{
    if (plan != 3)
        standing->level += log(first) - log(value);
    standing->times *= value;
    standing->product *= first;
}

static void add(struct standing *standing, int plan, uint32_t x)
{
    if (plan == 3) {
        standing->over += x * standing->times > standing->product;
    } else {
        double difference = log(x) - standing->level;
        standing->sum += difference;
        standing->squares += difference * difference;
    }
}

static void add_gross(struct gross *gross, uint16_t cause)
{
    if (cause == 0)
        return;
    gross->pending |= cause == PENDING;
    for (int i = 0; i < gross->count; i++)
        gross->equal |= gross->causes[i] == cause && cause != PENDING;
    gross->causes[gross->count++] = cause;
}

/* Decides row n for every open pollutant; PASS or FAIL if that ends the series. */
static int row(struct standing *standings, const struct series *series, int n)
{
    int failed = 0, passed = 1;
    for (int i = 0; i < POLLUTANTS; i++) {
        struct standing *standing = &standings[i];
        if (series->limits[i] == 0)
            continue;
        if (standing->decision == OPEN) {
            standing->decision = decision(standing, series->plan, n);
            standing->engine = standing->decision == OPEN ? 0 : n;
        }
        failed |= standing->decision == FAIL;
        passed &= standing->decision == PASS;
    }
    return failed ? FAIL : passed ? PASS : OPEN;
}

static void write_report(uint8_t *output, int verdict, int ground, int engine,
                         const struct standing *standings)
{
    memset(output, 0, RECORD);
    output[0] = 16;
    output[1] = (uint8_t)verdict;
    output[2] = (uint8_t)ground;
    output[3] = (uint8_t)engine;
    for (int i = 0; i < POLLUTANTS; i++) {
        output[4 + 2 * i] = (uint8_t)standings[i].decision;
        output[5 + 2 * i] = (uint8_t)standings[i].engine;
    }
}

static void judge(const uint8_t *sheet, const struct series *series, uint8_t *output)
{
    struct standing standings[POLLUTANTS] = {0};
    struct gross gross = {0};
    const uint8_t *values = sheet + (series->declared + series->small_engines) * RECORD;
    const uint8_t *engines = values + series->run_ins * RECORD;
    for (int i = 0; i < POLLUTANTS; i++) {
        int place = 4 + 4 * i;
        if (series->limits[i] == 0)
            continue;
        open_standing(&standings[i], series->plan, series->limits[i], series->deviations[i]);
        if (series->run_ins > 0 && series->engines > 0)
            correct(&standings[i], series->plan, number_at(values, place),
                    number_at(engines, place));
    }
    for (int n = 1; n <= series->engines; n++) {
        const uint8_t *engine = engines + (n - 1) * RECORD;
        for (int i = 0; i < POLLUTANTS; i++)
            if (series->limits[i] != 0 && standings[i].decision == OPEN)
                add(&standings[i], series->plan, number_at(engine, 4 + 4 * i));
        add_gross(&gross, cause_of(engine));
        if (n < 3)
            continue;
        if (gross.equal) {
            write_report(output, FAIL, BY_EQUAL_CAUSE, n, standings);
            return;
        }
        if (gross.pending) {
            write_report(output, HELD, BY_PENDING, n, standings);
            return;
        }
        if (n == 15 && gross.count >= 2) {
            write_report(output, REFERRED, BY_REFERRAL, n, standings);
            return;
        }
        if (n == 3 && gross.count > 0)
            continue;
        int verdict = row(standings, series, n);
        if (verdict != OPEN) {
            write_report(output, verdict, BY_ROW, n, standings);
            return;
        }
    }
    if (series->stopped)
        write_report(output, FAIL, BY_STOP, series->engines, standings);
    else
        write_report(output, OPEN, 0, series->engines, standings);
}

uint32_t doubles_report(const uint8_t *sheet, size_t sheet_length, uint8_t *output,
                        size_t output_length)
{
    struct series series = {0};
    if (output_length < RECORD)
        return 15 * 256;
    uint32_t refusal = check(sheet, sheet_length, &series);
    if (refusal == 0)
        judge(sheet, &series, output);
    return refusal;
}
