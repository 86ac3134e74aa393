/* Writes the sample sheets, the lines that the documents give for each and, for a refused one, what `verdict` says of it
   to people: NAME.sheet, NAME.lines and NAME.why, into the folder named; sheets of 28-byte records, which `verdict` does not
   read, and their lines are NAME.sheet28 and NAME.lines28. The lines are typed here from the documents and not computed; a
   refusal's sentence is that of the header, with which the program's has to agree. */
#include <conformity.h>

#include <stdint.h>
#include <stdio.h>
#include <stdlib.h>
#include <string.h>

static const char *folder;
static uint8_t sheet[8192];
static size_t length;
static size_t record_size = 20;

static void byte(uint32_t x) {
    sheet[length++] = (uint8_t)x;
}

static void two(uint32_t x) {
    byte(x);
    byte(x >> 8);
}

static void four(uint32_t x) {
    two(x);
    two(x >> 16);
}

/* Zeros up to the end of the record. */
static void fill(void) {
    while (length % record_size != 0) byte(0);
}

static void pollutant(uint32_t number, uint32_t plan, uint32_t limit, uint32_t deviation) {
    byte(1);
    byte(number);
    byte(plan);
    byte(0);
    four(limit);
    four(deviation);
    fill();
}

/* "Record kind 5": the swept volume per cylinder, the rated speed and the date. */
static void small_engine(uint32_t volume, uint32_t speed, uint32_t date) {
    byte(5);
    byte(0);
    two(volume);
    two(speed);
    two(0);
    four(date);
    fill();
}

static void four_measurements(uint32_t kind, uint32_t cause, uint32_t co, uint32_t hc, uint32_t nox, uint32_t pm) {
    byte(kind);
    byte(0);
    two(cause);
    four(co);
    four(hc);
    four(nox);
    four(pm);
}

static void engine(uint32_t cause, uint32_t co, uint32_t hc, uint32_t nox, uint32_t pm) {
    four_measurements(2, cause, co, hc, nox, pm);
    fill();
}

/* In a 28-byte record. */
static void engine_of_six(uint32_t cause, uint32_t co, uint32_t hc, uint32_t nox, uint32_t pm, uint32_t fifth, uint32_t sixth) {
    four_measurements(2, cause, co, hc, nox, pm);
    four(fifth);
    four(sixth);
}

/* "Record kind 6": the first engine's values after running-in, "laid out as measurements". */
static void run_in(uint32_t co, uint32_t hc, uint32_t nox, uint32_t pm) {
    four_measurements(6, 0, co, hc, nox, pm);
    fill();
}

/* In a 28-byte record. */
static void run_in_of_six(uint32_t co, uint32_t hc, uint32_t nox, uint32_t pm, uint32_t fifth, uint32_t sixth) {
    four_measurements(6, 0, co, hc, nox, pm);
    four(fifth);
    four(sixth);
}

/* An engine or run-in values, the same of every pollutant. */
static void all_measure(uint32_t kind, uint32_t x) {
    byte(kind);
    byte(0);
    two(0);
    while (length % record_size != 0) four(x);
}

/* Engines measured for pollutant 1 alone. */
static void measured(int engines, uint32_t x) {
    while (engines-- > 0) engine(0, x, 0, 0, 0);
}

/* Engines measured for pollutant 4, particulates, alone. */
static void particulates(int engines, uint32_t x) {
    while (engines-- > 0) engine(0, 0, 0, 0, x);
}

/* So many times 4000, 1000. */
static void pairs(int count) {
    while (count-- > 0) {
        measured(1, 4000);
        measured(1, 1000);
    }
}

static void stop(void) {
    byte(3);
    fill();
}

static void put(const char *name, const char *ending, const void *bytes, size_t n) {
    char path[4096];
    snprintf(path, sizeof path, "%s/%s.%s", folder, name, ending);
    FILE *f = fopen(path, "wb");
    if (f == NULL || fwrite(bytes, 1, n, f) != n || fclose(f) != 0) {
        perror(path);
        exit(1);
    }
}

/* The records so far are a sheet, and these its lines. */
static void sample(const char *name, const char *lines) {
    put(name, record_size == 20 ? "sheet" : "sheet28", sheet, length);
    put(name, record_size == 20 ? "lines" : "lines28", lines, strlen(lines));
    length = 0;
}

/* The records so far are refused with a number, at a record. */
static void refused_at(const char *name, unsigned number, unsigned record) {
    char lines[32];
    snprintf(lines, sizeof lines, "refused %u %u\n", number, record);
    sample(name, lines);
}

/* What `verdict` says of a refusal; the record is what `what` says, NULL where none is named. */
static void said(const char *name, unsigned number, unsigned record, const char *what) {
    char why[256];
    const char *text = conformity_refusal_text(number);
    if (what == NULL)
        snprintf(why, sizeof why, "verdict: %s\n", text);
    else
        snprintf(why, sizeof why, "verdict: record %u (%s): %s\n", record, what, text);
    put(name, "why", why, strlen(why));
}

/* Refused as above, and said where `verdict` reads the sheet. */
static void refused(const char *name, unsigned number, unsigned record, const char *what) {
    if (record_size == 20) said(name, number, record, what);
    refused_at(name, number, record);
}

/* The lines of a sheet of pollutant 1 that is decided, or not, at row 3. */
#define PASS_AT_3 "pass 3 1\n1 pass 3\n"
#define FAIL_AT_3 "fail 3 1\n1 fail 3\n"
#define ANOTHER_AT_3 "another 3 0\n1 open 0\n"

/* Three engines that measure the same of pollutant 1, and what is printed of them. */
static void three(const char *name, uint32_t plan, uint32_t limit, uint32_t deviation, uint32_t measurement, const char *lines) {
    pollutant(1, plan, limit, deviation);
    measured(3, measurement);
    sample(name, lines);
}

/* Document 01's own sheet. */
static void example(void) {
    pollutant(4, 3, 150, 0);
    particulates(4, 140);
    sample("example", "pass 4 1\n4 pass 4\n");
}

/* "Series that stand on a line" */
static void on_a_line(void) {
    three("known-625020", 1, 4000, 625020, 2000, PASS_AT_3);
    three("known-625021", 1, 4000, 625021, 2000, ANOTHER_AT_3);
    three("known-440186", 1, 4000, 440186, 8000, FAIL_AT_3);
    three("known-440187", 1, 4000, 440187, 8000, ANOTHER_AT_3);

    three("unknown-4000-4000-4000", 2, 4000, 0, 4000, PASS_AT_3);
    pollutant(1, 2, 4000, 0);
    measured(2, 4000);
    measured(1, 2000);
    sample("unknown-4000-4000-2000", ANOTHER_AT_3);
    three("unknown-8000-8000-8000", 2, 4000, 0, 8000, FAIL_AT_3);
    pollutant(1, 2, 4000, 0);
    measured(2, 8000);
    measured(1, 16000);
    sample("unknown-8000-8000-16000", ANOTHER_AT_3);

    /* 1500 is no gross emitter, so its cause is 0; 1501 is, so its cause is not. */
    pollutant(1, 4, 1000, 0);
    measured(1, 1500);
    sample("in-service-1500", "another 1 0\n1 open 0\n");
    pollutant(1, 4, 1000, 0);
    engine(7, 1501, 0, 0, 0);
    sample("in-service-1501", "another 1 0\n1 open 0\n");
    pollutant(1, 4, 1000, 0);
    measured(1, 1501);
    refused("in-service-1501-without-cause", 9, 1, "engine 1");
    pollutant(1, 4, 1000, 0);
    engine(7, 1501, 0, 0, 0);
    engine(7, 1501, 0, 0, 0);
    measured(1, 900);
    sample("equal-cause", "fail 3 2\n1 open 0\n");
    pollutant(1, 4, 1000, 0);
    engine(7, 1501, 0, 0, 0);
    engine(8, 1501, 0, 0, 0);
    measured(1, 900);
    sample("unlike-causes", ANOTHER_AT_3);

    pollutant(1, 1, 4000, 625020);
    sample("no-engine", "another 0 0\n1 open 0\n");
    pollutant(1, 1, 4000, 625020);
    stop();
    sample("stop-at-0", "fail 0 3\n1 open 0\n");
}

/* Document 02, F-6: the same series of limit 2000 under plan 5, the corrected sheet, and under plan 2. Run in, each engine
   counts for half of what it measured, which is half of the limit too: the logarithms' differences stay. */
static void corrected(int is_run_in) {
    const char *beginning = is_run_in ? "run-in-" : "";
    uint32_t limit = is_run_in ? 1000 : 2000;
    static const struct {
        uint32_t plan;
        const char *first, *last;
    } answers[] = {
        {5, "pass 31 1\n1 pass 31\n", "pass 32 1\n1 pass 32\n"},
        {2, "another 31 0\n1 open 0\n", "fail 32 1\n1 fail 32\n"},
    };
    for (int i = 0; i < 2; i++) {
        char name[32];
        /* 2000, then fifteen times 4000, 1000 */
        pollutant(1, answers[i].plan, limit, 0);
        if (is_run_in) run_in(1000, 0, 0, 0);
        measured(1, 2000);
        pairs(15);
        snprintf(name, sizeof name, "%splan-%u-row-31", beginning, answers[i].plan);
        sample(name, answers[i].first);
        /* sixteen times 4000, 1000 */
        pollutant(1, answers[i].plan, limit, 0);
        if (is_run_in) run_in(2000, 0, 0, 0);
        pairs(16);
        snprintf(name, sizeof name, "%splan-%u-row-32", beginning, answers[i].plan);
        sample(name, answers[i].last);
    }
}

/* Document 02, F-9: readings above a limit of 9,000,000 whose logarithms were the limit's. Only that of 9,000,001 still is. */
static void finer(void) {
    three("finer-9000001", 2, 9000000, 0, 9000001, PASS_AT_3);
    three("finer-9000002", 2, 9000000, 0, 9000002, FAIL_AT_3);
    three("finer-9000010", 2, 9000000, 0, 9000010, FAIL_AT_3);
}

/* Four vehicles of plan 4 with the limit 1000: a gross emitter, two that measure the same, and another gross emitter. */
static void four_vehicles(const char *name, uint32_t middle, uint32_t last, uint32_t last_cause, const char *lines) {
    int is_gross = middle > 1500;
    pollutant(1, 4, 1000, 0);
    engine(1, 1501, 0, 0, 0);
    engine(is_gross ? 2 : 0, middle, 0, 0, 0);
    engine(is_gross ? 3 : 0, middle, 0, 0, 0);
    engine(last_cause, last, 0, 0, 0);
    sample(name, lines);
}

/* Document 02, F-11: "only row 3 is left open for gross emitters. Equal cause and referral come first as before." The release
   before it had the same answers but for the four that are decided by row 4: it answered "another 4 0" to these. */
static void increased(void) {
    four_vehicles("increased-1501", 1501, 1501, 4, "fail 4 1\n1 fail 4\n");
    four_vehicles("increased-1712", 1501, 1712, 4, "fail 4 1\n1 fail 4\n");
    four_vehicles("increased-1713", 1501, 1713, 4, "another 4 0\n1 open 0\n");
    four_vehicles("increased-20", 20, 1501, 2, "pass 4 1\n1 pass 4\n");
    four_vehicles("increased-48", 48, 1501, 2, "pass 4 1\n1 pass 4\n");
    four_vehicles("increased-49", 49, 1501, 2, "another 4 0\n1 open 0\n");
    four_vehicles("increased-equal-cause", 20, 1501, 1, "fail 4 2\n1 open 0\n");
    pollutant(1, 4, 1000, 0);
    engine(1, 1501, 0, 0, 0);
    measured(2, 20);
    sample("increased-row-3", ANOTHER_AT_3);
}

/* Vehicles of plan 4 with the limit 1000: gross emitters measure 1600, each with its cause, and those without one 900. */
#define PENDING 65535
#define CAUSES(...) (const uint32_t[]){__VA_ARGS__, END_OF_CAUSES}
#define END_OF_CAUSES UINT32_MAX

static void vehicles(const char *name, const uint32_t *causes, const char *lines) {
    pollutant(1, 4, 1000, 0);
    for (; *causes != END_OF_CAUSES; causes++) engine(*causes, *causes == 0 ? 900 : 1600, 0, 0, 0);
    sample(name, lines);
}

#define HELD_AT_3 "held 3 5\n1 open 0\n"

/* Document 02, F-5: "Cause 65,535 now marks a gross emitter whose finding is pending". */
static void held(void) {
    vehicles("held", CAUSES(PENDING, 0, 0), HELD_AT_3);
    vehicles("held-below-row-3", CAUSES(PENDING, 0), "another 2 0\n1 open 0\n");
    vehicles("held-two-pending", CAUSES(PENDING, PENDING, 0), HELD_AT_3);
    /* "two equal known causes still fail the series", but not behind the row at which it is held */
    vehicles("equal-cause-and-pending", CAUSES(7, 7, PENDING), "fail 3 2\n1 open 0\n");
    vehicles("held-equal-cause-behind", CAUSES(PENDING, 0, 0, 7, 7), HELD_AT_3);
    /* the sheets of a finding: before it, and with 7 and with 8 entered for engine 1 */
    vehicles("finding-pending", CAUSES(PENDING, 0, 7), HELD_AT_3);
    vehicles("finding-7", CAUSES(7, 0, 7), "fail 3 2\n1 open 0\n");
    vehicles("finding-8", CAUSES(8, 0, 7), ANOTHER_AT_3);

    /* Decided before the pending vehicle; and held at row 4, which would pass with its cause known. */
    pollutant(1, 4, 1000, 0);
    measured(3, 500);
    engine(PENDING, 1600, 0, 0, 0);
    sample("held-decided-before", "pass 3 1\n1 pass 3\n");
    four_vehicles("held-at-4", 20, 1501, PENDING, "held 4 5\n1 open 0\n");

    /* "open pollutants stay open"; one that has passed keeps its decision. */
    pollutant(1, 4, 1000, 0);
    pollutant(2, 4, 1000, 0);
    engine(0, 500, 1200, 0, 0);
    engine(0, 500, 900, 0, 0);
    engine(0, 500, 1200, 0, 0);
    engine(PENDING, 500, 1600, 0, 0);
    sample("held-with-a-pass", "held 4 5\n1 pass 3\n2 open 0\n");
}

/* A sheet of every pollutant and as many engines as there are rows. T is 0, which only the numbers of row 32 pass; run in,
   an engine at twice the limit counts for the limit. The stop comes after the decision. */
static void longest_of(const char *name, uint32_t limit, int has_small_engine, int has_run_in) {
    int is_of_four = record_size == 20;
    for (uint32_t p = 1; p <= (is_of_four ? 4 : 6); p++) pollutant(p, 1, limit, 1);
    if (has_small_engine) small_engine(700, 3000, 19981001);
    if (has_run_in) all_measure(6, limit);
    for (int n = 1; n <= 32; n++) all_measure(2, has_run_in ? 2 * limit : limit);
    stop();
    sample(name, is_of_four ? "pass 32 1\n1 pass 32\n2 pass 32\n3 pass 32\n4 pass 32\n"
                            : "pass 32 1\n1 pass 32\n2 pass 32\n3 pass 32\n4 pass 32\n5 pass 32\n6 pass 32\n");
}

/* Of 37 records, 38 and 39, in records of 28 bytes 39, 40 and 41. */
static void longest(void) {
    longest_of("longest-without-either", 1000, 0, 0);
    longest_of("longest-without-run-in", 150, 1, 0);
    longest_of("longest-without-small-engine", 150, 0, 1);
    longest_of("longest", 150, 1, 1);
}

/* The grounds, rows and lines that the lists above leave out. */
static void others(void) {
    /* Stopped after two engines, of two pollutants. */
    pollutant(2, 2, 150, 0);
    pollutant(3, 2, 150, 0);
    engine(0, 0, 140, 160, 0);
    engine(0, 0, 140, 160, 0);
    stop();
    sample("stopped", "fail 2 3\n2 open 0\n3 open 0\n");

    /* Two gross emitters of unlike cause among 15: 800 and 1250 by turns leave each row before open. With a third that is
       pending the sheet is full, and held. */
    for (int is_held = 0; is_held <= 1; is_held++) {
        pollutant(1, 4, 1000, 0);
        for (int n = 1; n <= 15; n++) {
            if (n == 5) engine(7, 1501, 0, 0, 0);
            else if (n == 9) engine(8, 1501, 0, 0, 0);
            else if (n == 15 && is_held) engine(PENDING, 1501, 0, 0, 0);
            else measured(1, n % 2 == 1 ? 800 : 1250);
        }
        if (is_held) sample("held-at-15", "held 15 5\n1 open 0\n");
        else sample("referred", "referred 15 4\n1 open 0\n");
    }

    /* Plan 3: none over passes at 4; two, three and four over of 3, 4 and 5 fail at 5; one over is open. */
    pollutant(1, 3, 150, 0);
    pollutant(2, 3, 150, 0);
    pollutant(3, 3, 150, 0);
    engine(0, 150, 151, 151, 0);
    engine(0, 150, 151, 150, 0);
    engine(0, 150, 150, 150, 0);
    engine(0, 150, 151, 150, 0);
    engine(0, 150, 151, 150, 0);
    sample("three-decisions", "fail 5 1\n1 pass 4\n2 fail 5\n3 open 0\n");

    /* Plan 3's last row: "At 19: pass up to 8, fail from 9." */
    pollutant(1, 3, 150, 0);
    for (int n = 1; n <= 19; n++) measured(1, n % 2 == 0 && n <= 16 ? 151 : 150);
    sample("attributes-8-of-19", "pass 19 1\n1 pass 19\n");
    pollutant(1, 3, 150, 0);
    for (int n = 1; n <= 19; n++) measured(1, n % 2 == 0 ? 151 : 150);
    sample("attributes-9-of-19", "fail 19 1\n1 fail 19\n");

    /* "Engines after the decision are checked and counted for nothing." */
    pollutant(1, 2, 4000, 0);
    measured(3, 4000);
    measured(2, 9999999);
    sample("after-the-decision", PASS_AT_3);

    /* Two series of seven engines that one C library's logarithm passes at 7 and another's leaves open, each in its own way. */
    static const uint32_t first[] = {6054011, 7125279, 7809388, 7501976, 5847897, 5300524, 6870023};
    pollutant(1, 1, 7244722, 217432);
    for (int i = 0; i < 7; i++) measured(1, first[i]);
    sample("seven-first", "pass 7 1\n1 pass 7\n");
    static const uint32_t second[] = {5905477, 5140553, 6640553, 6153108, 3863460, 4805799, 5534779};
    pollutant(1, 1, 6273177, 358586);
    for (int i = 0; i < 7; i++) measured(1, second[i]);
    sample("seven-second", "pass 7 1\n1 pass 7\n");
}

/* "What each operation turns down" */
static void refusals(void) {
    refused("refused-01-no-bytes", 1, 0, NULL);
    pollutant(1, 1, 4000, 625020);
    length--;
    refused("refused-01-not-whole", 1, 0, NULL);
    pollutant(1, 1, 4000, 625020);
    measured(39, 2000);
    refused("refused-01-40-records", 1, 0, NULL);
    pollutant(1, 1, 4000, 625020);
    measured(399, 2000);
    refused("refused-01-400-records", 1, 0, NULL);

    while (length < 20) byte(9);
    refused("refused-02", 2, 0, "kind 9");
    stop();
    refused("refused-03-first", 3, 0, "stop");
    pollutant(1, 3, 150, 0);
    measured(1, 1);
    pollutant(2, 3, 150, 0);
    refused("refused-03-pollutant-after-engine", 3, 2, "pollutant 2");
    pollutant(1, 3, 150, 0);
    stop();
    stop();
    refused("refused-03-after-stop", 3, 2, "stop");
    pollutant(2, 3, 150, 0);
    pollutant(2, 3, 150, 0);
    refused("refused-04", 4, 1, "pollutant 2");
    pollutant(2, 3, 150, 0);
    pollutant(3, 2, 150, 0);
    refused("refused-05", 5, 1, "pollutant 3");
    pollutant(1, 6, 2000, 0);
    refused("refused-05-plan-6", 5, 0, "pollutant 1");
    pollutant(2, 3, 10000000, 0);
    refused("refused-06", 6, 0, "pollutant 2");
    pollutant(2, 1, 10000, 4000001);
    refused("refused-07", 7, 0, "pollutant 2");
    pollutant(2, 2, 10000, 0);
    measured(1, 1);
    refused("refused-08", 8, 1, "engine 1");
    pollutant(1, 4, 10000, 0);
    engine(3, 20, 0, 0, 0);
    refused("refused-09", 9, 1, "engine 1");
    pollutant(1, 4, 1000, 0);
    engine(PENDING, 1500, 0, 0, 0);
    refused("refused-09-pending", 9, 1, "engine 1");
    pollutant(1, 2, 1000, 0);
    engine(PENDING, 1501, 0, 0, 0);
    refused("refused-09-pending-plan-2", 9, 1, "engine 1");
    pollutant(1, 3, 150, 0);
    measured(20, 150);
    refused("refused-10", 10, 20, "engine 20");
    pollutant(1, 1, 4000, 625020);
    measured(38, 2000);
    refused("refused-10-39-records", 10, 33, "engine 33");
    pollutant(1, 4, 10000, 0);
    stop();
    refused("refused-11", 11, 1, "stop");
    pollutant(1, 3, 150, 0);
    stop();
    sheet[21] = 1;
    refused("refused-12", 12, 1, "stop");
}

/* Plan 3 and pollutant 4 with a limit, then a small engine. */
static void small_engine_of(uint32_t limit, uint32_t volume, uint32_t speed, uint32_t date) {
    pollutant(4, 3, limit, 0);
    small_engine(volume, speed, date);
}

/* The same, and four engines that pass: "pass 4 1, pollutant 4: pass 4". */
static void accepted_small_engine(const char *name, uint32_t limit, uint32_t volume, uint32_t speed, uint32_t date) {
    small_engine_of(limit, volume, speed, date);
    particulates(4, 140);
    sample(name, "pass 4 1\n4 pass 4\n");
}

/* The same with this refusal of the small engine, which is record 1. */
static void refused_small_engine(const char *name, unsigned number, uint32_t limit, uint32_t volume, uint32_t speed,
                                 uint32_t date) {
    small_engine_of(limit, volume, speed, date);
    particulates(4, 140);
    refused(name, number, 1, "small engine");
}

/* Document 02, F-1, in records of either size: the limit is "250 through 19980930 and 150 after". */
static void small_engines(void) {
    accepted_small_engine("small-engine-250", 250, 699, 3001, 19980930);
    accepted_small_engine("small-engine-150", 150, 699, 3001, 19981001);

    /* Of limit 150: 250 is above it three times of 3. */
    small_engine_of(150, 699, 3001, 19981001);
    particulates(3, 250);
    sample("small-engine-150-fails", "fail 3 1\n4 fail 3\n");

    refused_small_engine("refused-17", 17, 250, 699, 3001, 19980931);
    refused_small_engine("refused-18", 18, 250, 699, 3001, 19981001);
    small_engine_of(250, 699, 3001, 19980930);
    small_engine(699, 3001, 19980930);
    refused("refused-16-second", 16, 2, "small engine");
    small_engine_of(250, 699, 3001, 19980930);
    sheet[length - 1] = 1;
    refused("refused-12-small-engine", 12, 1, "small engine");
}

/* "Under 700" and "above 3000 per minute": "every other engine has 150". Dates that are days, and numbers that are none. */
static void small_engines_on_a_line(void) {
    accepted_small_engine("small-engine-150-volume-700", 150, 700, 3001, 19980930);
    accepted_small_engine("small-engine-150-speed-3000", 150, 699, 3000, 19980930);
    accepted_small_engine("small-engine-150-zeros", 150, 0, 0, 10101);
    accepted_small_engine("small-engine-250-19960229", 250, 0, 65535, 19960229);
    refused_small_engine("refused-18-volume-700", 18, 250, 700, 3001, 19980930);
    refused_small_engine("refused-18-speed-3000", 18, 250, 699, 3000, 19980930);
    refused_small_engine("refused-18-limit-150", 18, 150, 699, 3001, 19980930);
    refused_small_engine("refused-17-19000229", 17, 250, 699, 3001, 19000229);
    refused_small_engine("refused-17-year-0", 17, 250, 699, 3001, 1231);
    refused_small_engine("refused-17-year-10000", 17, 150, 699, 3001, 100000101);

    /* Without pollutant 4 nothing is asked of a limit. */
    pollutant(1, 2, 4000, 0);
    small_engine(65535, 65535, 99991231);
    measured(3, 4000);
    sample("small-engine-without-particulates", PASS_AT_3);
}

/* Where a small engine stands: straight after the pollutants, once, and not in plan 4. */
static void misplaced_small_engines(void) {
    pollutant(4, 3, 250, 0);
    small_engine(699, 3001, 19980930);
    sheet[20] = 4;
    refused("refused-02-kind-4", 2, 1, "kind 4");
    small_engine(699, 3001, 19980930);
    refused("refused-03-small-engine-first", 3, 0, "small engine");
    pollutant(4, 3, 250, 0);
    stop();
    small_engine(699, 3001, 19980930);
    refused("refused-03-small-engine-after-stop", 3, 2, "small engine");
    pollutant(3, 3, 250, 0);
    small_engine(699, 3001, 19980930);
    pollutant(4, 3, 250, 0);
    refused("refused-03-pollutant-after-small-engine", 3, 2, "pollutant 4");
    pollutant(4, 3, 250, 0);
    particulates(1, 140);
    small_engine(699, 3001, 19980930);
    refused("refused-16-after-engine", 16, 2, "small engine");
    /* The date is no day either: 16 comes before 17. */
    pollutant(4, 4, 250, 0);
    small_engine(699, 3001, 0);
    refused("refused-16-plan-4", 16, 1, "small engine");
}

/* Pollutant 1 with a limit, and the first engine's value after running-in. */
static void run_in_of(uint32_t plan, uint32_t limit, uint32_t deviation, uint32_t value) {
    pollutant(1, plan, limit, deviation);
    run_in(value, 0, 0, 0);
}

/* The same and engines: x_1, x_2, x_3 and, where it is not 0, x_4. */
static void run_in_series(const char *name, uint32_t plan, uint32_t limit, uint32_t deviation, uint32_t value,
                          const uint32_t x[4], const char *lines) {
    run_in_of(plan, limit, deviation, value);
    for (int i = 0; i < 4 && x[i] != 0; i++) measured(1, x[i]);
    sample(name, lines);
}
#define ENGINES(...) (const uint32_t[4]){__VA_ARGS__}
#define PASS_AT_4 "pass 4 1\n1 pass 4\n"
#define ANOTHER_AT_4 "another 4 0\n1 open 0\n"

/* Document 02, F-2, in records of either size. Plan 3 compares x_j * value with L * x_1; in the others d_j is g(x_j) +
   g(value) - g(x_1) - g(L). */
static void run_ins(void) {
    /* x_j * 90 > 100 * 100: 9,000, 9,900, 9,990 and 9,990 are not above 10,000, and 10,080 is. */
    run_in_series("run-in-attributes-111", 3, 100, 0, 90, ENGINES(100, 110, 111, 111), PASS_AT_4);
    run_in_series("run-in-attributes-112", 3, 100, 0, 90, ENGINES(100, 110, 111, 112), ANOTHER_AT_4);

    /* Each engine counts for half of the limit, as those at 2000 do, or for twice the limit. */
    run_in_series("run-in-known-625020", 1, 4000, 625020, 2000, ENGINES(4000, 4000, 4000), PASS_AT_3);
    run_in_series("run-in-known-625021", 1, 4000, 625021, 2000, ENGINES(4000, 4000, 4000), ANOTHER_AT_3);
    run_in_series("run-in-known-440186", 1, 4000, 440186, 8000, ENGINES(4000, 4000, 4000), FAIL_AT_3);
    run_in_series("run-in-known-440187", 1, 4000, 440187, 8000, ENGINES(4000, 4000, 4000), ANOTHER_AT_3);

    /* Straight after it: "Pollutants and no engine", "a stop straight after the pollutants". */
    run_in_of(1, 4000, 625020, 2000);
    sample("run-in-no-engine", "another 0 0\n1 open 0\n");
    run_in_of(1, 4000, 625020, 2000);
    stop();
    sample("run-in-stop-at-0", "fail 0 3\n1 open 0\n");

    /* Behind a small engine: 140 * 250 is not above 250 * 140. */
    small_engine_of(250, 699, 3001, 19980930);
    run_in(0, 0, 0, 250);
    particulates(4, 140);
    sample("run-in-small-engine", "pass 4 1\n4 pass 4\n");

    run_in_of(3, 100, 0, 90);
    run_in(90, 0, 0, 0);
    refused("refused-19-second", 19, 2, "run-in values");
    run_in_of(3, 100, 0, 90);
    sheet[record_size + 1] = 1;
    refused("refused-12-run-in", 12, 1, "run-in values");
    pollutant(1, 3, 100, 0);
    run_in(90, 1, 0, 0);
    refused("refused-08-run-in", 8, 1, "run-in values");
}

/* The other lines, and what is particular to running-in. */
static void run_ins_on_a_line(void) {
    /* Plan 2, run in to half: 4000, 4000, 4000 and 4000, 4000, 2000; to twice: 8000, 8000, 8000 and 8000, 8000, 16000. */
    run_in_series("run-in-unknown-8000-8000-8000", 2, 4000, 0, 4000, ENGINES(8000, 8000, 8000), PASS_AT_3);
    run_in_series("run-in-unknown-8000-8000-4000", 2, 4000, 0, 4000, ENGINES(8000, 8000, 4000), ANOTHER_AT_3);
    run_in_series("run-in-unknown-4000-4000-4000", 2, 4000, 0, 8000, ENGINES(4000, 4000, 4000), FAIL_AT_3);
    run_in_series("run-in-unknown-4000-4000-8000", 2, 4000, 0, 8000, ENGINES(4000, 4000, 8000), ANOTHER_AT_3);

    /* Engines that are equal count for the value alone: its logarithm is that of the limit, or above it. */
    run_in_series("run-in-finer-9000001", 2, 9000000, 0, 9000001, ENGINES(5000000, 5000000, 5000000), PASS_AT_3);
    run_in_series("run-in-finer-9000002", 2, 9000000, 0, 9000002, ENGINES(5000000, 5000000, 5000000), FAIL_AT_3);

    /* d is -117,939, -81,485 and -193,593, T is 393,017. */
    run_in_series("run-in-known-78087", 1, 4000, 78087, 3700, ENGINES(4100, 4200, 3900), PASS_AT_3);
    run_in_series("run-in-known-78088", 1, 4000, 78088, 3700, ENGINES(4100, 4200, 3900), ANOTHER_AT_3);

    /* A lower first engine raises what the others count for: "lowering keeps its meaning there if the first engine's
       zero-hour values are the same in both sheets". */
    run_in_series("run-in-2-1-1-2", 3, 1, 0, 1, ENGINES(2, 1, 1, 2), PASS_AT_4);
    run_in_series("run-in-1-1-1-2", 3, 1, 0, 1, ENGINES(1, 1, 1, 2), ANOTHER_AT_4);

    /* The greatest products: equal ones are not above the limit; of those above it two, three and four of 3, 4 and 5 fail
       at 5. */
    run_in_of(3, 9999999, 0, 9999999);
    measured(4, 9999998);
    sample("run-in-greatest", PASS_AT_4);
    run_in_of(3, 9999999, 0, 9999999);
    measured(1, 9999998);
    measured(4, 9999999);
    sample("run-in-greatest-over", "fail 5 1\n1 fail 5\n");

    /* Products of more than 32 bits: x_j * v is 4,294,967,295, of engine 1 less, and L * x_1 is 4,294,967,296; then x_j * v
       is 4,294,967,296, of engine 1 more, and L * x_1 is 4,294,967,295. */
    run_in_series("run-in-wide", 3, 65536, 0, 65535, ENGINES(65536, 65537, 65537, 65537), PASS_AT_4);
    run_in_series("run-in-wide-over", 3, 65535, 0, 65536, ENGINES(65537, 65536, 65536), FAIL_AT_3);

    /* Each pollutant by its own value: as above of pollutant 1; of particulates x_j * 160 > 150 * 140 from 132 on, which
       are two, three and four of 3, 4 and 5. */
    pollutant(1, 3, 100, 0);
    pollutant(4, 3, 150, 0);
    run_in(90, 0, 0, 160);
    engine(0, 100, 0, 0, 140);
    engine(0, 110, 0, 0, 131);
    engine(0, 111, 0, 0, 132);
    engine(0, 111, 0, 0, 132);
    engine(0, 112, 0, 0, 132);
    sample("run-in-two-pollutants", "fail 5 1\n1 pass 4\n4 fail 5\n");
}

/* Where run-in values stand, before the first engine, once, and not in plan 4; and what is asked of them. */
static void refused_run_ins(void) {
    run_in_of(3, 100, 0, 90);
    sheet[20] = 7;
    refused("refused-02-kind-7", 2, 1, "kind 7");
    run_in(90, 0, 0, 0);
    refused("refused-03-run-in-first", 3, 0, "run-in values");
    pollutant(1, 3, 100, 0);
    stop();
    run_in(90, 0, 0, 0);
    refused("refused-03-run-in-after-stop", 3, 2, "run-in values");
    run_in_of(3, 100, 0, 90);
    pollutant(2, 3, 100, 0);
    refused("refused-03-pollutant-after-run-in", 3, 2, "pollutant 2");
    run_in_of(3, 100, 0, 90);
    small_engine(699, 3001, 19980930);
    refused("refused-16-after-run-in", 16, 2, "small engine");
    pollutant(1, 3, 100, 0);
    measured(1, 100);
    run_in(90, 0, 0, 0);
    refused("refused-19-after-engine", 19, 2, "run-in values");
    /* The value is 0 and byte 1 is not: 19 comes before 8 and 12. */
    run_in_of(4, 100, 0, 0);
    sheet[21] = 1;
    refused("refused-19-plan-4", 19, 1, "run-in values");
    /* 8 comes before 12. */
    run_in_of(3, 100, 0, 0);
    sheet[21] = 1;
    refused("refused-08-run-in-0", 8, 1, "run-in values");
    run_in_of(3, 100, 0, 10000000);
    refused("refused-08-run-in-10000000", 8, 1, "run-in values");
    /* Where an engine has its cause. */
    run_in_of(3, 100, 0, 90);
    sheet[22] = 1;
    refused("refused-12-run-in-byte-2", 12, 1, "run-in values");
    run_in_of(3, 100, 0, 90);
    sheet[23] = 1;
    refused("refused-12-run-in-byte-3", 12, 1, "run-in values");
    /* They are no engine. */
    run_in_of(3, 150, 0, 150);
    measured(20, 150);
    refused("refused-10-run-in", 10, 21, "engine 20");
}

/* Document 02, F-10: records of 28 bytes. */
static void six_pollutants(void) {
    pollutant(1, 3, 100, 0);
    pollutant(6, 3, 50, 0);
    for (int i = 0; i < 4; i++) engine_of_six(0, 90, 0, 0, 0, 0, 50);
    sample("six-pollutants", "pass 4 1\n1 pass 4\n6 pass 4\n");

    pollutant(5, 3, 150, 0);
    sample("no-engine", "another 0 0\n5 open 0\n");

    /* One over of 4 keeps pollutant 6 open, and with it the series. */
    pollutant(1, 3, 150, 0);
    pollutant(6, 3, 150, 0);
    engine_of_six(0, 150, 0, 0, 0, 0, 151);
    for (int i = 0; i < 3; i++) engine_of_six(0, 150, 0, 0, 0, 0, 150);
    sample("sixth-open", "another 4 0\n1 pass 4\n6 open 0\n");

    /* None over passes at 4; of pollutant 5, two, three and four over of 3, 4 and 5 fail at 5; one over is open. */
    pollutant(1, 3, 150, 0);
    pollutant(5, 3, 150, 0);
    pollutant(6, 3, 150, 0);
    engine_of_six(0, 150, 0, 0, 0, 150, 151);
    for (int i = 0; i < 4; i++) engine_of_six(0, 150, 0, 0, 0, 151, 150);
    sample("fifth-fails", "fail 5 1\n1 pass 4\n5 fail 5\n6 open 0\n");

    /* Two gross emitters of equal cause, one by pollutant 5 and one by pollutant 6; 1500 makes none. */
    pollutant(1, 4, 1000, 0);
    pollutant(5, 4, 1000, 0);
    pollutant(6, 4, 1000, 0);
    engine_of_six(7, 900, 0, 0, 0, 1501, 900);
    engine_of_six(7, 900, 0, 0, 0, 900, 1501);
    engine_of_six(0, 900, 0, 0, 0, 1500, 1500);
    sample("gross-by-5-and-6", "fail 3 2\n1 open 0\n5 open 0\n6 open 0\n");

    /* Run in: x_j * 45 > 50 * 50 from 56 on, of pollutant 6. */
    for (uint32_t sixth = 55; sixth <= 56; sixth++) {
        pollutant(1, 3, 100, 0);
        pollutant(6, 3, 50, 0);
        run_in_of_six(90, 0, 0, 0, 0, 45);
        engine_of_six(0, 100, 0, 0, 0, 0, 50);
        engine_of_six(0, 110, 0, 0, 0, 0, 55);
        engine_of_six(0, 111, 0, 0, 0, 0, 55);
        engine_of_six(0, 111, 0, 0, 0, 0, sixth);
        if (sixth == 55) sample("run-in-six-pollutants", "pass 4 1\n1 pass 4\n6 pass 4\n");
        else sample("run-in-sixth-open", "another 4 0\n1 pass 4\n6 open 0\n");
    }
}

/* Refusals in which the size counts: of 42 records, but not of 41, the number itself is refused. */
static void refusals_of_28(void) {
    refused_at("refused-01-no-bytes", 1, 0);
    pollutant(1, 1, 4000, 625020);
    length -= 8;
    refused_at("refused-01-20-bytes", 1, 0);
    pollutant(1, 1, 4000, 625020);
    measured(41, 2000);
    refused_at("refused-01-42-records", 1, 0);
    pollutant(7, 3, 150, 0);
    refused_at("refused-04", 4, 0);
    pollutant(5, 3, 150, 0);
    engine_of_six(0, 0, 0, 0, 0, 150, 1);
    refused_at("refused-08", 8, 1);
    pollutant(5, 3, 150, 0);
    run_in_of_six(0, 0, 0, 0, 150, 1);
    refused_at("refused-08-run-in-sixth", 8, 1);
    pollutant(6, 4, 1000, 0);
    engine_of_six(0, 0, 0, 0, 0, 0, 1501);
    refused_at("refused-09", 9, 1);
    pollutant(1, 1, 4000, 625020);
    measured(40, 2000);
    refused_at("refused-10-41-records", 10, 33);
    pollutant(1, 3, 150, 0);
    sheet[27] = 1;
    refused_at("refused-12-pollutant", 12, 0);
    pollutant(1, 3, 150, 0);
    stop();
    sheet[28 + 27] = 1;
    refused_at("refused-12-stop", 12, 1);
}

int main(int count, char **words) {
    if (count != 2) {
        fprintf(stderr, "usage: %s FOLDER\n", words[0]);
        return 1;
    }
    folder = words[1];
    example();
    on_a_line();
    corrected(0);
    corrected(1);
    finer();
    increased();
    held();
    others();
    longest();
    refusals();
    small_engines();
    small_engines_on_a_line();
    misplaced_small_engines();
    run_ins();
    run_ins_on_a_line();
    refused_run_ins();
    record_size = 28;
    example();
    corrected(1);
    increased();
    held();
    small_engines();
    run_ins();
    run_ins_on_a_line();
    six_pollutants();
    longest();
    refusals_of_28();
    return 0;
}
