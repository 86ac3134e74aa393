/* Prints the lines of a sheet of either size through the library's report, in the form in which `verdict` prints those of
   a sheet of 20-byte records: lines SIZE SHEET. */
#include <conformity.h>

#include <stdio.h>
#include <stdlib.h>

static const char *const verdicts[] = {"another", "pass", "fail", "referred", "held"};
static const char *const decisions[] = {"open", "pass", "fail"};

/* The declared pollutants are those of the records of kind 1, whose byte 1 is the pollutant. */
static void print_lines(size_t size, const uint8_t *sheet, size_t length, const uint8_t *report) {
    printf("%s %u %u\n", verdicts[conformity_report_verdict(report)], conformity_report_engine(report),
           conformity_report_ground(report));
    for (size_t at = 0; at < length && sheet[at] == CONFORMITY_KIND_POLLUTANT; at += size) {
        uint32_t pollutant = sheet[at + 1];
        printf("%u %s %u\n", pollutant, decisions[conformity_report_decision_sized(size, report, pollutant)],
               conformity_report_decision_engine_sized(size, report, pollutant));
    }
}

int main(int count, char **words) {
    static uint8_t sheet[8192]; /* longer than any sample */
    uint8_t report[CONFORMITY_REPORT_SIZE_28];
    if (count != 3) {
        fprintf(stderr, "usage: %s SIZE SHEET\n", words[0]);
        return 1;
    }
    size_t size = strtoul(words[1], NULL, 10);
    FILE *f = fopen(words[2], "rb");
    if (f == NULL) {
        perror(words[2]);
        return 1;
    }
    size_t length = fread(sheet, 1, sizeof sheet, f);
    fclose(f);
    uint32_t code = conformity_report_sized(size, sheet, length, report, sizeof report);
    if (code == 0)
        print_lines(size, sheet, length, report);
    else
        printf("refused %u %u\n", conformity_refusal_number(code), conformity_refusal_record(code));
    return 0;
}
