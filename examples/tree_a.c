/* Reads tree A (see plates.h) from text, chooses its plates for 5 quarters, and prints the choice, the curve and the sheet. */
#include <inttypes.h>
#include <stdio.h>
#include <stdlib.h>
#include <string.h>

#include <plates.h>

enum { COUNT = 5 };

static const char TEXT[] = "((11:4,12:2):3,13:5);";

/* plate, price */
static const uint32_t PAIRS[] = {11, 3, 12, 1, 13, 2};

static int refused(uint32_t number, uint32_t place) {
    fprintf(stderr, "refused %" PRIu32 " %" PRIu32 "\n", number, place);
    return EXIT_FAILURE;
}

static void print(const uint32_t *curve, const uint32_t *answer) {
    printf("%d %d %" PRIu32 " %" PRIu32 " %" PRIu32 "\n", COUNT, PLATES_ROOTED, answer[PLATES_ANSWER_DIVERSITY],
           answer[PLATES_ANSWER_COST], answer[PLATES_ANSWER_TAXA]);
    for (size_t b = 0; b <= COUNT; b++) {
        printf("%zu %" PRIu32 " %" PRIu32 "\n", b, plates_curve_diversity(curve, b), plates_curve_cost(curve, b));
    }
}

static int print_sheet(const uint8_t *outline, size_t records, const uint8_t *marks) {
    uint32_t sheet[PLATES_MOST_SHEET_LEN];
    uint32_t answer[PLATES_SHEET_ANSWER_LEN];
    uint32_t number = plates_sheet(outline, PLATES_OUTLINE_LEN(records), PLATES_ROOTED, marks, PLATES_MARKS_LEN(records),
                                   sheet, sizeof sheet / sizeof *sheet, answer);
    if (number != PLATES_OK) {
        return refused(number, answer[PLATES_ANSWER_PLACE]);
    }
    for (size_t row = 0; row < answer[PLATES_SHEET_ANSWER_ROWS]; row++) {
        printf("%" PRIu32 " %" PRIu32 " %" PRIu32 "\n", plates_sheet_plate(sheet, row), plates_sheet_quarters(sheet, row),
               plates_sheet_diversity(sheet, row));
    }
    printf("total %" PRIu32 " %" PRIu32 "\n", answer[PLATES_SHEET_ANSWER_QUARTERS], answer[PLATES_SHEET_ANSWER_DIVERSITY]);
    return EXIT_SUCCESS;
}

static int choose(const uint8_t *outline, size_t records) {
    uint8_t *marks = malloc(PLATES_MARKS_LEN(records));
    uint32_t *curve = malloc(PLATES_CURVE_LEN(COUNT) * sizeof *curve);
    uint64_t *work = malloc(PLATES_WORK_LEN(records, COUNT) * sizeof *work);
    int status = EXIT_FAILURE;
    if (marks != NULL && curve != NULL && work != NULL) {
        uint32_t answer[PLATES_ANSWER_LEN];
        uint32_t number = plates_choose(outline, PLATES_OUTLINE_LEN(records), COUNT, PLATES_ROOTED,
                                        marks, PLATES_MARKS_LEN(records), curve, PLATES_CURVE_LEN(COUNT),
                                        work, PLATES_WORK_LEN(records, COUNT), answer);
        if (number == PLATES_OK) {
            print(curve, answer);
            status = print_sheet(outline, records, marks);
        } else {
            status = refused(number, answer[PLATES_ANSWER_PLACE]);
        }
    }
    free(work);
    free(curve);
    free(marks);
    return status;
}

int main(void) {
    uint8_t outline[PLATES_MOST_OUTLINE_LEN];
    uint32_t answer[PLATES_READ_ANSWER_LEN];
    uint32_t number = plates_read((const uint8_t *)TEXT, strlen(TEXT), PAIRS, sizeof PAIRS / sizeof *PAIRS,
                                  outline, sizeof outline, answer);
    if (number != PLATES_OK) {
        return refused(number, answer[PLATES_ANSWER_PLACE]);
    }
    return choose(outline, answer[PLATES_READ_ANSWER_RECORDS]);
}
