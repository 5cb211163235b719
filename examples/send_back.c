/* Reads tree A (see plates.h) from a text with blanks, chooses its plates for 5 quarters, and writes the tree as text again, with
 * its prices. */
#include <inttypes.h>
#include <stdio.h>
#include <stdlib.h>
#include <string.h>

#include <plates.h>

enum { COUNT = 5 };

static const char TEXT[] = " ( (11:4, 12:02) :3, 13:5 ) ;\n";

/* plate, price */
static const uint32_t PAIRS[] = {11, 3, 12, 1, 13, 2};

static int refused(uint32_t number, uint32_t place) {
    fprintf(stderr, "refused %" PRIu32 " %" PRIu32 "\n", number, place);
    return EXIT_FAILURE;
}

static int choose(const uint8_t *outline, size_t records) {
    uint8_t marks[PLATES_MOST_MARKS_LEN];
    uint32_t curve[PLATES_CURVE_LEN(COUNT)];
    uint64_t work[PLATES_WORK_LEN(PLATES_MOST_RECORDS, COUNT)];
    uint32_t answer[PLATES_ANSWER_LEN];
    uint32_t number = plates_choose(outline, PLATES_OUTLINE_LEN(records), COUNT, PLATES_ROOTED,
                                    marks, sizeof marks, curve, sizeof curve / sizeof *curve,
                                    work, sizeof work / sizeof *work, answer);
    if (number != PLATES_OK) {
        return refused(number, answer[PLATES_ANSWER_PLACE]);
    }
    printf("chosen");
    for (size_t record = 1; record <= records; record++) {
        if (marks[record - 1] == 1) {
            printf(" %" PRIu32, plates_record_plate(outline, record));
        }
    }
    printf("\n");
    return EXIT_SUCCESS;
}

static int send_back(const uint8_t *outline, size_t records) {
    uint8_t text[PLATES_MOST_WRITTEN_LEN];
    uint32_t pairs[PLATES_MOST_PAIRS_LEN];
    uint32_t answer[PLATES_WRITE_ANSWER_LEN];
    uint32_t number = plates_write(outline, PLATES_OUTLINE_LEN(records), text, sizeof text,
                                   pairs, sizeof pairs / sizeof *pairs, answer);
    if (number != PLATES_OK) {
        return refused(number, answer[PLATES_ANSWER_PLACE]);
    }
    /* no byte 0 ends the text */
    printf("%.*s\n", (int)answer[PLATES_WRITE_ANSWER_BYTES], (const char *)text);
    for (size_t k = 0; k < answer[PLATES_WRITE_ANSWER_PAIRS]; k++) {
        printf("%" PRIu32 " %" PRIu32 "\n", pairs[2 * k], pairs[2 * k + 1]);
    }
    return EXIT_SUCCESS;
}

int main(void) {
    uint8_t outline[PLATES_MOST_OUTLINE_LEN];
    uint32_t answer[PLATES_READ_ANSWER_LEN];
    uint32_t number = plates_read((const uint8_t *)TEXT, strlen(TEXT), PAIRS, sizeof PAIRS / sizeof *PAIRS,
                                  outline, sizeof outline, answer);
    if (number != PLATES_OK) {
        return refused(number, answer[PLATES_ANSWER_PLACE]);
    }
    size_t records = answer[PLATES_READ_ANSWER_RECORDS];
    if (choose(outline, records) != EXIT_SUCCESS) {
        return EXIT_FAILURE;
    }
    return send_back(outline, records);
}
