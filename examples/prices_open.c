/* Asks of tree A (see plates.h) what can be promised while plate 11 is known to cost 3 to 4 quarters: for each page count from 0
 * to 6 the plates that are sure, and between which numbers the best diversity will lie. */
#include <inttypes.h>
#include <stdio.h>
#include <stdlib.h>
#include <string.h>

#include <plates.h>

enum { MOST = 6 };

static const char TREE[] = "((11:4,12:2):3,13:5);";

/* plate, price */
static const uint32_t LOW[] = {11, 3, 12, 1, 13, 2};
static const uint32_t HIGH[] = {11, 4, 12, 1, 13, 2};

static int refused(uint32_t number, uint32_t place) {
    fprintf(stderr, "refused %" PRIu32 " %" PRIu32 "\n", number, place);
    return EXIT_FAILURE;
}

/* How many records the outline has; 0 for a refusal. */
static size_t read_tree(const uint32_t *pairs, size_t pairs_len, uint8_t *outline) {
    uint32_t answer[PLATES_READ_ANSWER_LEN];
    uint32_t number = plates_read((const uint8_t *)TREE, strlen(TREE), pairs, pairs_len, outline, PLATES_MOST_OUTLINE_LEN, answer);
    if (number != PLATES_OK) {
        refused(number, answer[PLATES_ANSWER_PLACE]);
    }
    return answer[PLATES_READ_ANSWER_RECORDS];
}

static int print_sure(const uint8_t *low, const uint8_t *high, size_t records, uint32_t count) {
    uint8_t marks[PLATES_MOST_MARKS_LEN];
    uint32_t curve[PLATES_CURVE_LEN(MOST)];
    uint64_t work[PLATES_WORK_LEN(PLATES_MOST_RECORDS, MOST)];
    uint32_t answer[PLATES_ANSWER_LEN], roof;
    uint32_t number = plates_range(low, PLATES_OUTLINE_LEN(records), high, PLATES_OUTLINE_LEN(records), count, PLATES_ROOTED,
                                   marks, sizeof marks, curve, sizeof curve / sizeof *curve,
                                   work, sizeof work / sizeof *work, answer, &roof);
    if (number != PLATES_OK) {
        return refused(number, answer[PLATES_ANSWER_PLACE]);
    }
    printf("count %" PRIu32 ": best from %" PRIu32 " to %" PRIu32 ", sure:", count, answer[PLATES_ANSWER_DIVERSITY], roof);
    for (size_t record = 1; record <= records; record++) {
        if (marks[record - 1] == 1) {
            printf(" %" PRIu32, plates_record_plate(high, record));
        }
    }
    printf("%s\n", answer[PLATES_ANSWER_TAXA] == 0 ? " none" : "");
    return EXIT_SUCCESS;
}

int main(void) {
    uint8_t low[PLATES_MOST_OUTLINE_LEN], high[PLATES_MOST_OUTLINE_LEN];
    size_t records = read_tree(LOW, sizeof LOW / sizeof *LOW, low);
    if (records == 0 || read_tree(HIGH, sizeof HIGH / sizeof *HIGH, high) != records) {
        return EXIT_FAILURE;
    }
    for (uint32_t count = 0; count <= MOST; count++) {
        if (print_sure(low, high, records, count) != EXIT_SUCCESS) {
            return EXIT_FAILURE;
        }
    }
    return EXIT_SUCCESS;
}
