/* Asks of tree A (see plates.h) what each length of a second edition changes by itself, for 5 quarters: how far the best
 * diversity moves, and which plates go and come; and then what they change together. */
#include <inttypes.h>
#include <stdio.h>
#include <stdlib.h>
#include <string.h>

#include <plates.h>

enum { COUNT = 5 };

/* the same tree with other lengths */
static const char FIRST[] = "((11:4,12:2):3,13:5);";
static const char SECOND[] = "((11:1,12:3):2,13:7);";

/* plate, price */
static const uint32_t PAIRS[] = {11, 3, 12, 1, 13, 2};

static int refused(uint32_t number, uint32_t place) {
    fprintf(stderr, "refused %" PRIu32 " %" PRIu32 "\n", number, place);
    return EXIT_FAILURE;
}

/* How many records the outline has; 0 for a refusal. */
static size_t read_tree(const char *text, uint8_t *outline) {
    uint32_t answer[PLATES_READ_ANSWER_LEN];
    uint32_t number = plates_read((const uint8_t *)text, strlen(text), PAIRS, sizeof PAIRS / sizeof *PAIRS,
                                  outline, PLATES_MOST_OUTLINE_LEN, answer);
    if (number != PLATES_OK) {
        refused(number, answer[PLATES_ANSWER_PLACE]);
    }
    return answer[PLATES_READ_ANSWER_RECORDS];
}

static int choose(const char *edition, const uint8_t *outline, size_t records, uint8_t *marks) {
    uint32_t curve[PLATES_CURVE_LEN(COUNT)];
    uint64_t work[PLATES_WORK_LEN(PLATES_MOST_RECORDS, COUNT)];
    uint32_t answer[PLATES_ANSWER_LEN];
    uint32_t number = plates_choose(outline, PLATES_OUTLINE_LEN(records), COUNT, PLATES_ROOTED, marks, PLATES_MARKS_LEN(records),
                                    curve, sizeof curve / sizeof *curve, work, sizeof work / sizeof *work, answer);
    if (number != PLATES_OK) {
        return refused(number, answer[PLATES_ANSWER_PLACE]);
    }
    printf("%s edition: diversity %" PRIu32 ", plates", edition, answer[PLATES_ANSWER_DIVERSITY]);
    for (size_t record = 1; record <= records; record++) {
        if (marks[record - 1] == 1) {
            printf(" %" PRIu32, plates_record_plate(outline, record));
        }
    }
    printf("\n");
    return EXIT_SUCCESS;
}

static void print_change(const uint8_t *outline, size_t records, const uint8_t *marks, const uint8_t *revised) {
    if (memcmp(marks, revised, PLATES_MARKS_LEN(records)) == 0) {
        printf(", the plates stay");
    }
    for (size_t record = 1; record <= records; record++) {
        if (marks[record - 1] != revised[record - 1]) {
            printf(", %" PRIu32 " %s", plates_record_plate(outline, record), revised[record - 1] == 1 ? "comes" : "goes");
        }
    }
    printf("\n");
}

static int revise(const uint8_t *outline, size_t records, const uint8_t *marks, size_t record, uint32_t length) {
    uint8_t revised[PLATES_MOST_MARKS_LEN];
    uint32_t curve[PLATES_CURVE_LEN(COUNT)];
    uint64_t work[PLATES_WORK_LEN(PLATES_MOST_RECORDS, COUNT)];
    uint32_t answer[PLATES_ANSWER_LEN];
    int64_t moved[PLATES_MOVED_LEN];
    uint32_t number = plates_revise(outline, PLATES_OUTLINE_LEN(records), (uint32_t)record, length, COUNT, PLATES_ROOTED,
                                    revised, sizeof revised, curve, sizeof curve / sizeof *curve,
                                    work, sizeof work / sizeof *work, answer, moved);
    if (number != PLATES_OK) {
        return refused(number, answer[PLATES_ANSWER_PLACE]);
    }
    printf("record %zu: length %" PRIu32 " to %" PRIu32 ", diversity %+" PRId64, record, plates_record_length(outline, record),
           length, moved[PLATES_MOVED_BEST]);
    print_change(outline, records, marks, revised);
    return EXIT_SUCCESS;
}

int main(void) {
    uint8_t first[PLATES_MOST_OUTLINE_LEN], second[PLATES_MOST_OUTLINE_LEN], marks[PLATES_MOST_MARKS_LEN];
    size_t records = read_tree(FIRST, first);
    if (records == 0 || read_tree(SECOND, second) != records || choose("first", first, records, marks) != EXIT_SUCCESS) {
        return EXIT_FAILURE;
    }
    for (size_t record = 1; record <= records; record++) {
        uint32_t length = plates_record_length(second, record);
        if (length != plates_record_length(first, record) && revise(first, records, marks, record, length) != EXIT_SUCCESS) {
            return EXIT_FAILURE;
        }
    }
    return choose("second", second, records, marks);
}
