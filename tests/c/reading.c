/*
 * The reading calls as a C program sees them: null pointers with length 0, tables of every size, fields that are not
 * there, and tokens that lie against a page that nobody may touch. The words on the command line are token files that
 * are read in the same way.
 */
#define _DEFAULT_SOURCE
#include "check.h"
#include "trusted_block.h"

/* What a number holds before a call; no call gives it. */
#define UNTOUCHED 0xDEADBEEFu

/* The smallest token, its last 56 bytes 0. */
static const uint8_t smallest[TB_SHORTEST] = {0x1E, 0, 0, 0x50, 0, 0, 0, 0,    0x14, 0, 0, 0x48,
                                              0,    0, 0, 0,    0, 0, 0, 0x01, 0,    0x3E};

static uint32_t read_only(const uint8_t *token, size_t length, uint32_t *second)
{
    uint32_t number;

    *second = UNTOUCHED;
    number = tb_read(token, length, second);
    CHECK(*second != UNTOUCHED);
    return number;
}

static void nothing_at_a_null_pointer(void)
{
    static const uint32_t before[TB_COLUMNS] = {1, 2, 3, 4, 5};
    uint32_t second = UNTOUCHED, offset = UNTOUCHED, length = UNTOUCHED;
    uint32_t table[TB_COLUMNS];

    CHECK(tb_read(NULL, 0, &second) == TB_NO_HEADER && second == 0);
    second = UNTOUCHED;
    CHECK(tb_read_table(NULL, 0, NULL, 0, &second) == TB_NO_HEADER && second == 0);
    second = UNTOUCHED;
    memcpy(table, before, sizeof table);
    CHECK(tb_read_table(NULL, 0, table, TB_COLUMNS, &second) == TB_NO_HEADER && second == 0);
    CHECK(memcmp(table, before, sizeof table) == 0);
    second = UNTOUCHED;
    CHECK(tb_read_table(smallest, TB_SHORTEST, NULL, 0, &second) == TB_NO_ROOM && second == 2);
    CHECK(tb_view(NULL, 0, 0, 0, &second, &offset, &length) == TB_NO_HEADER);
    CHECK(second == 0 && offset == 0 && length == 0);
}

/* A table of this many numbers: too small and untouched, or filled and untouched behind its rows. */
static void smallest_into_table(size_t numbers)
{
    static const uint32_t rows[2 * TB_COLUMNS] = {TB_KIND_INFORMATION, 8,  72, 0, 0,
                                                  TB_KIND_PROTECTION,  18, 62, 0, 0};
    uint32_t before[16], second = UNTOUCHED, number;
    struct lent lent;
    size_t i;

    for (i = 0; i < 16; i++) {
        before[i] = UNTOUCHED;
    }
    lent = lend(before, numbers * sizeof *before, PAGE_BEHIND);
    number = tb_read_table(smallest, TB_SHORTEST, (uint32_t *)(void *)lent.bytes, numbers, &second);
    CHECK(second == 2 && number == (numbers < 2 * TB_COLUMNS ? TB_NO_ROOM : TB_ACCEPTED));
    if (number == TB_ACCEPTED) {
        memcpy(before, rows, sizeof rows);
    }
    CHECK(memcmp(lent.bytes, before, lent.length) == 0);
    take_back(&lent);
}

static void tables_of_every_size(void)
{
    size_t numbers;

    CHECK(TB_COLUMNS == 5 && TB_TABLE == 300 * TB_COLUMNS);
    for (numbers = 0; numbers <= 16; numbers++) {
        smallest_into_table(numbers);
    }
}

/* The fields of a row of the smallest token tile the row's own bytes, and no more fields are there. */
static void fields_of_a_row(uint32_t row, uint32_t fields, uint32_t from, uint32_t to)
{
    static const uint32_t none[] = {0, 1, 2, 255, 65536, UINT32_MAX};
    uint32_t field, second = UNTOUCHED, offset, length;
    size_t i;

    for (field = 0; field < fields; field++) {
        CHECK(tb_view(smallest, TB_SHORTEST, row, field, &second, &offset, &length) == TB_ACCEPTED);
        CHECK(second == 0 && offset == from);
        from = offset + length;
    }
    CHECK(from == to);
    for (i = 0; i < sizeof none / sizeof *none; i++) {
        field = none[i] <= UINT32_MAX - fields ? none[i] + fields : none[i];
        second = offset = length = UNTOUCHED;
        CHECK(tb_view(smallest, TB_SHORTEST, row, field, &second, &offset, &length) == TB_NO_SUCH);
        CHECK(second == 0 && offset == 0 && length == 0);
    }
}

static void fields_of_the_smallest(void)
{
    fields_of_a_row(0, 5, 8, 18);
    fields_of_a_row(1, 7, 18, TB_SHORTEST);
    fields_of_a_row(2, 0, 0, 0);
    fields_of_a_row(UINT32_MAX, 0, 0, 0);
}

/* A step of the walk or a row by its number, as the two rows of the smallest token must give it. */
typedef uint32_t step_call(const uint8_t *, size_t, uint32_t, uint32_t *, uint32_t *, uint32_t *, uint32_t *, uint32_t *,
                           uint32_t *, uint32_t *);

/* What a step gives: second, the row's numbers, next. */
enum { GIVEN = TB_COLUMNS + 2 };

static void step_is(step_call *call, size_t size, uint32_t asked, uint32_t number, const uint32_t expected[GIVEN])
{
    uint32_t given[GIVEN] = {UNTOUCHED, UNTOUCHED, UNTOUCHED, UNTOUCHED, UNTOUCHED, UNTOUCHED, UNTOUCHED};
    struct lent token = lend_to_read(smallest, size, PAGE_BEHIND);

    CHECK(call(token.bytes, size, asked, &given[0], &given[1], &given[2], &given[3], &given[4], &given[5], &given[6]) ==
          number);
    CHECK(memcmp(given, expected, sizeof given) == 0);
    take_back(&token);
}

static void walk_over_the_smallest(void)
{
    static const uint32_t first[GIVEN] = {0, TB_KIND_INFORMATION, 8, 72, 0, 0, 18};
    static const uint32_t last[GIVEN] = {0, TB_KIND_PROTECTION, 18, 62, 0, 0, TB_SHORTEST};
    static const uint32_t none[GIVEN] = {0, 0, 0, 0, 0, 0, 0};
    static const uint32_t cut[GIVEN] = {2, 0, 0, 0, 0, 0, 0};
    uint32_t place;

    for (place = 0; place < 90; place++) {
        step_is(tb_step, TB_SHORTEST, place,
                place == 8 || place == 18 || place == TB_SHORTEST ? TB_ACCEPTED : TB_NO_SUCH,
                place == 8 ? first : place == 18 ? last : none);
        step_is(tb_step, TB_SHORTEST - 1, place, TB_TOKEN_LENGTH, cut);
        step_is(tb_row, TB_SHORTEST, place, place < 2 ? TB_ACCEPTED : TB_NO_SUCH,
                place == 0 ? first : place == 1 ? last : none);
        step_is(tb_row, TB_SHORTEST - 1, place, TB_TOKEN_LENGTH, cut);
    }
    step_is(tb_step, TB_SHORTEST, UINT32_MAX, TB_NO_SUCH, none);
    step_is(tb_row, TB_SHORTEST, UINT32_MAX, TB_NO_SUCH, none);
    step_is(tb_step, 0, 8, TB_NO_HEADER, none);
    step_is(tb_row, 0, 0, TB_NO_HEADER, none);
}

/* In the rows of a table a rule and its subsections have the rule's number, others 0; the walk gives the same rows. */
static void rules_are_numbered(const struct lent *token, const uint32_t *table, uint32_t rows)
{
    uint32_t row, second, given[TB_COLUMNS], place = 8, rules = 0;

    for (row = 0; row < rows; row++) {
        const uint32_t *numbers = table + TB_COLUMNS * row;

        rules += numbers[0] == TB_KIND_RULE;
        CHECK(numbers[4] == (numbers[0] >> 16 == TB_KIND_RULE >> 16 ? rules : 0));
        CHECK(tb_step(token->bytes, token->length, place, &second, &given[0], &given[1], &given[2], &given[3],
                      &given[4], &place) == TB_ACCEPTED);
        CHECK(memcmp(given, numbers, sizeof given) == 0);
    }
}

/* All calls on a token that lies against a forbidden page, with a table just large enough. */
static void read_at_a_page(const uint8_t *bytes, size_t size, enum side side)
{
    struct lent token = lend_to_read(bytes, size, side);
    static const uint32_t blank[TB_TABLE];
    uint32_t number, second, again, rows, row, field, offset, length, *numbers;
    struct lent table;

    number = read_only(token.bytes, size, &second);
    rows = number == TB_ACCEPTED ? second : 0;
    table = lend(blank, sizeof *blank * TB_COLUMNS * rows, PAGE_BEHIND);
    numbers = (uint32_t *)(void *)table.bytes;
    CHECK(tb_read_table(token.bytes, size, numbers, TB_COLUMNS * (size_t)rows, &again) == number);
    CHECK(again == second);
    rules_are_numbered(&token, numbers, rows);
    for (row = 0; row <= rows; row++) {
        for (field = 0; field < 12; field++) {
            uint32_t given = tb_view(token.bytes, size, row, field, &again, &offset, &length);

            CHECK(offset <= size && length <= size - offset);
            CHECK(given == number || (number == TB_ACCEPTED && given == TB_NO_SUCH));
        }
    }
    take_back(&table);
    take_back(&token);
}

static void every_beginning(const uint8_t *bytes, size_t size)
{
    uint32_t second;
    size_t length;

    for (length = 0; length < size; length++) {
        struct lent token = lend_to_read(bytes, length, PAGE_BEHIND);

        CHECK(read_only(token.bytes, length, &second) == (length < 8 ? TB_NO_HEADER : TB_TOKEN_LENGTH));
        CHECK(second == (length < 8 ? 0 : 2));
        take_back(&token);
    }
}

/* One byte of the smallest token changed: where the refusal points. */
static void places_in_the_smallest(void)
{
    static const struct {
        uint8_t at, value;
        uint32_t number, place;
    } faults[] = {
        {0, 0, TB_HEADER_ID, 0},
        {1, 1, TB_HEADER_VERSION, 1},
        {3, 0x51, TB_TOKEN_LENGTH, 2},
        {7, 1, TB_HEADER_RESERVED, 4},
        {8, 0x16, TB_SECTION_ID, 8},
        {9, 1, TB_VERSION, 9},
        {11, 9, TB_SECTION_LENGTH, 10},
        {11, 13, TB_SUBSECTION_LENGTH, 18},
        {13, 1, TB_RESERVED, 12},
        {17, 2, TB_VALUE, 14},
        {19, 0x03, TB_TAG, 18},
        {21, 0x3D, TB_SUBSECTION_LENGTH, 20},
        {22, 1, TB_VERSION, 22},
        {23, 1, TB_RESERVED, 23},
        {79, 1, TB_MKVP, 64},
    };
    uint8_t changed[TB_SHORTEST];
    uint32_t second;
    size_t i;

    for (i = 0; i < sizeof faults / sizeof *faults; i++) {
        memcpy(changed, smallest, TB_SHORTEST);
        changed[faults[i].at] = faults[i].value;
        CHECK(read_only(changed, TB_SHORTEST, &second) == faults[i].number);
        CHECK(second == faults[i].place);
    }
}

/* Every byte in turn is made 0, 1, FF and one more: lengths that say too much must not lead outside. */
static void every_byte_changed(void)
{
    uint8_t changed[TB_SHORTEST];
    size_t place, turn;

    for (place = 0; place < TB_SHORTEST; place++) {
        for (turn = 0; turn < 4; turn++) {
            const uint8_t values[4] = {0, 1, 0xFF, (uint8_t)(smallest[place] + 1)};

            memcpy(changed, smallest, TB_SHORTEST);
            changed[place] = values[turn];
            read_at_a_page(changed, TB_SHORTEST, PAGE_BEFORE);
            read_at_a_page(changed, TB_SHORTEST, PAGE_BEHIND);
        }
    }
}

static void read_file(const char *name)
{
    static uint8_t bytes[TB_LONGEST + 1];
    FILE *file = fopen(name, "rb");
    size_t size;

    if (file == NULL) {
        perror(name);
        exit(2);
    }
    size = fread(bytes, 1, sizeof bytes, file);
    fclose(file);
    read_at_a_page(bytes, size, PAGE_BEFORE);
    read_at_a_page(bytes, size, PAGE_BEHIND);
    every_beginning(bytes, size);
}

int main(int argc, char **argv)
{
    uint32_t second;
    int i;

    CHECK(read_only(smallest, TB_SHORTEST, &second) == TB_ACCEPTED && second == 2);
    CHECK(read_only(smallest, TB_SHORTEST - 1, &second) == TB_TOKEN_LENGTH && second == 2);
    nothing_at_a_null_pointer();
    tables_of_every_size();
    fields_of_the_smallest();
    walk_over_the_smallest();
    every_beginning(smallest, TB_SHORTEST);
    places_in_the_smallest();
    every_byte_changed();
    for (i = 1; i < argc; i++) {
        read_file(argv[i]);
    }
    return checks_end("reading");
}
