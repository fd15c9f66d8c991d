/*
 * The writer's calls as a C program sees them: null pointers with length 0, drafts without room, and drafts that lie
 * against a page that nobody may touch. The parts of samples/all_kinds.token, added in order, must give its very bytes.
 */
#define _DEFAULT_SOURCE
#include "check.h"

#include "additions.h"

#define UNTOUCHED 0xDEADBEEFu

/* What stands in a draft before the start. */
enum { FILLER = 0xEE, LONG = TB_LONGEST + 100 };

/* The sample's parts with the length of each. */
static const struct {
    addition *add;
    uint32_t length;
} parts[] = {
    {public_key, 83},       {export_rule, 20},      {transport_variant, 24}, {transport_rule, 14},
    {export_parameters, 36}, {source_rule, 14},      {token_parameters, 90},  {generate_rule, 20},
    {name, 68},             {information, 10},      {dates, 16},             {protection, 62},
    {application_data, 22},
};

enum { PARTS = sizeof parts / sizeof *parts };

/* What an addition with nothing lent answers after the header alone, and after a rule. */
static const struct {
    addition *add;
    uint32_t alone, after_rule;
} nothing_lent[] = {
    {no_public_key, TB_PUBLIC_KEY, TB_PUBLIC_KEY},
    {no_rule, TB_FIELD_LENGTH, TB_FIELD_LENGTH},
    {no_transport_variant, TB_WRONG_SECTION, TB_ACCEPTED},
    {no_transport_rule, TB_FIELD_LENGTH, TB_FIELD_LENGTH},
    {no_export_parameters, TB_WRONG_SECTION, TB_ACCEPTED},
    {no_source_rule, TB_FIELD_LENGTH, TB_FIELD_LENGTH},
    {no_token_parameters, TB_WRONG_SECTION, TB_ACCEPTED},
    {no_name, TB_FIELD_LENGTH, TB_FIELD_LENGTH},
    {no_protection, TB_FIELD_LENGTH, TB_FIELD_LENGTH},
    {no_dates, TB_FIELD_LENGTH, TB_FIELD_LENGTH},
    {no_application_data, TB_ACCEPTED, TB_ACCEPTED},
};

enum { NOTHING_LENT = sizeof nothing_lent / sizeof *nothing_lent };

/* A fresh buffer of this size against a forbidden page. */
static struct lent buffer(size_t size)
{
    static uint8_t filler[LONG];

    memset(filler, FILLER, LONG);
    return lend(filler, size, PAGE_BEHIND);
}

/* Adds; a refusal must change nothing, and nothing behind the new length may change. */
static uint32_t add(addition *part, struct lent *draft, uint32_t *second)
{
    static uint8_t before[LONG];
    size_t kept = 0;
    uint32_t number;

    if (draft->length > 0) {
        memcpy(before, draft->bytes, draft->length);
    }
    *second = UNTOUCHED;
    number = part(draft->bytes, draft->length, second);
    CHECK(*second != UNTOUCHED);
    if (number == TB_ACCEPTED) {
        CHECK(*second <= draft->length);
        kept = *second;
    }
    CHECK(memcmp(draft->bytes + kept, before + kept, draft->length - kept) == 0);
    return number;
}

static struct lent started(size_t size)
{
    struct lent draft = buffer(size);
    uint32_t second = UNTOUCHED;

    CHECK(tb_start(draft.bytes, size, TB_INTERNAL, &second) == TB_ACCEPTED && second == 8);
    return draft;
}

static void starts(void)
{
    static const uint8_t header[8] = {TB_EXTERNAL, 0, 0, 8};
    struct lent eight = buffer(8), seven = buffer(7);
    uint32_t second = UNTOUCHED;

    CHECK(tb_start(NULL, 0, TB_EXTERNAL, &second) == TB_NO_ROOM && second == 0);
    second = UNTOUCHED;
    CHECK(tb_start(seven.bytes, 7, 0, &second) == TB_NO_ROOM && second == 0);
    CHECK(seven.bytes[0] == FILLER && seven.bytes[6] == FILLER);
    second = UNTOUCHED;
    CHECK(tb_start(eight.bytes, 8, 0x20, &second) == TB_HEADER_ID && second == 0);
    CHECK(eight.bytes[0] == FILLER && eight.bytes[7] == FILLER);
    CHECK(tb_start(eight.bytes, 8, TB_EXTERNAL, &second) == TB_ACCEPTED && second == 8);
    CHECK(memcmp(eight.bytes, header, 8) == 0);
    CHECK(tb_finish(eight.bytes, 8, &second) == TB_MISSING && second == 8);
    take_back(&eight);
    take_back(&seven);
}

/* Every addition to no buffer at all, and to one that was not started. */
static void drafts_at_fault(void)
{
    struct lent raw = buffer(200);
    uint32_t second = UNTOUCHED;
    size_t i;

    CHECK(tb_finish(NULL, 0, &second) == TB_NO_HEADER && second == 0);
    CHECK(tb_finish(raw.bytes, 200, &second) == TB_HEADER_ID && second == 0);
    for (i = 0; i < PARTS; i++) {
        second = UNTOUCHED;
        CHECK(parts[i].add(NULL, 0, &second) == TB_NO_HEADER && second == 0);
        CHECK(add(parts[i].add, &raw, &second) == TB_HEADER_ID && second == 0);
    }
    for (i = 0; i < NOTHING_LENT; i++) {
        second = UNTOUCHED;
        CHECK(nothing_lent[i].add(NULL, 0, &second) == TB_NO_HEADER && second == 0);
        CHECK(add(nothing_lent[i].add, &raw, &second) == TB_HEADER_ID && second == 0);
    }
    take_back(&raw);
}

/* Where the refusal of such an addition points: at the exponent's length, 6 bytes into the key that would be added,
   else at the draft's length. */
static uint32_t place_of(uint32_t number, uint32_t length)
{
    return number == TB_PUBLIC_KEY ? length + 6 : length;
}

static void additions_with_nothing_lent(void)
{
    uint32_t second;
    size_t i;

    for (i = 0; i < NOTHING_LENT; i++) {
        struct lent alone = started(100), rule = started(100);

        CHECK(add(nothing_lent[i].add, &alone, &second) == nothing_lent[i].alone);
        CHECK(nothing_lent[i].alone == TB_ACCEPTED || second == place_of(nothing_lent[i].alone, 8));
        CHECK(add(export_rule, &rule, &second) == TB_ACCEPTED && second == 28);
        CHECK(add(nothing_lent[i].add, &rule, &second) == nothing_lent[i].after_rule);
        CHECK(nothing_lent[i].after_rule == TB_ACCEPTED ? second > 28
                                                        : second == place_of(nothing_lent[i].after_rule, 28));
        take_back(&alone);
        take_back(&rule);
    }
}

/* Adds the sample's parts to a buffer of this size; gives the number of the first that was refused, else their count. */
static size_t add_parts(struct lent *draft, uint32_t *length)
{
    uint32_t second;
    size_t i;

    *length = 8;
    for (i = 0; i < PARTS; i++) {
        uint32_t number = add(parts[i].add, draft, &second);

        if (number != TB_ACCEPTED) {
            CHECK(number == TB_NO_ROOM && second == *length);
            return i;
        }
        CHECK(second == *length + parts[i].length);
        *length = second;
    }
    return PARTS;
}

/* The draft is the sample, and finishing it changes nothing, be the buffer just large enough or larger. */
static void the_sample_is_built(const uint8_t *sample, size_t size, size_t room)
{
    struct lent draft = started(room), shut;
    uint32_t length, second = UNTOUCHED;

    CHECK(add_parts(&draft, &length) == PARTS && length == size);
    CHECK(memcmp(draft.bytes, sample, size) == 0);
    shut = lend_to_read(draft.bytes, room, PAGE_BEHIND);
    CHECK(tb_finish(shut.bytes, room, &second) == TB_ACCEPTED && second == size);
    CHECK(tb_read(shut.bytes, size, &second) == TB_ACCEPTED && second == PARTS);
    take_back(&shut);
    take_back(&draft);
}

/* Every smaller buffer: the first part that has no room is refused with 23, at the length reached. What is there by
   then is complete only where the last part alone is missing. */
static void buffers_without_room(size_t size)
{
    uint32_t length, second;
    size_t room;

    for (room = 8; room < size; room++) {
        struct lent draft = started(room);

        CHECK(add_parts(&draft, &length) < PARTS && length <= room);
        CHECK((tb_finish(draft.bytes, room, &second) == TB_ACCEPTED) == (length == size - 22));
        take_back(&draft);
    }
}

/* With flags 0 a date is any four bytes; with flags 1 dates are judged; other flags are refused. The flags stand 6 bytes
   into the part that would be added at 18, the activation 8 and the expiration 12; only the third of `bytes` is a date. */
static void dates_by_their_flags(void)
{
    static const uint8_t bytes[3][4] = {{0, 0, 0, 0}, {0xFF, 0xFF, 0xFF, 0xFF}, {0x07, 0xEA, 1, 1}};
    uint32_t second;
    size_t i;

    for (i = 0; i < 9; i++) {
        const uint8_t *first = bytes[i / 3], *last = bytes[i % 3];
        struct lent draft = started(34);

        CHECK(add(information, &draft, &second) == TB_ACCEPTED && second == 18);
        CHECK(tb_add_dates(draft.bytes, 34, 2, first, 4, last, 4, &second) == TB_VALUE && second == 24);
        CHECK(tb_add_dates(draft.bytes, 34, 0, first, 3, last, 4, &second) == TB_FIELD_LENGTH && second == 18);
        CHECK(tb_add_dates(draft.bytes, 34, 0, first, 4, last, 3, &second) == TB_FIELD_LENGTH && second == 18);
        if (i < 8) {
            CHECK(tb_add_dates(draft.bytes, 34, 1, first, 4, last, 4, &second) == TB_DATE);
            CHECK(second == (i / 3 == 2 ? 30 : 26));
        }
        CHECK(tb_add_dates(draft.bytes, 34, 0, first, 4, last, 4, &second) == TB_ACCEPTED && second == 34);
        CHECK(memcmp(draft.bytes + 26, first, 4) == 0 && memcmp(draft.bytes + 30, last, 4) == 0);
        take_back(&draft);
    }
}

static size_t load(uint8_t *bytes, size_t most)
{
    FILE *file = fopen("samples/all_kinds.token", "rb");
    size_t size;

    if (file == NULL) {
        perror("samples/all_kinds.token");
        exit(2);
    }
    size = fread(bytes, 1, most, file);
    fclose(file);
    return size;
}

int main(void)
{
    static uint8_t sample[LONG];
    size_t size = load(sample, LONG);

    starts();
    drafts_at_fault();
    additions_with_nothing_lent();
    dates_by_their_flags();
    the_sample_is_built(sample, size, size);
    the_sample_is_built(sample, size, size + 1);
    the_sample_is_built(sample, size, LONG);
    buffers_without_room(size);
    return checks_end("writing");
}
