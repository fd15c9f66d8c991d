/*
 * Shows a token: its answer, its rules, and every field of every row.
 *
 *     show_token FILE
 *
 * Exit status: 0 accepted, 1 refused, 2 the file cannot be read.
 *
 * Build it from the project's folder, after `rt lib` in crates/trusted_block:
 *
 *     gcc -std=c99 -Iinclude examples/show_token.c crates/trusted_block/out/libtrusted_block.a -o show_token
 */
#include <stdio.h>
#include <stdlib.h>

#include "trusted_block.h"

/* A longer file is cut here, one byte past the longest token: it is refused all the same. */
enum { MOST = TB_LONGEST + 1 };

/* A field longer than this is shown in part. */
enum { SHOWN = 16 };

/* The numbers of a row in the table. */
enum { KIND, OFFSET, LENGTH, OWNER, RULE };

struct token {
    uint8_t bytes[MOST];
    size_t length;
    uint32_t table[TB_TABLE];
    uint32_t rows;
};

/* Reads the file's first bytes. Gives 0 where the file cannot be read. */
static int load(const char *name, struct token *token)
{
    FILE *file = fopen(name, "rb");
    int good;

    if (file == NULL) {
        return 0;
    }
    token->length = fread(token->bytes, 1, MOST, file);
    good = !ferror(file);
    fclose(file);
    return good;
}

/* The field of a row, NULL where there is none; its length goes to `length`. */
static const uint8_t *field_of(const struct token *token, uint32_t row, uint32_t field, uint32_t *length)
{
    uint32_t second, offset;

    if (tb_view(token->bytes, token->length, row, field, &second, &offset, length) != TB_ACCEPTED) {
        return NULL;
    }
    return token->bytes + offset;
}

/* Each rule with its number. The last one's number is how many there are. */
static void show_rules(const struct token *token)
{
    uint32_t row, length, count = 0;

    for (row = 0; row < token->rows; row++) {
        const uint32_t *numbers = token->table + TB_COLUMNS * row;
        const uint8_t *rule_id;

        if (numbers[KIND] != TB_KIND_RULE) {
            continue;
        }
        count = numbers[RULE];
        rule_id = field_of(token, row, 3, &length);
        if (rule_id != NULL) {
            printf("rule %u '%.*s'\n", (unsigned)count, (int)length, (const char *)rule_id);
        }
    }
    printf("%u rules\n", (unsigned)count);
}

static void show_bytes(const uint8_t *bytes, uint32_t length)
{
    uint32_t i;

    for (i = 0; i < length && i < SHOWN; i++) {
        printf(" %02X", (unsigned)bytes[i]);
    }
    puts(length > SHOWN ? " .." : "");
}

/* The row's numbers, then its fields, until the library says that there is no such field. */
static void show_row(const struct token *token, uint32_t row)
{
    const uint32_t *numbers = token->table + TB_COLUMNS * row;
    const uint8_t *bytes;
    uint32_t field, length;

    printf("row %u: kind %02X %04X at %u, %u bytes, of row %u", (unsigned)row, (unsigned)(numbers[KIND] >> 16),
           (unsigned)(numbers[KIND] & 0xFFFF), (unsigned)numbers[OFFSET], (unsigned)numbers[LENGTH],
           (unsigned)numbers[OWNER]);
    if (numbers[RULE] != 0) {
        printf(", rule %u", (unsigned)numbers[RULE]);
    }
    putchar('\n');
    for (field = 0; (bytes = field_of(token, row, field, &length)) != NULL; field++) {
        printf("  field %u, %u bytes:", (unsigned)field, (unsigned)length);
        show_bytes(bytes, length);
    }
}

int main(int argc, char **argv)
{
    static struct token token;
    uint32_t number, second, row;

    if (argc != 2 || !load(argv[1], &token)) {
        fputs("usage: show_token FILE, a file that can be read\n", stderr);
        return 2;
    }
    number = tb_read_table(token.bytes, token.length, token.table, TB_TABLE, &second);
    if (number != TB_ACCEPTED) {
        printf("refused %u at %u\n", (unsigned)number, (unsigned)second);
        return 1;
    }
    token.rows = second;
    printf("accepted, %u rows\n", (unsigned)token.rows);
    show_rules(&token);
    for (row = 0; row < token.rows; row++) {
        show_row(&token, row);
    }
    return EXIT_SUCCESS;
}
