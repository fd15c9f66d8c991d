/*
 * Builds an external token with two rules and writes it to a file.
 *
 *     build_token FILE
 *
 * Exit status: 0 written, 1 a call refused, 2 the file cannot be written.
 *
 * Build it from the project's folder, after `rt lib` in crates/trusted_block:
 *
 *     gcc -std=c99 -Iinclude examples/build_token.c crates/trusted_block/out/libtrusted_block.a -o build_token
 */
#include <stdio.h>
#include <string.h>

#include "trusted_block.h"

/* The draft that the calls work on, and the last second number: the draft's length, or the place of a refusal. */
struct draft {
    uint8_t bytes[TB_LONGEST];
    uint32_t second;
};

/* Says what was refused and where. Gives 1 where the call accepted. */
static int accepted(const struct draft *draft, const char *what, uint32_t number)
{
    if (number != TB_ACCEPTED) {
        fprintf(stderr, "%s: refused %u at %u\n", what, (unsigned)number, (unsigned)draft->second);
    }
    return number == TB_ACCEPTED;
}

/* Text as a field of this length, spaces behind it. The text is not longer. */
static const uint8_t *padded(uint8_t *field, const char *text, size_t length)
{
    memset(field, ' ', length);
    memcpy(field, text, strlen(text));
    return field;
}

/* A rule that generates a key of 16 bytes. */
static int add_generate_rule(struct draft *d)
{
    uint8_t id[8];

    padded(id, "GEN-01", 8);
    return accepted(d, "rule", tb_add_rule(d->bytes, sizeof d->bytes, id, 8, 0, 16, 1, 0, 0, &d->second));
}

/* A rule that exports a key of 8 or 16 bytes made by the first rule, under a key with a label that begins so. */
static int add_export_rule(struct draft *d)
{
    uint8_t *bytes = d->bytes;
    const size_t size = sizeof d->bytes;
    const uint8_t variant[16] = {0x42, 0x17}, mask[8] = {0xFF, 0xFF}, cv_template[8] = {0x00, 0x21};
    uint8_t id[8], source[8], label[64];

    padded(id, "EXPORT-1", 8);
    padded(source, "GEN-01", 8);
    padded(label, "ATM#NORTH*", 64);
    return accepted(d, "rule", tb_add_rule(bytes, size, id, 8, 1, 0, 0, 1, 0, &d->second)) &&
           accepted(d, "export parameters",
                    tb_add_export_parameters(bytes, size, 8, 16, variant, 16, NULL, 0, &d->second)) &&
           accepted(d, "source rule", tb_add_source_rule(bytes, size, source, 8, &d->second)) &&
           accepted(d, "token parameters",
                    tb_add_token_parameters(bytes, size, mask, 8, cv_template, 8, label, 64, &d->second));
}

/* Section 14: the block is active in 2026 and 2027. Its MAC key and MAC are somebody else's work and stay 0 here. */
static int add_information(struct draft *d)
{
    uint8_t *bytes = d->bytes;
    const size_t size = sizeof d->bytes;
    const uint8_t zeros[32] = {0};
    const uint8_t first[4] = {2026 / 256, 2026 % 256, 1, 1}, last[4] = {2027 / 256, 2027 % 256, 12, 31};

    return accepted(d, "information", tb_add_information(bytes, size, 1, &d->second)) &&
           accepted(d, "protection",
                    tb_add_protection(bytes, size, zeros, 32, zeros, 8, zeros, 16, &d->second)) &&
           accepted(d, "dates", tb_add_dates(bytes, size, 1, first, 4, last, 4, &d->second));
}

/* Builds the token; then its first d->second bytes are the token. */
static int build(struct draft *d)
{
    return accepted(d, "start", tb_start(d->bytes, sizeof d->bytes, TB_EXTERNAL, &d->second)) &&
           add_information(d) && add_generate_rule(d) && add_export_rule(d) &&
           accepted(d, "finish", tb_finish(d->bytes, sizeof d->bytes, &d->second));
}

static int save(const char *name, const struct draft *d)
{
    FILE *file = fopen(name, "wb");
    int good;

    if (file == NULL) {
        return 0;
    }
    good = fwrite(d->bytes, 1, d->second, file) == d->second;
    return fclose(file) == 0 && good;
}

int main(int argc, char **argv)
{
    static struct draft draft;

    if (argc != 2) {
        fputs("usage: build_token FILE\n", stderr);
        return 2;
    }
    if (!build(&draft)) {
        return 1;
    }
    if (!save(argv[1], &draft)) {
        fprintf(stderr, "build_token: cannot write %s\n", argv[1]);
        return 2;
    }
    printf("%s: %u bytes\n", argv[1], (unsigned)draft.second);
    return 0;
}
