/*
 * Trusted blocks: reading a token, the fields of its parts, and writing one.
 *
 * Link with libtrusted_block.a (x86-64), which `rt lib` puts into crates/trusted_block/out when run in crates/trusted_block.
 * examples/show_token.c reads with these calls, examples/build_token.c writes.
 *
 * ANSWERS. Each call returns a number: 0 for accepted, else the number of the refusal (the list below).
 * `second` always gets a second number, of a refusal the place; where it is something else, it is said at the
 * call.
 *
 * PLACES. The place of a refusal is an offset in the token, or in the draft:
 *  - 1: 0. 2 to 5: the header's field, that is 0, 1, 2 and 4.
 *  - 6, 12 and 15: the length field of the section or subsection at fault, two bytes into it; its start where
 *    under 4 bytes are left for it.
 *  - 7, 9, 13, 14 and 20: its start; where section 14 is missing the token's length.
 *  - 8, 10, 11, 16, 18, 19 and 21: the first byte of the field tested, whichever byte of it is wrong. Of two
 *    fields held against each other it is the later one, but the exponent against the modulus is told at the
 *    exponent, and a 12/0005 against a 12/0003 at the mask length.
 *  - 17: the first byte at which no Rule ID, or no label template, can go on: in "A B" and in "A*B" the B, in a
 *    label template "1A" the 1.
 *  - 22 to 25: it is said in the list and at the calls.
 *
 * MEMORY. The caller owns everything; a call keeps nothing, allocates nothing, and has no state, so calls
 * may run in several threads at once on memory of their own.
 *  - Any bytes may come in. No call relies on an earlier check or on an earlier call.
 *  - Bytes are lent as a pointer and a length. With length 0 the pointer may be null.
 *  - `second` and the other numbers that a call gives must point to numbers of the caller, apart from each other.
 *  - What a call writes must not overlap anything else that it is lent.
 *  - A refusal changes nothing but these numbers: the table and the draft keep what they held.
 *  - An accepted call touches nothing past what it writes: the rows of the table, the bytes of the draft.
 *
 * SIZES that always suffice: a table of TB_TABLE numbers, a draft of TB_LONGEST bytes.
 */
#ifndef TRUSTED_BLOCK_H
#define TRUSTED_BLOCK_H

#include <stddef.h>
#include <stdint.h>

#ifdef __cplusplus
extern "C" {
#endif

enum {
    TB_EXTERNAL = 0x1E, /* the identifier of an external token, its first byte */
    TB_INTERNAL = 0x1F, /* of an internal one */
    TB_SHORTEST = 80,   /* bytes of the shortest token */
    TB_LONGEST = 3500,  /* bytes of the longest */
    TB_COLUMNS = 5,     /* numbers of a row: kind, offset, length, owner, rule */
    TB_TABLE = 1500     /* numbers of a table with room for any token, 300 rows */
};

/* The numbers given back. The first test that fails gives the answer: the header's, then section by section. */
enum {
    TB_ACCEPTED = 0,
    TB_NO_HEADER = 1,          /* fewer than 8 bytes */
    TB_HEADER_ID = 2,          /* header id not listed */
    TB_HEADER_VERSION = 3,     /* header version not 0 */
    TB_TOKEN_LENGTH = 4,       /* over 3,500 bytes, or header length differs from the buffer's */
    TB_HEADER_RESERVED = 5,    /* header reserved not 0 */
    TB_SECTION_LENGTH = 6,     /* under 4 bytes left for a section, or its length below its fixed fields or
                                  past the end */
    TB_SECTION_ID = 7,         /* unknown section id */
    TB_VERSION = 8,            /* section or subsection version not 0 */
    TB_REPEATED = 9,           /* section repeated, or Rule ID repeated */
    TB_RESERVED = 10,          /* reserved field not 0 */
    TB_VALUE = 11,             /* flags, format, key-check or generated length not allowed */
    TB_SUBSECTION_LENGTH = 12, /* under 4 bytes left for a subsection, its length below its least or past
                                  the section, or its inner lengths don't make it */
    TB_TAG = 13,               /* unknown tag here */
    TB_TAG_REPEATED = 14,      /* tag repeated */
    TB_INNER_LENGTHS = 15,     /* section's inner lengths don't make its length */
    TB_PUBLIC_KEY = 16,        /* public key rule broken */
    TB_FORM = 17,              /* Rule ID or label template form */
    TB_LENGTH_RULE = 18,       /* rule of 0003 or 0005 on lengths */
    TB_DATE = 19,              /* date rule; judged only when the flags of that 14/0002 are 1 */
    TB_MISSING = 20,           /* required part missing; for section 14 the place is the token's length */
    TB_MKVP = 21,              /* external token with MKVP not 0 */
    TB_NO_SUCH = 22,           /* no such row or field; place 0 */
    TB_NO_ROOM = 23,           /* no room in the table or in the draft */
    TB_FIELD_LENGTH = 24,      /* field whose length is not its fixed one or passes what its length field can
                                  state, or a mask and template of unlike length; place: draft length */
    TB_WRONG_SECTION = 25      /* subsection added after another kind of section, or after none; place: draft
                                  length */
};

/*
 * Kinds of parts: section id * 65,536 + tag, tag 0 for a section.
 *
 * Their fields are numbered from 0. A section begins 0 id, 1 version, 2 length; a subsection begins 0 tag,
 * 1 length, 2 version. The fields after these stand beside each kind. A section's fields do not include
 * its subsections, which are rows of their own. All numbers in a token are big-endian.
 */
enum {
    TB_KIND_PUBLIC_KEY = 0x110000,        /* 3 reserved, 4 exponent length, 5 modulus bits, 6 modulus length,
                                             7 exponent, 8 modulus, 9 flags */
    TB_KIND_RULE = 0x120000,              /* 3 Rule ID, 4 flags, 5 generated key length, 6 key-check,
                                             7 symmetric format, 8 asymmetric format */
    TB_KIND_TRANSPORT_VARIANT = 0x120001, /* 3 reserved, 4 variant length, 5 variant */
    TB_KIND_TRANSPORT_RULE = 0x120002,    /* 3 reserved, 4 Rule ID */
    TB_KIND_EXPORT_PARAMETERS = 0x120003, /* 3 reserved, 4 flags, 5 minimum, 6 maximum, 7 variant length,
                                             8 variant, 9 CV length, 10 CV */
    TB_KIND_SOURCE_RULE = 0x120004,       /* 3 reserved, 4 Rule ID */
    TB_KIND_TOKEN_PARAMETERS = 0x120005,  /* 3 reserved, 4 flags, 5 mask length, 6 mask, 7 template,
                                             8 label template length, 9 label template */
    TB_KIND_NAME = 0x130000,              /* 3 name */
    TB_KIND_INFORMATION = 0x140000,       /* 3 reserved, 4 flags */
    TB_KIND_PROTECTION = 0x140001,        /* 3 reserved, 4 encrypted MAC key, 5 MAC, 6 MKVP */
    TB_KIND_DATES = 0x140002,             /* 3 reserved, 4 flags, 5 activation, 6 expiration; 5 and 6 are dates
                                             only where 4 is 1, else any bytes */
    TB_KIND_APPLICATION_DATA = 0x150000   /* 3 data length, 4 data */
};

/* ---- Reading */

/*
 * Judges a token. 0: it is legal, second = the count of its rows. 1 to 21: second = the place.
 */
uint32_t tb_read(const uint8_t *token, size_t token_len, uint32_t *second);

/*
 * Judges a token and fills the table, five numbers to a row: kind, offset, length, owner, rule. The rows are
 * numbered from 0, one for each section and subsection, in the order of the token; a section's length
 * covers its subsections, and the owner is the row of the section that the part belongs to, for a section
 * its own. The last number is for a rule and its subsections the rule's place among the rules of the token,
 * from 1; elsewhere 0. `table_len` counts numbers, not bytes. 0 and 1 to 21 as above. 23: the token is legal
 * and the table too small, second = the rows needed; room is TB_COLUMNS * rows.
 */
uint32_t tb_read_table(const uint8_t *token, size_t token_len, uint32_t *table, size_t table_len,
                       uint32_t *second);

/* ---- Rows and fields */

/*
 * Where a field lies: offset and length in the token, by row and field number. 0: second = 0; a field may
 * be empty. 1 to 21: the token is not legal, second = the place. 22: there is no such row or field,
 * second = 0. On refusal offset and length are 0. Each call reads the token anew.
 */
uint32_t tb_view(const uint8_t *token, size_t token_len, uint32_t row, uint32_t field, uint32_t *second,
                 uint32_t *offset, uint32_t *length);

/*
 * The walk: the row that begins at a place, and the place of the next row. A walk begins at place 8 and ends
 * at the token's length. 0: second = 0, and either a row, its five numbers as in a table, next = where the next
 * row begins, or the token's length; or the end, kind = 0. 1 to 21: the token is not legal, second = the
 * place. 22: no row begins there, second = 0. Without a row the other six numbers are 0. Each call reads the
 * token anew: for all rows tb_read_table is quicker.
 */
uint32_t tb_step(const uint8_t *token, size_t token_len, uint32_t place, uint32_t *second, uint32_t *kind,
                 uint32_t *offset, uint32_t *length, uint32_t *owner, uint32_t *rule, uint32_t *next);

/*
 * The row of a number, found by as many steps of the walk; the answers are those of tb_step, and 22 with
 * second = 0 where the token has fewer rows.
 */
uint32_t tb_row(const uint8_t *token, size_t token_len, uint32_t row, uint32_t *second, uint32_t *kind,
                uint32_t *offset, uint32_t *length, uint32_t *owner, uint32_t *rule, uint32_t *next);

/* ---- Writing */

/*
 * A token is made in a draft: a buffer of the caller, `draft_len` bytes large. Its first bytes, as many as
 * its header states, are the token so far, and keep all rules but 20; what stands after them is neither
 * looked at nor changed. Start it, add the parts in their order, finish it, and take the bytes.
 *
 * tb_start writes the 8 bytes of the header. 0: second = 8. 23: the buffer is under 8 bytes, 2: the
 * identifier is neither TB_EXTERNAL nor TB_INTERNAL; second = 0.
 */
uint32_t tb_start(uint8_t *draft, size_t draft_len, uint8_t id, uint32_t *second);

/*
 * The additions, one for each kind. A part goes to the draft's end; a subsection joins the last section,
 * whose length grows. Length fields are counted from what is lent; ids, tags and what is always 0 are
 * supplied. 0: second = the draft's new length. Refusals, in this order:
 *   1 to 19, 21   the draft is at fault already; second = the place
 *   24            a field of a wrong length; second = the draft's length
 *   25            the last section is not of the subsection's kind; second = the draft's length
 *   23            the draft would pass the buffer or 3,500 bytes; second = the draft's length
 *   1 to 19, 21   the longer draft would be at fault; second = the place in it, at times in an earlier part
 */

/* Section 11. An odd modulus of 512 to 4,096 significant bits; an odd exponent of 1 to 512 bytes, less than
   it; flags 0, 0x80000000 or 0xC0000000. */
uint32_t tb_add_public_key(uint8_t *draft, size_t draft_len, uint16_t modulus_bits, const uint8_t *exponent,
                           size_t exponent_len, const uint8_t *modulus, size_t modulus_len, uint32_t flags,
                           uint32_t *second);

/* Section 12. Rule ID of 8 bytes: 1 to 8 letters, digits, '-' or '_', then spaces. Flags 0, generate: length
   8, 16 or 24, symmetric format 0. Flags 1, export: any length, symmetric format 1, and a 0003 must follow
   before the finish. Key-check and asymmetric format 0 to 2. */
uint32_t tb_add_rule(uint8_t *draft, size_t draft_len, const uint8_t *rule_id, size_t rule_id_len,
                     uint32_t flags, uint8_t generated_length, uint8_t key_check, uint8_t symmetric_format,
                     uint8_t asymmetric_format, uint32_t *second);

/* 12/0001. A variant of 0 to 255 bytes. */
uint32_t tb_add_transport_variant(uint8_t *draft, size_t draft_len, const uint8_t *variant,
                                  size_t variant_len, uint32_t *second);

/* 12/0002. Rule ID of 8 bytes. */
uint32_t tb_add_transport_rule(uint8_t *draft, size_t draft_len, const uint8_t *rule_id, size_t rule_id_len,
                               uint32_t *second);

/* 12/0003. Minimum and maximum 8, 16 or 24; a variant of 0 or 8 to 255 bytes, if not 0 at least the maximum;
   a CV of 0, 8 or 16 bytes. */
uint32_t tb_add_export_parameters(uint8_t *draft, size_t draft_len, uint8_t minimum, uint8_t maximum,
                                  const uint8_t *variant, size_t variant_len, const uint8_t *cv,
                                  size_t cv_len, uint32_t *second);

/* 12/0004. Rule ID of 8 bytes. */
uint32_t tb_add_source_rule(uint8_t *draft, size_t draft_len, const uint8_t *rule_id, size_t rule_id_len,
                            uint32_t *second);

/* 12/0005. Mask and template of one length, 0, 8 or 16 bytes, if not 0 at least the minimum of the rule's
   0003. A label template of 0 or 64 bytes: letters, digits, '#', '$', '@', at most one '*', which stands first
   or last, then spaces; no digit first. */
uint32_t tb_add_token_parameters(uint8_t *draft, size_t draft_len, const uint8_t *mask, size_t mask_len,
                                 const uint8_t *cv_template, size_t cv_template_len,
                                 const uint8_t *label_template, size_t label_template_len,
                                 uint32_t *second);

/* Section 13. A name of 64 bytes. */
uint32_t tb_add_name(uint8_t *draft, size_t draft_len, const uint8_t *name, size_t name_len,
                     uint32_t *second);

/* Section 14, required. Flags 0 or 1. A 0001 must follow before the finish. */
uint32_t tb_add_information(uint8_t *draft, size_t draft_len, uint32_t flags, uint32_t *second);

/* 14/0001, required. Encrypted MAC key of 32 bytes, MAC of 8, MKVP of 16, all zero in an external token. */
uint32_t tb_add_protection(uint8_t *draft, size_t draft_len, const uint8_t *mac_key, size_t mac_key_len,
                           const uint8_t *mac, size_t mac_len, const uint8_t *mkvp, size_t mkvp_len,
                           uint32_t *second);

/* 14/0002. Flags 0 or 1; two dates of 4 bytes. With flags 1 each is a date, year in two bytes, month, day, and
   the first not after the second; with flags 0 they are any bytes, kept as they are. */
uint32_t tb_add_dates(uint8_t *draft, size_t draft_len, uint16_t flags, const uint8_t *activation,
                      size_t activation_len, const uint8_t *expiration, size_t expiration_len,
                      uint32_t *second);

/* Section 15. Data of any length that has room. */
uint32_t tb_add_application_data(uint8_t *draft, size_t draft_len, const uint8_t *data, size_t data_len,
                                 uint32_t *second);

/*
 * Judges the draft as a token, and changes no byte. 0: its first `second` bytes are a legal token with the
 * parts added, in that order. 1 to 19, 21: the draft is at fault; 20: a required part is missing;
 * second = the place.
 */
uint32_t tb_finish(const uint8_t *draft, size_t draft_len, uint32_t *second);

#ifdef __cplusplus
}
#endif

#endif
