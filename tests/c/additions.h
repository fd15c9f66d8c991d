/* Every addition twice: with the fields of samples/all_kinds.token, in its order, and with nothing lent. */
#ifndef ADDITIONS_H
#define ADDITIONS_H

#include <string.h>

#include "trusted_block.h"

typedef uint32_t addition(uint8_t *draft, size_t draft_len, uint32_t *second);

/* A byte repeated. */
static const uint8_t *all(uint8_t byte)
{
    static uint8_t bytes[3][64];
    static unsigned turn;
    uint8_t *next = bytes[turn++ % 3];

    return memset(next, byte, 64);
}

/* Text with spaces behind it. */
static const uint8_t *text(const char *signs)
{
    static uint8_t field[64];

    memset(field, ' ', 64);
    return memcpy(field, signs, strlen(signs));
}

static uint32_t public_key(uint8_t *draft, size_t size, uint32_t *second)
{
    const uint8_t exponent[3] = {1, 0, 1};
    uint8_t modulus[64];
    unsigned i;

    for (i = 0; i < 64; i++) {
        modulus[i] = (uint8_t)(0x81 + i);
    }
    modulus[63] = 0xC1;
    return tb_add_public_key(draft, size, 512, exponent, 3, modulus, 64, 0xC0000000u, second);
}

static uint32_t export_rule(uint8_t *draft, size_t size, uint32_t *second)
{
    return tb_add_rule(draft, size, text("EXPORT-1"), 8, 1, 0, 2, 1, 2, second);
}

static uint32_t transport_variant(uint8_t *draft, size_t size, uint32_t *second)
{
    return tb_add_transport_variant(draft, size, all(0x11), 16, second);
}

static uint32_t transport_rule(uint8_t *draft, size_t size, uint32_t *second)
{
    return tb_add_transport_rule(draft, size, text("GEN-01"), 8, second);
}

static uint32_t export_parameters(uint8_t *draft, size_t size, uint32_t *second)
{
    return tb_add_export_parameters(draft, size, 8, 16, all(0x22), 16, all(0x33), 8, second);
}

static uint32_t source_rule(uint8_t *draft, size_t size, uint32_t *second)
{
    return tb_add_source_rule(draft, size, text("GEN-01"), 8, second);
}

static uint32_t token_parameters(uint8_t *draft, size_t size, uint32_t *second)
{
    return tb_add_token_parameters(draft, size, all(0xFF), 8, all(0x44), 8, text("ATM#NORTH*"), 64, second);
}

static uint32_t generate_rule(uint8_t *draft, size_t size, uint32_t *second)
{
    return tb_add_rule(draft, size, text("GEN-01"), 8, 0, 16, 1, 0, 0, second);
}

static uint32_t name(uint8_t *draft, size_t size, uint32_t *second)
{
    return tb_add_name(draft, size, text("Sample bank, cash machines north"), 64, second);
}

static uint32_t information(uint8_t *draft, size_t size, uint32_t *second)
{
    return tb_add_information(draft, size, 1, second);
}

static uint32_t dates(uint8_t *draft, size_t size, uint32_t *second)
{
    const uint8_t activation[4] = {0x07, 0xEA, 1, 1}, expiration[4] = {0x07, 0xEC, 2, 29};

    return tb_add_dates(draft, size, 1, activation, 4, expiration, 4, second);
}

static uint32_t protection(uint8_t *draft, size_t size, uint32_t *second)
{
    return tb_add_protection(draft, size, all(0x55), 32, all(0x66), 8, all(0x77), 16, second);
}

static uint32_t application_data(uint8_t *draft, size_t size, uint32_t *second)
{
    return tb_add_application_data(draft, size, (const uint8_t *)"all twelve kinds", 16, second);
}

static uint32_t no_public_key(uint8_t *draft, size_t size, uint32_t *second)
{
    return tb_add_public_key(draft, size, 512, NULL, 0, NULL, 0, 0, second);
}

static uint32_t no_rule(uint8_t *draft, size_t size, uint32_t *second)
{
    return tb_add_rule(draft, size, NULL, 0, 0, 16, 0, 0, 0, second);
}

static uint32_t no_transport_variant(uint8_t *draft, size_t size, uint32_t *second)
{
    return tb_add_transport_variant(draft, size, NULL, 0, second);
}

static uint32_t no_transport_rule(uint8_t *draft, size_t size, uint32_t *second)
{
    return tb_add_transport_rule(draft, size, NULL, 0, second);
}

static uint32_t no_export_parameters(uint8_t *draft, size_t size, uint32_t *second)
{
    return tb_add_export_parameters(draft, size, 8, 8, NULL, 0, NULL, 0, second);
}

static uint32_t no_source_rule(uint8_t *draft, size_t size, uint32_t *second)
{
    return tb_add_source_rule(draft, size, NULL, 0, second);
}

static uint32_t no_token_parameters(uint8_t *draft, size_t size, uint32_t *second)
{
    return tb_add_token_parameters(draft, size, NULL, 0, NULL, 0, NULL, 0, second);
}

static uint32_t no_name(uint8_t *draft, size_t size, uint32_t *second)
{
    return tb_add_name(draft, size, NULL, 0, second);
}

static uint32_t no_protection(uint8_t *draft, size_t size, uint32_t *second)
{
    return tb_add_protection(draft, size, NULL, 0, NULL, 0, NULL, 0, second);
}

static uint32_t no_dates(uint8_t *draft, size_t size, uint32_t *second)
{
    return tb_add_dates(draft, size, 0, NULL, 0, NULL, 0, second);
}

static uint32_t no_application_data(uint8_t *draft, size_t size, uint32_t *second)
{
    return tb_add_application_data(draft, size, NULL, 0, second);
}

#endif
