/*
 * Loaded as libcms_canon.so in front of the real one, which is named libcms_canon.so.1: counts calls of some of its functions.
 */
#define _GNU_SOURCE
#include "cms_canon.h"
#include <dlfcn.h>

#define NEXT(name) ((__typeof__(&name))dlsym(RTLD_NEXT, #name))

static uint64_t checks, fields, covers;

uint64_t counted_checks(void)
{
    return checks;
}

uint64_t counted_fields(void)
{
    return fields;
}

uint64_t counted_covers(void)
{
    return covers;
}

void cms_canon_check(const uint8_t *input, size_t input_length, const uint8_t *content, size_t content_length, bool has_content,
                     const uint8_t *data, size_t data_length, bool has_data, uint64_t limit,
                     struct cms_canon_finding *findings, size_t findings_room, struct cms_canon_outcome *outcome)
{
    checks++;
    NEXT(cms_canon_check)(input, input_length, content, content_length, has_content, data, data_length, has_data, limit, findings,
                          findings_room, outcome);
}

void cms_canon_fields(const uint8_t *input, size_t input_length, uint64_t limit,
                      struct cms_canon_row *rows, size_t room, struct cms_canon_outcome *outcome)
{
    fields++;
    NEXT(cms_canon_fields)(input, input_length, limit, rows, room, outcome);
}

void cms_canon_cover(const uint8_t *input, size_t input_length, const uint64_t *path, size_t path_length,
                     const uint8_t *content, size_t content_length, bool has_content, uint64_t limit,
                     uint8_t *output, size_t output_room, struct cms_canon_outcome *outcome)
{
    covers++;
    NEXT(cms_canon_cover)(input, input_length, path, path_length, content, content_length, has_content, limit, output, output_room,
                          outcome);
}
