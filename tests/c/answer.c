/*
 * Answers requests by the library for C: reads one request a line, and writes one answer a line. If a number is given, each is
 * answered by a thread of its own, whose stack has so many octets and ends at a page that cannot be written to.
 *
 *     convert LIMIT INPUT                         octets are in hexadecimal
 *     many LIMIT INPUT
 *     read LIMIT INPUT                            how many octets the messages have that `many` converts
 *     extent LIMIT INPUT                          how far the first element reaches, asked for at each octet that comes
 *     cover LIMIT INPUT PATH CONTENT              PATH is numbers joined by commas, as 0,1; CONTENT is - if none is given
 *     show LIMIT INPUT
 *     same LIMIT INPUT INPUT
 *     check LIMIT INPUT CONTENT DATA VERDICT      VERDICT is that on each signature: good, bad or unknown
 *     digests LIMIT INPUT CONTENT DATA VERDICT    as check, by digests of CONTENT and DATA: the octets of struct cms_canon_digest
 *     fields LIMIT INPUT
 *     tst-info LIMIT INPUT
 *
 * An answer is `0 OCTETS`, in hexadecimal; of check and digests `0` and the findings, as ` F9 F7:0` with the numbers of signers; of fields and
 * tst-info `0` and the rows, as ` 16:2:4,3`, a kind in hexadecimal, the level, the start and the length; of same the status; of many
 * how many messages there are and their DER, with the status before and, for a refusal, the line after it. Else it is the status and
 * the line that the command writes, as `3 refused E6 Overrun at 4`.
 */
#define _GNU_SOURCE
#include <cms_canon.h>
#include <inttypes.h>
#include <pthread.h>
#include <stdio.h>
#include <stdlib.h>
#include <string.h>
#include <sys/mman.h>

struct octets {
    uint8_t *at;
    size_t length;
};

static uint8_t digit(char c)
{
    return (uint8_t)(c <= '9' ? c - '0' : c - 'a' + 10);
}

static struct octets octets_of(const char *hexadecimal)
{
    size_t length = strlen(hexadecimal) / 2;
    struct octets octets = {malloc(length + 1), length};
    for (size_t i = 0; i < length; i++)
        octets.at[i] = (uint8_t)(digit(hexadecimal[2 * i]) << 4 | digit(hexadecimal[2 * i + 1]));
    return octets;
}

struct path {
    uint64_t *at;
    size_t length;
};

static struct path path_of(const char *numbers)
{
    struct path path = {malloc((strlen(numbers) + 1) * sizeof(uint64_t)), 0};
    while (*numbers) {
        char *end;
        path.at[path.length++] = strtoull(numbers, &end, 10);
        numbers = *end == ',' ? end + 1 : end;
    }
    return path;
}

struct request {
    const char *call;
    uint64_t limit;
    struct octets input;
    const char *more[3]; /* what follows the input */
};

static void print_refusal(const struct cms_canon_outcome *outcome)
{
    static const char *const messages[] = {"", "first: ", "second: "};
    printf("%" PRIu32 " ", outcome->status);
    if (outcome->status == CMS_CANON_REFUSED && outcome->reason < CMS_CANON_NO_SIGNED_DATA)
        printf("%srefused E%" PRIu32 " %s at %" PRIu64, messages[outcome->octets], outcome->reason, outcome->name, outcome->at);
    else if (outcome->status == CMS_CANON_REFUSED)
        printf("refused: %s", outcome->name);
    else
        printf("out of memory");
}

/* ---- calls that write octets */

typedef void written(const struct request *it, uint8_t *output, size_t room, struct cms_canon_outcome *outcome);

static void convert(const struct request *it, uint8_t *output, size_t room, struct cms_canon_outcome *outcome)
{
    cms_canon_convert(it->input.at, it->input.length, it->limit, output, room, outcome);
}

static void show(const struct request *it, uint8_t *output, size_t room, struct cms_canon_outcome *outcome)
{
    cms_canon_show(it->input.at, it->input.length, it->limit, output, room, outcome);
}

/* Octets, or none for the word -. */
static struct octets given(const char *word)
{
    return octets_of(strcmp(word, "-") != 0 ? word : "");
}

static void cover(const struct request *it, uint8_t *output, size_t room, struct cms_canon_outcome *outcome)
{
    struct path path = path_of(it->more[0]);
    struct octets content = given(it->more[1]);
    cms_canon_cover(it->input.at, it->input.length, path.at, path.length, content.at, content.length,
                    strcmp(it->more[1], "-") != 0, it->limit, output, room, outcome);
    free(content.at);
    free(path.at);
}

static void answer_octets(const struct request *it, written *call)
{
    size_t room = it->input.length + 64;
    uint8_t *output = malloc(room);
    struct cms_canon_outcome outcome;
    for (;;) {
        call(it, output, room, &outcome);
        if (outcome.status != CMS_CANON_ROOM_TOO_SMALL)
            break;
        room = outcome.octets;
        output = realloc(output, room);
    }
    if (outcome.status == CMS_CANON_DONE) {
        printf("0 ");
        for (uint64_t i = 0; i < outcome.octets; i++)
            printf("%02x", output[i]);
    } else {
        print_refusal(&outcome);
    }
    free(output);
}

/* ---- the other calls */

/* Prints the reach, how many octets had come when it was first not CMS_CANON_MORE, and the end. */
static void answer_extent(const struct request *it)
{
    struct cms_canon_extent extent = {0};
    size_t came = 0;
    cms_canon_extent(it->input.at, came, it->limit, &extent);
    while (extent.reach == CMS_CANON_MORE && came < it->input.length)
        cms_canon_extent(it->input.at, ++came, it->limit, &extent);
    printf("%" PRIu32 " %zu %" PRIu64, extent.reach, came, extent.end);
}

static void answer_many(const struct request *it, bool read)
{
    size_t room = it->input.length + 64;
    uint8_t *output = malloc(room);
    struct cms_canon_many many;
    for (;;) {
        cms_canon_convert_many(it->input.at, it->input.length, it->limit, output, room, &many);
        if (many.outcome.status != CMS_CANON_ROOM_TOO_SMALL)
            break;
        room = many.outcome.octets;
        output = realloc(output, room);
    }
    if (read) {
        printf("%" PRIu64, many.read);
    } else {
        printf("%" PRIu32 " %" PRIu64 " ", many.outcome.status, many.messages);
        for (uint64_t i = 0; i < many.outcome.octets; i++)
            printf("%02x", output[i]);
        if (many.outcome.status == CMS_CANON_REFUSED)
            printf(" message %" PRIu64 ": refused E%" PRIu32 " %s at %" PRIu64, many.messages, many.outcome.reason,
                   many.outcome.name, many.outcome.at);
    }
    free(output);
}

static void answer_same(const struct request *it)
{
    struct octets second = octets_of(it->more[0]);
    struct cms_canon_outcome outcome;
    cms_canon_same(it->input.at, it->input.length, second.at, second.length, it->limit, &outcome);
    if (outcome.status == CMS_CANON_DONE || outcome.status == CMS_CANON_DIFFERENT)
        printf("%" PRIu32, outcome.status);
    else
        print_refusal(&outcome);
    free(second.at);
}

/* Prints a finding. One that a signature is not verified gives way to the verdict on it. */
static void print_finding(const struct cms_canon_finding *finding, const char *verdict)
{
    bool is_verdict = finding->code == 18;
    if (is_verdict && strcmp(verdict, "good") == 0)
        return;
    printf(" F%" PRIu32, is_verdict && strcmp(verdict, "bad") == 0 ? 17 : finding->code);
    if (finding->has_signer)
        printf(":%" PRIu64, finding->signer);
}

/* The findings with content and data, or with digests of them. */
static struct cms_canon_outcome check(const struct request *it, const struct octets *content, const struct octets *data, bool by_digests,
                                      struct cms_canon_finding *findings, size_t room)
{
    const bool has_content = strcmp(it->more[0], "-") != 0, has_data = strcmp(it->more[1], "-") != 0;
    const size_t size = sizeof(struct cms_canon_digest);
    struct cms_canon_outcome outcome;
    if (by_digests)
        cms_canon_check_digests(it->input.at, it->input.length, (const struct cms_canon_digest *)content->at, content->length / size,
                                has_content, (const struct cms_canon_digest *)data->at, data->length / size, has_data, it->limit,
                                findings, room, &outcome);
    else
        cms_canon_check(it->input.at, it->input.length, content->at, content->length, has_content, data->at, data->length, has_data,
                        it->limit, findings, room, &outcome);
    return outcome;
}

static void answer_check(const struct request *it, bool by_digests)
{
    struct octets content = given(it->more[0]), data = given(it->more[1]);
    struct cms_canon_finding *findings = malloc(sizeof *findings);
    struct cms_canon_outcome outcome = check(it, &content, &data, by_digests, findings, 0);
    while (outcome.status == CMS_CANON_ROOM_TOO_SMALL) {
        findings = realloc(findings, outcome.octets * sizeof *findings);
        outcome = check(it, &content, &data, by_digests, findings, outcome.octets);
    }
    if (outcome.status == CMS_CANON_DONE) {
        printf("0");
        for (uint64_t i = 0; i < outcome.octets; i++)
            print_finding(&findings[i], it->more[2]);
    } else {
        print_refusal(&outcome);
    }
    free(findings);
    free(data.at);
    free(content.at);
}

static void answer_fields(const struct request *it, bool tst_info)
{
    size_t room = it->input.length / 2 + 1;
    struct cms_canon_row *fields = malloc(room * sizeof *fields);
    struct cms_canon_outcome outcome;
    if (tst_info)
        cms_canon_tst_info_fields(it->input.at, it->input.length, fields, room, &outcome);
    else
        cms_canon_fields(it->input.at, it->input.length, it->limit, fields, room, &outcome);
    if (outcome.status == CMS_CANON_DONE) {
        printf("0");
        for (const struct cms_canon_row *row = fields; row < fields + outcome.octets; row++)
            printf(" %02" PRIx32 ":%" PRIu32 ":%" PRIu64 ",%" PRIu64, row->kind, row->level, row->start, row->length);
    } else {
        print_refusal(&outcome);
    }
    free(fields);
}

static void *answer(void *request)
{
    const struct request *it = request;
    static const struct {
        const char *name;
        written *call;
    } calls[] = {{"convert", convert}, {"cover", cover}, {"show", show}};
    for (size_t i = 0; i < sizeof calls / sizeof calls[0]; i++)
        if (strcmp(it->call, calls[i].name) == 0)
            answer_octets(it, calls[i].call);
    if (strcmp(it->call, "extent") == 0)
        answer_extent(it);
    if (strcmp(it->call, "many") == 0 || strcmp(it->call, "read") == 0)
        answer_many(it, strcmp(it->call, "read") == 0);
    if (strcmp(it->call, "same") == 0)
        answer_same(it);
    if (strcmp(it->call, "check") == 0 || strcmp(it->call, "digests") == 0)
        answer_check(it, strcmp(it->call, "digests") == 0);
    if (strcmp(it->call, "fields") == 0 || strcmp(it->call, "tst-info") == 0)
        answer_fields(it, strcmp(it->call, "tst-info") == 0);
    printf("\n");
    return NULL;
}

static void must(bool holds, const char *what)
{
    if (!holds) {
        perror(what);
        exit(1);
    }
}

/* Answers on a stack of so many octets, a multiple of the page, with a page before it that may not be touched. */
static void answer_on_stack(struct request *it, size_t octets)
{
    const size_t page = 4096;
    pthread_attr_t attributes;
    pthread_t thread;
    char *memory = mmap(NULL, page + octets, PROT_READ | PROT_WRITE, MAP_PRIVATE | MAP_ANONYMOUS, -1, 0);
    must(memory != MAP_FAILED && mprotect(memory, page, PROT_NONE) == 0, "a stack");
    must(pthread_attr_init(&attributes) == 0 && pthread_attr_setstack(&attributes, memory + page, octets) == 0, "attributes");
    must(pthread_create(&thread, &attributes, answer, it) == 0 && pthread_join(thread, NULL) == 0, "a thread");
    pthread_attr_destroy(&attributes);
    munmap(memory, page + octets);
}

static struct request request_of(char *line)
{
    struct request request = {.call = strsep(&line, " ")};
    request.limit = strtoull(strsep(&line, " "), NULL, 10);
    request.input = octets_of(strsep(&line, " "));
    for (int i = 0; i < 3; i++)
        request.more[i] = strsep(&line, " ");
    return request;
}

int main(int count, char **words)
{
    size_t stack = count > 1 ? strtoull(words[1], NULL, 10) : 0;
    char *line = NULL;
    size_t room = 0;
    ssize_t length;
    while ((length = getline(&line, &room, stdin)) > 0) {
        line[strcspn(line, "\n")] = 0;
        struct request request = request_of(line);
        if (stack)
            answer_on_stack(&request, stack);
        else
            answer(&request);
        free(request.input.at);
    }
    free(line);
    return 0;
}
