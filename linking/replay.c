/* Replays the stored sample of requests and answers (docs/ANSWERS.md) through the functions that C links: reading, in both
 * modes, and writing without a limit, of packets and of raw packets. Where a datagram is read it is also copied, and the
 * copy has to be what is written of the flat form; its flat form is also damaged, and has to be refused. What no call may
 * touch is looked at after each.
 *     replay REQUESTS ANSWERS
 */
#include "rickwinter.h"

#include <stdio.h>
#include <stdlib.h>
#include <string.h>

enum { DATAGRAM, EDITS };
enum { MOST_BYTES = 100000, MOST_ROOM = 71000, MOST_RECORDS = 1000, LONGEST = 400000, UNTOUCHED = 0xAA };
/* Places in a flat form. */
enum { TOKEN = 4, PAYLOAD = 7, COUNT = 10, RECORDS = 11, EACH = 4 };

/* The class of each code byte by its name, from the sample's own answers to `class-of`. */
static char classes[256][64];

/* The datagram and the edit store. */
static uint8_t stores[2][MOST_BYTES];
static size_t stored[2];
static uint32_t flat[RECORDS + EACH * MOST_RECORDS];
static size_t numbers;
static uint8_t output[MOST_ROOM], copied[MOST_ROOM];
static char said[LONGEST];

static char *next(char **line)
{
    char *word = *line;
    if (!word)
        return "";
    char *end = strchr(word, ' ');
    *line = end ? end + 1 : NULL;
    if (end)
        *end = 0;
    return word;
}

static uint32_t number(char **line)
{
    return (uint32_t)strtoull(next(line), NULL, 10);
}

/* Puts the bytes of a word into a store after those that it has, and says where they stand. */
static void put_into(uint32_t home, const char *word, uint32_t range[3])
{
    uint8_t *to = stores[home] + stored[home];
    range[0] = home;
    range[1] = (uint32_t)stored[home];
    range[2] = 0;
    if (!strncmp(word, "zeros:", 6)) {
        range[2] = (uint32_t)strtoull(word + 6, NULL, 10);
        memset(to, 0, range[2]);
    } else if (strcmp(word, "-")) {
        range[2] = (uint32_t)(strlen(word) / 2);
        for (uint32_t i = 0; i < range[2]; i++) {
            char digits[3] = {word[2 * i], word[2 * i + 1], 0};
            to[i] = (uint8_t)strtoul(digits, NULL, 16);
        }
    }
    stored[home] += range[2];
}

/* The home that a word names, and the word without it. */
static uint32_t home_of(const char **word)
{
    if (strncmp(*word, "e:", 2))
        return DATAGRAM;
    *word += 2;
    return EDITS;
}

static void put_bytes(const char *word, uint32_t range[3])
{
    uint32_t home = home_of(&word);
    put_into(home, word, range);
}

static int byte_of(const char *class)
{
    for (int byte = 0; byte < 256; byte++)
        if (!strcmp(classes[byte], class))
            return byte;
    return -1;
}

/* VERSION TYPE CLASS ID. False for a class that its own byte doesn't name: no flat form has it. */
static bool take_header(char **line)
{
    flat[0] = number(line);
    flat[1] = number(line);
    int byte = byte_of(next(line));
    flat[2] = (uint32_t)byte;
    flat[3] = number(line);
    return byte >= 0;
}

static bool take_packet(char **line)
{
    bool named = take_header(line);
    put_bytes(next(line), flat + TOKEN);
    char *options = next(line);
    uint32_t count = 0;
    for (char *option = strtok(options, ","); option && strcmp(option, "-"); option = strtok(NULL, ",")) {
        uint32_t *record = flat + RECORDS + EACH * count++;
        record[0] = (uint32_t)strtoull(option, NULL, 10);
        put_bytes(strchr(option, ':') + 1, record + 1);
    }
    put_bytes(next(line), flat + PAYLOAD);
    flat[COUNT] = count;
    numbers = RECORDS + EACH * count;
    return named;
}

static void take_range(const char *word, uint32_t range[3])
{
    char *plus;
    range[0] = home_of(&word);
    range[1] = (uint32_t)strtoull(word, &plus, 10);
    range[2] = (uint32_t)strtoull(plus + 1, NULL, 10);
}

static bool take_raw(char **line)
{
    uint32_t all[3];
    bool named = take_header(line);
    put_into(DATAGRAM, next(line), all);
    put_into(EDITS, next(line), all);
    take_range(next(line), flat + TOKEN);
    char *records = next(line);
    memset(flat + RECORDS, 0, sizeof flat - RECORDS * sizeof *flat);
    uint32_t listed = 0;
    for (char *record = strtok(records, ","); record && strcmp(record, "-"); record = strtok(NULL, ",")) {
        flat[RECORDS + EACH * listed] = (uint32_t)strtoull(record, NULL, 10);
        take_range(strchr(record, '@') + 1, flat + RECORDS + EACH * listed++ + 1);
    }
    unsigned long long count = strtoull(next(line), NULL, 10);
    take_range(next(line), flat + PAYLOAD);
    flat[COUNT] = count < UINT32_MAX ? (uint32_t)count : UINT32_MAX;
    numbers = RECORDS + EACH * (count <= 128 ? count : 128);
    return named;
}

static char *say_hex(char *at, const uint8_t *bytes, size_t length)
{
    if (!length)
        *at++ = '-';
    for (size_t i = 0; i < length; i++)
        at += sprintf(at, "%02x", bytes[i]);
    *at = 0;
    return at;
}

static bool untouched(const void *from, const void *end)
{
    for (const uint8_t *at = from; at < (const uint8_t *)end; at++)
        if (*at != UNTOUCHED)
            return false;
    return true;
}

/* What writing answered, with what it left in the room. */
static const char *say_written(uint64_t answer, size_t room, bool tell_kept)
{
    bool refused = answer >= RICKWINTER_REFUSED;
    size_t length = refused ? 0 : (size_t)answer;
    bool kept = length <= room && untouched(output + length, output + MOST_ROOM);
    char *at = said;
    if (refused) {
        at += sprintf(at, "refused %llu", (unsigned long long)(answer - RICKWINTER_REFUSED));
    } else {
        at += sprintf(at, "written %zu ", length);
        at = say_hex(at, output, length);
    }
    if (tell_kept || !kept)
        strcpy(at, kept ? " kept" : " changed");
    return said;
}

static const char *write_all(bool strict, size_t room, bool tell_kept)
{
    memset(output, UNTOUCHED, sizeof output);
    uint64_t answer = rickwinter_v2_write(strict, flat, numbers, stores[DATAGRAM], stored[DATAGRAM], stores[EDITS],
                                          stored[EDITS], output, room);
    return say_written(answer, room, tell_kept);
}

/* Copying a datagram is writing the flat form that was read of it, whatever the edit store is: here it is the datagram. */
static bool copies(bool strict)
{
    const uint8_t *datagram = stores[DATAGRAM];
    size_t length = stored[DATAGRAM];
    memset(copied, UNTOUCHED, sizeof copied);
    uint64_t answer = rickwinter_copy(strict, datagram, length, copied, sizeof copied);
    memset(output, UNTOUCHED, sizeof output);
    uint64_t again = rickwinter_v2_write(strict, flat, RICKWINTER_MOST_NUMBERS, datagram, length, datagram, length, output,
                                         sizeof output);
    return answer == again && !memcmp(copied, output, sizeof output);
}

/* Whether the flat form is refused with a number over stores of these lengths, and nothing is written. */
static bool refused(uint64_t refusal, size_t datagram, size_t edits)
{
    memset(output, UNTOUCHED, sizeof output);
    uint64_t answer = rickwinter_v2_write(false, flat, RICKWINTER_MOST_NUMBERS, stores[DATAGRAM], datagram, stores[EDITS], edits,
                                          output, sizeof output);
    return answer == RICKWINTER_REFUSED + refusal && untouched(output, output + sizeof output);
}

/* A home of 2, in the token, the payload and the last option, is refused 11; either store that is too long 10 before it. */
static bool refuses_homes(void)
{
    uint32_t *homes[] = {flat + TOKEN, flat + PAYLOAD, flat + RECORDS + EACH * flat[COUNT] - 3};
    bool all = true;
    for (size_t i = 0; i < (flat[COUNT] ? 3 : 2); i++) {
        *homes[i] = 2;
        all &= refused(11, stored[DATAGRAM], 0) && refused(10, 70001, 0) && refused(10, stored[DATAGRAM], 70001);
        *homes[i] = DATAGRAM;
    }
    return all;
}

/* Every range of a packet that was read is one of the datagram. */
static bool in_datagram(void)
{
    bool all = flat[TOKEN] == DATAGRAM && flat[PAYLOAD] == DATAGRAM;
    for (uint32_t i = 0; i < flat[COUNT]; i++)
        all &= flat[RECORDS + EACH * i + 1] == DATAGRAM;
    return all;
}

static char *say_range(char *at, const uint32_t range[3])
{
    return say_hex(at, stores[range[0]] + range[1], range[2]);
}

static void say_packet(void)
{
    char *at = said;
    at += sprintf(at, "packet %u %u %u %s %u ", flat[0], flat[1], flat[2], classes[flat[2]], flat[3]);
    at = say_range(at, flat + TOKEN);
    *at++ = ' ';
    if (!flat[COUNT])
        *at++ = '-';
    for (uint32_t i = 0; i < flat[COUNT]; i++) {
        const uint32_t *record = flat + RECORDS + EACH * i;
        at += sprintf(at, "%s%u:", i ? "," : "", record[0]);
        at = say_range(at, record + 1);
    }
    *at++ = ' ';
    say_range(at, flat + PAYLOAD);
}

static const char *read_all(bool strict)
{
    const uint8_t *datagram = stores[DATAGRAM];
    size_t length = stored[DATAGRAM];
    memset(flat, UNTOUCHED, sizeof flat);
    uint32_t answer = rickwinter_v2_read(strict, datagram, length, flat, RICKWINTER_MOST_NUMBERS);
    size_t handed = answer ? 0 : RECORDS + EACH * flat[COUNT];
    if (!untouched(flat + handed, flat + RECORDS + EACH * MOST_RECORDS))
        return "numbers that were not handed over are changed";
    if (answer) {
        sprintf(said, "refused %u", answer);
        return said;
    }
    if (!in_datagram())
        return "a range that was read is not one of the datagram";
    if (!copies(strict))
        return "a copy is not what is written of the flat form";
    if (!refuses_homes())
        return "a home of 2 is not refused";
    say_packet();
    memset(flat, UNTOUCHED, sizeof flat);
    answer = rickwinter_v2_read(strict, datagram, length, flat, handed - 1);
    return answer == 12 && untouched(flat, flat + handed) ? said : "a slice that is too short is not refused 12";
}

/* The answer to a request, or nothing for one that these functions don't serve. */
static const char *answer(char *line)
{
    char *word = next(&line);
    bool strict = strlen(word) > 7 && !strcmp(word + strlen(word) - 7, "-strict");
    if (strict)
        word[strlen(word) - 7] = 0;
    stored[DATAGRAM] = stored[EDITS] = 0;
    if (!strcmp(word, "read")) {
        uint32_t all[3];
        put_into(DATAGRAM, next(&line), all);
        return read_all(strict);
    }
    bool raw = !strcmp(word, "write-raw");
    if ((!raw && strcmp(word, "write")) || strcmp(next(&line), "none"))
        return NULL;
    size_t room = number(&line);
    if (!(raw ? take_raw(&line) : take_packet(&line)))
        return NULL;
    return write_all(strict, room, raw);
}

/* A line without its newline; false at the end. */
static bool take_line(FILE *from, char **line, size_t *room)
{
    ssize_t length = getline(line, room, from);
    if (length < 0)
        return false;
    if (length && (*line)[length - 1] == '\n')
        (*line)[length - 1] = 0;
    return true;
}

static void learn_classes(FILE *requests, FILE *answers)
{
    char *asked = NULL, *expected = NULL;
    size_t rooms[2] = {0, 0};
    while (take_line(requests, &asked, rooms) && take_line(answers, &expected, rooms + 1)) {
        unsigned byte;
        if (sscanf(asked, "class-of %u", &byte) == 1 && byte < 256)
            sscanf(expected, "class %63s", classes[byte]);
    }
    rewind(requests);
    rewind(answers);
}

int main(int count, char **names)
{
    FILE *requests = count == 3 ? fopen(names[1], "r") : NULL, *answers = count == 3 ? fopen(names[2], "r") : NULL;
    if (!requests || !answers) {
        fputs("usage: replay REQUESTS ANSWERS\n", stderr);
        return 2;
    }
    if (rickwinter_version() != RICKWINTER_VERSION) {
        fputs("linked: the archive has another flat form than its declarations\n", stderr);
        return 1;
    }
    learn_classes(requests, answers);
    char *asked = NULL, *expected = NULL;
    size_t rooms[2] = {0, 0}, replayed = 0, differ = 0;
    while (take_line(requests, &asked, rooms) && take_line(answers, &expected, rooms + 1)) {
        if (!strcmp(expected, "no request"))
            continue;
        char *request = strdup(asked);
        const char *got = answer(asked);
        if (got) {
            replayed++;
            if (strcmp(got, expected)) {
                differ++;
                printf("%.200s\n    expected %.200s\n    linked   %.200s\n", request, expected, got);
            }
        }
        free(request);
    }
    printf("linked: %zu answers replayed, %zu differ\n", replayed, differ);
    return replayed && !differ ? 0 : 1;
}
