/* Reads a table from standard input and prints its walk: every complete list with what it ends in. */

#include "dengwizo.h"

#include <inttypes.h>
#include <stdio.h>

enum { MAX_LISTS = 10000 };

/* The words for the refusals from DENGWIZO_KIND on. */
static const char *const words[] = {
    "kind", "range", "zero", "no-match", "no-binding", "not-unique",
    "absent", "clash", "large", "split", "bindings", "choices",
};

static uint8_t table[DENGWIZO_TABLE_SIZE + 1]; /* one more, so that a longer table is refused */
static uint8_t scratch[DENGWIZO_SCRATCH_SIZE];
static uint8_t result[DENGWIZO_VALUE_SIZE];
static uint8_t entries[DENGWIZO_LIST_LENGTH];

static size_t two_bytes(const uint8_t *bytes)
{
    return bytes[0] + 256u * bytes[1];
}

static void print_value(const uint8_t *value);

/* The items of a collection between brackets, joined by commas, in a map by arrows in turn. */
static void print_items(const char *open, const uint8_t *value, const char *close)
{
    const uint8_t *end = value + two_bytes(value);
    int is_map = two_bytes(value + 2) == DENGWIZO_MAP;
    int index = 0;

    fputs(open, stdout);
    for (const uint8_t *item = value + 4; item < end; item += two_bytes(item)) {
        if (index > 0)
            fputs(is_map && index % 2 == 1 ? "|->" : ",", stdout);
        print_value(item);
        index++;
    }
    fputs(is_map && index == 0 ? "|->" : "", stdout);
    fputs(close, stdout);
}

static void print_integer(const uint8_t *bytes)
{
    int64_t number = (int64_t)(two_bytes(bytes) + 65536 * two_bytes(bytes + 2));

    printf("%" PRId64, number > INT32_MAX ? number - INT64_C(4294967296) : number);
}

static void print_value(const uint8_t *value)
{
    switch (two_bytes(value + 2)) {
    case DENGWIZO_BOOLEAN:
        fputs(value[4] == 1 ? "true" : "false", stdout);
        break;
    case DENGWIZO_INTEGER:
        print_integer(value + 4);
        break;
    case DENGWIZO_SEQUENCE:
        print_items("[", value, "]");
        break;
    case DENGWIZO_TUPLE:
        print_items("mk_(", value, ")");
        break;
    case DENGWIZO_QUOTE:
        printf("<%u>", (unsigned)two_bytes(value + 4));
        break;
    default:
        print_items("{", value, "}");
        break;
    }
}

/* The list that the walk holds, and what it ends in. */
static void print_line(size_t table_length, size_t length)
{
    uint64_t answer = dengwizo_evaluate(table, table_length, entries, length,
                                        scratch, sizeof scratch, result, sizeof result);
    unsigned number = dengwizo_number(answer);

    fputs(length == 0 ? "-" : "", stdout);
    for (size_t i = 0; i < length; i++)
        printf("%s%u", i == 0 ? "" : ",", (unsigned)entries[i]);
    if (number == 0) {
        fputs(" =", stdout);
        print_value(result);
        putchar('\n');
    } else {
        printf(" !%u %s\n", number, words[number - DENGWIZO_KIND]);
    }
}

int main(void)
{
    size_t table_length = fread(table, 1, sizeof table, stdin);
    size_t length = 0;
    unsigned count = 0;
    uint64_t answer = dengwizo_check(table, table_length, scratch, sizeof scratch);

    if (dengwizo_number(answer) != 0) {
        printf("refused %u %u\n", dengwizo_number(answer), dengwizo_place(answer));
        return 0;
    }
    printf("table %u\n", dengwizo_count(answer));
    answer = dengwizo_first(table, table_length, entries, sizeof entries, &length,
                            scratch, sizeof scratch);
    while (dengwizo_number(answer) == 0 && count < MAX_LISTS) {
        print_line(table_length, length);
        count++;
        answer = dengwizo_step(table, table_length, entries, sizeof entries, &length,
                               scratch, sizeof scratch);
    }
    printf("%s %u\n", dengwizo_number(answer) == 0 ? "cut" : "end", count);
    return 0;
}
