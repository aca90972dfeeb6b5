/* Two orders that differ in the sequence of their settings have one spelling; a cut order is refused. */
#include "collapse.h"
#include <stdio.h>

static const uint8_t one[] = {6, 1,                            /* skip 1 */
                              5, 5,                            /* dx level 5 */
                              4, 0, 0, 0, 0, 0, 0, 0xF0, 0x3F, /* interval 1 */
                              3, 0, 0, 0, 0, 0, 0, 0x10, 0x40, /* max time 4 */
                              2, 5,                            /* level 5 */
                              1, 0, 0, 0, 0, 0, 0, 0x44, 0x40, /* amplitude 40 */
                              7, 8, 0xE8, 3, 0, 0, 9};         /* begin, advance 1000, end */

static const uint8_t other[] = {2, 5, 1, 0, 0, 0, 0, 0, 0, 0x44, 0x40, 6, 1, 3, 0, 0, 0, 0, 0, 0, 0x10, 0x40, 5, 5,
                                4, 0, 0, 0, 0, 0, 0, 0xF0, 0x3F, 7, 8, 0xE8, 3, 0, 0, 9};

/* For the refusals 1 to 4. */
static const char *words[] = {"the order breaks off", "no command, or a skip above 1", "a command out of its place",
                              "a setting or 07 is missing"};

/* How many bytes follow a command byte. */
static size_t operand(uint8_t command)
{
    static const size_t sizes[] = {0, 8, 1, 8, 8, 1, 1, 0, 4, 0};
    return command < 10 ? sizes[command] : 0;
}

/* Each command with its operand, in hexadecimal. */
static void print(const char *what, const uint8_t *order, size_t length)
{
    size_t next = 0;
    printf("%s %zu bytes:", what, length);
    for (size_t i = 0; i < length; i++) {
        printf("%s%02X", i == next ? " " : "", (unsigned)order[i]);
        next += i == next ? 1 + operand(order[i]) : 0;
    }
    printf("\n");
}

static void spell(const uint8_t *order, size_t length)
{
    uint8_t out[64];
    size_t position = 0;
    uint32_t answer = collapse_spell(order, length, out, sizeof out, &position);
    print("order   ", order, length);
    if (answer == COLLAPSE_SPELLED)
        print("spelling", out, length);
    else if (answer == COLLAPSE_REFUSED_ROOM)
        printf("refused 17: too little room\n");
    else
        printf("refused %u at %zu: %s\n", (unsigned)answer, position, words[answer - 1]);
}

int main(void)
{
    spell(one, sizeof one);
    spell(other, sizeof other);
    spell(other, sizeof other - 3);
    return 0;
}
