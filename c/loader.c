/* A loader in small: judges a sheet that is read from a file, says what came of it, and where it is taken rehearses one
 * morning: volts and amps come in, and the routine runs until it ends.
 * usage: loader SHEET [DOMAIN-NUMBER] */
#include "routine_bay.h"

#include <stdio.h>
#include <stdlib.h>
#include <string.h>

#define MOST 1048576

static uint8_t sheet[MOST + 1];
static uint8_t calls[MOST + 4096];
static uint64_t answers[300];

static size_t put_word(uint8_t *at, uint32_t number)
{
    for (int i = 0; i < 4; i++)
        at[i] = (uint8_t)(number >> (8 * i));
    return 4;
}

/* Writes one call; an offer's sheet is written behind it by the caller. */
static size_t put_call(uint8_t *at, enum routine_bay_call call, uint8_t domain, uint32_t number, int32_t value)
{
    memset(at, 0, 12);
    at[0] = (uint8_t)call;
    at[1] = domain;
    put_word(at + 4, number);
    put_word(at + 8, (uint32_t)value);
    return 12;
}

static void print_verdict(uint64_t word)
{
    unsigned number = routine_bay_number(word);
    if (number == 255)
        printf("no domain has that number\n");
    else if (number == 0)
        printf("taken %u\n", routine_bay_place(word));
    else
        printf("refused %u %u %u %u\n", number, routine_bay_place(word), routine_bay_way(word),
               (unsigned)routine_bay_variable(word));
}

/* Offers and starts the routine, then steps it with readings that fall from 1000 to 0: at dawn there is no current. */
static size_t write_morning(uint8_t domain, size_t length)
{
    size_t n = put_call(calls, ROUTINE_BAY_OFFER, domain, (uint32_t)length, 0);
    memcpy(calls + n, sheet, length);
    n += length;
    n += put_call(calls + n, ROUTINE_BAY_START, 0, 0, 0);
    for (int step = 0; step < 200; step++)
        n += put_call(calls + n, ROUTINE_BAY_STEP, 0, 0, step < 100 ? 1000 - 10 * step : 0);
    return n;
}

static void print_morning(size_t count)
{
    size_t steps = 0;
    for (size_t i = 2; i < count && routine_bay_number(answers[i]) == 0; i++) {
        steps++;
        if (routine_bay_way(answers[i]) == 1) {
            printf("ended after %zu steps\n", steps);
            return;
        }
    }
    printf("%zu steps made\n", steps);
}

int main(int argc, char **argv)
{
    if (argc < 2) {
        fprintf(stderr, "usage: loader SHEET [DOMAIN-NUMBER]\n");
        return 2;
    }
    FILE *file = fopen(argv[1], "rb");
    if (file == NULL) {
        perror(argv[1]);
        return 2;
    }
    size_t length = fread(sheet, 1, sizeof sheet, file);
    fclose(file);
    uint32_t domain = argc > 2 ? (uint32_t)strtoul(argv[2], NULL, 10) : ROUTINE_BAY_SPANS;
    uint64_t verdict = routine_bay_verdict(domain, sheet, length);
    print_verdict(verdict);
    if (routine_bay_number(verdict) != 0)
        return 1;
    size_t written = write_morning((uint8_t)domain, length);
    print_morning(routine_bay_play(calls, written, answers, sizeof answers / sizeof answers[0]));
    return 0;
}
