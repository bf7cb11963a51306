#include "direction.h"

Direction direction_numbered(uint64_t number)
{
    static const Direction numbered[DIRECTIONS] = {{1, 0}, {4, 1},  {2, 1},  {4, 3},  {1, 1},  {3, 4},  {1, 2},  {1, 4},
                                                   {0, 1}, {-1, 4}, {-1, 2}, {-3, 4}, {-1, 1}, {-4, 3}, {-2, 1}, {-4, 1}};
    return number < DIRECTIONS ? numbered[number] : (Direction){0, 0};
}

int number_read(const char **text, uint64_t most, uint64_t *number)
{
    const char *at = *text;
    uint64_t n = 0;
    for (; *at >= '0' && *at <= '9'; at++) {
        uint64_t digit = (uint64_t)(*at - '0');
        n = digit > most || n > (most - digit) / 10 ? most : 10 * n + digit;
    }
    int found = at != *text;
    *number = n;
    *text = at;
    return found;
}

static int signed_read(const char **text, int64_t *number)
{
    int minus = **text == '-';
    *text += minus;
    uint64_t size;
    if (!number_read(text, INT64_MAX, &size))
        return 0;
    *number = minus ? -(int64_t)size : (int64_t)size;
    return 1;
}

int direction_read(const char *text, Direction *direction)
{
    const char *at = text;
    uint64_t number;
    if (number_read(&at, UINT64_MAX, &number) && *at == '\0') {
        *direction = direction_numbered(number);
        return 1;
    }
    at = text;
    return signed_read(&at, &direction->p) && *at++ == ',' && signed_read(&at, &direction->q) && *at == '\0';
}
