/* What bench/stimulus/program.txt does, as a plain C program: lines by memchr, words by strtok_r, a time by strtoull, an input by
   strcmp along the names, a change into a list that doubles. A bad line ends it with 1. */
#include <stdio.h>
#include <stdlib.h>
#include <string.h>

struct change { unsigned long long at; size_t pin; int to; };

static const char *const flop[] = { "D", "CK", "RN", NULL };
static const char *const wide[] = { "A0", "A1", "A2", "A3", "A4", "A5", "A6", "A7", "B0", "B1", "B2", "B3", "B4", "B5", "B6", "B7", NULL };

static struct change *changes;
static size_t count, room;

static void bad(void) { exit(1); }

static size_t number_of(const char *const *names, const char *name)
{
    for (size_t at = 0; names[at]; at++)
        if (strcmp(names[at], name) == 0)
            return at;
    bad();
    return 0;
}

static void add(struct change made)
{
    if (count == room) {
        room = room ? 2 * room : 16;
        changes = realloc(changes, room * sizeof *changes);
    }
    changes[count++] = made;
}

static const char *const *line(char *text, const char *const *names)
{
    char *rest, *end;
    char *first = strtok_r(text, " \t\r", &rest), *second = first ? strtok_r(NULL, " \t\r", &rest) : NULL;
    char *third = second ? strtok_r(NULL, " \t\r", &rest) : NULL;
    if (!first)
        return names;
    if (!second)
        bad();
    if (!third)
        return strcmp(second, "FLOP") == 0 ? flop : wide;
    struct change made = { strtoull(first, &end, 10), number_of(names, second), third[0] };
    if (*end || third[1] || !strchr("01xX", third[0]) || (count && made.at <= changes[count - 1].at))
        bad();
    add(made);
    return names;
}

int main(int argc, char **argv)
{
    FILE *file = argc == 2 ? fopen(argv[1], "rb") : NULL;
    static char bytes[16777217], copy[16777217];
    size_t length = file ? fread(bytes, 1, 16777216, file) : 0, all = 0;
    for (int time = 0; time < 10; time++) {
        const char *const *names = NULL;
        memcpy(copy, bytes, length + 1);
        for (char *at = copy, *end; (end = memchr(at, '\n', copy + length - at)); at = end + 1) {
            *end = 0;
            names = line(at, names);
        }
        all += count;
        free(changes);
        changes = NULL;
        count = room = 0;
    }
    printf("%zu\n", all);
    return 0;
}
