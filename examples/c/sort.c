/* Sorts the lines of the input by their bytes; equal lines stay in their order. Exits with 1 and puts nothing where
   there are too many lines or bytes. */
#include "pump.h"

enum { MOST_LINES = 1000, MOST_BYTES = 32000 };

static char text[MOST_BYTES];               /* the lines, each with a 0 in place of its newline */
static const char *lines[MOST_LINES];       /* where each of them begins */
static const char *other[MOST_LINES];       /* for what was merged */

/* Takes the lines of the input, and answers how many there are. */
static int taken_lines(void)
{
    int count = 0, used = 0, before = '\n';
    for (int byte = pump_get(); byte >= 0; byte = pump_get()) {
        if (used + 1 >= MOST_BYTES || (before == '\n' && count == MOST_LINES))
            pump_exit(1);
        if (before == '\n')
            lines[count++] = &text[used];
        text[used++] = (char)(byte == '\n' ? 0 : byte);
        before = byte;
    }
    return count;
}

/* Whether the line a is to stand behind the line b. */
static int is_behind(const char *a, const char *b)
{
    while (*a != 0 && *a == *b)
        a++, b++;
    return (unsigned char)*a > (unsigned char)*b;
}

/* Merges the sorted lines from `first` to before `middle` with those from there to before `end`. */
static void merge(int first, int middle, int end)
{
    int left = first, right = middle;
    for (int place = first; place < end; place++) {
        int takes_right = left == middle || (right < end && is_behind(lines[left], lines[right]));
        other[place] = takes_right ? lines[right++] : lines[left++];
    }
    for (int place = first; place < end; place++)
        lines[place] = other[place];
}

static void sort(int first, int end)
{
    if (end - first < 2)
        return;
    int middle = first + (end - first) / 2;
    sort(first, middle);
    sort(middle, end);
    merge(first, middle, end);
}

int main(void)
{
    int count = taken_lines();
    sort(0, count);
    for (int place = 0; place < count; place++) {
        for (const char *byte = lines[place]; *byte != 0; byte++)
            pump_put(*byte);
        pump_put('\n');
    }
    return 0;
}
