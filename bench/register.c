/*
 * The job of print_register in plain C, to measure it against: reads a plan file from standard input and prints its
 * route register. It is written as a C programmer would write it and proves nothing. It takes the file on trust: it
 * looks at the counts and the length, so that it reads no byte that is not there, and at nothing else.
 */
#include <stdio.h>
#include <string.h>
#include <unistd.h>

enum { MOST_INPUT = 65536, MOST_COMPONENTS = 512, MOST_ROWS = 65535, BLOCK = 65536, LONGEST_LINE = 2560 };
enum { SIGNAL, SWITCH, STRAIGHT };
enum { WEST, EAST, BRANCH };
enum { BLANK = 65535 };

static unsigned char file[MOST_INPUT];
static unsigned char kind[MOST_COMPONENTS];      /* SIGNAL, SWITCH or STRAIGHT */
static unsigned char direction[MOST_COMPONENTS]; /* WEST or EAST, of a signal or switch */
static unsigned short far_port[MOST_COMPONENTS][3];
static int components, signals;

static char block[BLOCK + LONGEST_LINE];
static size_t used;

static unsigned short path[MOST_COMPONENTS]; /* entries: 4 * component + 0, 1 (normal) or 2 (reverse) */
static unsigned char on_path[MOST_COMPONENTS];
static int length, heading;
static long rows;

static int fail(const char *message)
{
    fprintf(stderr, "register: %s\n", message);
    return 2;
}

static int flush(void)
{
    size_t done = 0;
    while (done < used) {
        ssize_t n = write(1, block + done, used - done);
        if (n <= 0)
            return -1;
        done += (size_t)n;
    }
    used = 0;
    return 0;
}

static char *put_number(char *to, unsigned n)
{
    char digits[10];
    int k = 0;
    do {
        digits[k++] = (char)('0' + n % 10);
        n /= 10;
    } while (n);
    while (k)
        *to++ = digits[--k];
    return to;
}

static int print_row(void)
{
    if (used >= BLOCK && flush())
        return -1;
    char *to = block + used;
    for (int i = 0; i < length; i++) {
        to = put_number(to, path[i] / 4);
        if (path[i] % 4)
            *to++ = path[i] % 4 == 1 ? 'N' : 'R';
        *to++ = i + 1 < length ? ' ' : '\n';
    }
    used = (size_t)(to - block);
    return 0;
}

static int print_last(const char *word)
{
    if (used >= BLOCK && flush())
        return -1;
    size_t n = strlen(word);
    memcpy(block + used, word, n);
    char *to = put_number(block + used + n, (unsigned)rows);
    *to++ = '\n';
    used = (size_t)(to - block);
    return flush();
}

/* Goes on from the path's last entry. Answers 0, 1 where a route is found that is one too many, -1 where writing failed. */
static int go_on(void);

static int enter(int component, int position)
{
    path[length++] = (unsigned short)(4 * component + position);
    on_path[component] = 1;
    int stop = 0;
    if (length >= 2 && kind[component] == SIGNAL && direction[component] == heading) {
        if (rows == MOST_ROWS)
            return 1;
        rows++;
        stop = print_row();
    }
    if (!stop)
        stop = go_on();
    length--;
    on_path[component] = 0;
    return stop;
}

static int go_on(void)
{
    int last = path[length - 1] / 4, side = heading;
    if (kind[last] == SWITCH && direction[last] == heading && path[length - 1] % 4 == 2)
        side = BRANCH;
    unsigned port = far_port[last][side];
    if (port == BLANK)
        return 0;
    int next = (int)(port / 4);
    if (on_path[next])
        return 0;
    if (kind[next] != SWITCH)
        return enter(next, 0);
    if (direction[next] != heading) /* met at its straight port or its branch */
        return enter(next, port % 4 == BRANCH ? 2 : 1);
    int stop = enter(next, 1); /* met at its root */
    return stop ? stop : enter(next, 2);
}

static unsigned number(int at)
{
    return file[at] + 256u * file[at + 1];
}

/* Reads the records of one section into the arrays. Answers the place behind them, or -1. */
static int read_section(int at, int size, int end, int sort)
{
    if (at < 0 || at + 2 > size)
        return -1;
    int count = (int)number(at), record = sort == SIGNAL ? 5 : sort == SWITCH ? 9 : 4;
    at += 2;
    if (end + count > MOST_COMPONENTS || at + count * record > size)
        return -1;
    for (int i = 0; i < count; i++, at += record) {
        int c = components++;
        kind[c] = (unsigned char)sort;
        far_port[c][WEST] = (unsigned short)number(at);
        far_port[c][EAST] = (unsigned short)number(at + 2);
        if (sort == SWITCH)
            far_port[c][BRANCH] = (unsigned short)number(at + 4);
        if (sort != STRAIGHT)
            direction[c] = file[at + (sort == SIGNAL ? 4 : 6)] == 'E' ? EAST : WEST;
    }
    return at;
}

static int in_plan(void)
{
    for (int c = 0; c < components; c++)
        for (int side = WEST; side <= (kind[c] == SWITCH ? BRANCH : EAST); side++)
            if (far_port[c][side] != BLANK && (far_port[c][side] / 4 >= components || far_port[c][side] % 4 > BRANCH))
                return 0;
    return 1;
}

int main(void)
{
    int size = 0;
    while (size < MOST_INPUT) {
        ssize_t n = read(0, file + size, (size_t)(MOST_INPUT - size));
        if (n < 0)
            return fail("cannot read standard input");
        if (n == 0)
            break;
        size += (int)n;
    }
    int at = read_section(0, size, 0, SIGNAL);
    signals = components;
    at = read_section(at, size, components, SWITCH);
    at = read_section(at, size, components, STRAIGHT);
    if (at < 0 || at + 2 > size || at + 2 + 2 * (int)number(at) != size || !in_plan())
        return fail("not a plan file");
    int stop = 0;
    for (int c = 0; c < signals && !stop; c++) {
        heading = direction[c];
        stop = enter(c, 0);
    }
    if (stop < 0 || print_last(stop ? "full " : "end "))
        return fail("cannot write standard output");
    return 0;
}
