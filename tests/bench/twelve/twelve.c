// The lines of twelve.set and told.set written by hand: what synrun prints for them, alarms and their undoing included, as a limit of what a beat can cost.
// The set text before the line `*` is skipped; beat lines must be well-formed, without faulty readings, and end at LF. While input 16 is low this is twelve.set alone.
#include <stdint.h>
#include <stdlib.h>
#include <string.h>
#include <unistd.h>

enum { STATIONS = 12, PIECE = 1000, LENGTH = 9000, TOP = 1000000000 };
enum { BEATS = 1000000, OUT = 1 << 16, LONGEST = 1024 };
// The readings of a beat line, and the hex digits of one.
enum { READINGS = 8, DIGITS = 8 };
enum { OUT_OF_RANGE = 21, TOO_LARGE = 30 };

// The pieces of each station, and their length, in thousandths; place 0 is not used.
struct counters {
    int32_t marker[STATIONS + 1];
    int32_t r[STATIONS + 1];
};

static char out[OUT];
static size_t written;

static void flush(void) {
    for (size_t at = 0; at < written;) {
        ssize_t n = write(STDOUT_FILENO, out + at, written - at);
        if (n <= 0) exit(1);
        at += n;
    }
    written = 0;
}

static void put_number(int64_t n) {
    char digits[20];
    int k = 0;
    if (n < 0) {
        out[written++] = '-';
        n = -n;
    }
    do digits[k++] = '0' + n % 10;
    while (n /= 10);
    while (k) out[written++] = digits[--k];
}

static void put_numbers(const char *word, int count, const int64_t *numbers) {
    while (*word) out[written++] = *word++;
    for (int i = 0; i < count; i++) {
        out[written++] = ' ';
        put_number(numbers[i]);
    }
    out[written++] = '\n';
}

// POS[X] to POS[W] of six counters, the orders of one line.
static void put_orders(int line, const int32_t *values) {
    for (int i = 0; i < 6; i++) put_numbers("O", 4, (int64_t[]){line, 1, i + 1, values[i]});
}

// Line K: a station counts a piece if its input is high and the next one is not behind it.
#define LINE(K, NEXT)                                     \
    if ((inputs >> (K - 1) & 1) && c->r[K] <= c->r[NEXT]) { \
        if (c->marker[K] > TOP - PIECE) return TOO_LARGE; \
        c->marker[K] += PIECE;                            \
        if (c->r[K] > TOP - LENGTH) return TOO_LARGE;     \
        c->r[K] += LENGTH;                                \
    }

static int turns(struct counters *c, uint32_t inputs) {
    LINE(1, 2) LINE(2, 3) LINE(3, 4) LINE(4, 5) LINE(5, 6) LINE(6, 7)
    LINE(7, 8) LINE(8, 9) LINE(9, 10) LINE(10, 11) LINE(11, 12) LINE(12, 1)
    return 0;
}

// A whole number behind a space.
static int64_t number(const char **at) {
    const char *p = *at + 1;
    int negative = *p == '-';
    int64_t n = 0;
    for (p += negative; *p >= '0'; p++) n = 10 * n + (*p - '0');
    *at = p;
    return negative ? -n : n;
}

// One beat line, its LF included: the beat, and what it prints. The code.
static int beat(struct counters *c, int64_t k, const char **at, int64_t *orders) {
    const char *p = *at;
    int automatic = *p++ == 'A', code = 0;
    uint32_t inputs = number(&p);
    for (int i = 0; i < READINGS && *p == ' '; i++) p += 1 + DIGITS;
    while (*p == ' ') {
        int64_t n = number(&p);
        if (n < -TOP || n > TOP) code = OUT_OF_RANGE;
    }
    *at = p + 1;
    if (!code && automatic) {
        struct counters before = *c;
        code = turns(c, inputs);
        if (code) *c = before;
    }
    int told = !code && automatic && inputs >> 15 & 1;
    put_numbers("C", 3, (int64_t[]){k, code, told ? 24 : 0});
    if (told) {
        put_orders(21, c->marker + 1);
        put_orders(22, c->marker + 7);
        put_orders(23, c->r + 1);
        put_orders(24, c->r + 7);
        *orders += 24;
    }
    return code;
}

// All input, with a 0 behind it.
static char *input(void) {
    size_t room = 1 << 20, n = 0;
    char *text = malloc(room + 1);
    for (ssize_t got; text && (got = read(STDIN_FILENO, text + n, room - n)) > 0;) {
        n += got;
        if (n == room) text = realloc(text, (room *= 2) + 1);
    }
    if (!text) exit(1);
    text[n] = 0;
    return text;
}

int main(void) {
    struct counters c = {0};
    int64_t beats = 0, coded = 0, orders = 0;
    const char *at = strstr(input(), "\n*\n");
    if (!at) return 1;
    for (at += 3; *at && beats < BEATS;) {
        coded += beat(&c, ++beats, &at, &orders) != 0;
        if (written > OUT - LONGEST) flush();
    }
    put_numbers("END", 3, (int64_t[]){beats, coded, orders});
    flush();
    return 0;
}
