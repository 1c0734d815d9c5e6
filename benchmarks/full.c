/* Times each call of the full store at 12 bits beside the same loop in C on the same bytes. */
#include <alloca.h>
#include <stdint.h>
#include <stdio.h>
#include <string.h>
#include <time.h>

size_t full_bench(uint8_t *cells, size_t len, size_t actions, size_t variables, uint8_t call, size_t bit, size_t times);
#define CALLS(call, bit, times) full_bench(cells, sizeof cells, 3, 4, call, bit, times)

enum { WIDTH = 512, SETS = 8, TIMES = 200000, ROUNDS = 16 };
static uint8_t cells[WIDTH * SETS] __attribute__((aligned(64)));
static uint8_t universe[WIDTH] __attribute__((aligned(64)));

static void keep_bytes(uint8_t *a, uint16_t width, unsigned k)
{
    for (uint16_t x = 0; x < width; x++) a[x] &= (uint8_t)((x >> k) % 2 * 255);
}

static void clear_runs(uint8_t *a, size_t width, size_t run)
{
    for (size_t y = 0; y < width; y += 2 * run) for (size_t x = 0; x < run; x++) a[y + x] = 0;
}

static size_t same(const uint8_t *a, const uint8_t *b, size_t width)
{
    uint8_t d = 0;
    for (size_t x = 0; x < width; x++) d |= a[x] ^ b[x];
    return d == 0;
}

static size_t next(const uint8_t *a, size_t width, size_t c)
{
    size_t x;
    if (a[c / 8] >> c % 8) return c + __builtin_ctz(a[c / 8] >> c % 8);
    for (x = c / 8 + 1; x + 8 <= width; x += 8) {
        uint64_t v;
        memcpy(&v, a + x, 8);
        if (v) return 8 * x + __builtin_ctzll(v);
    }
    for (; x < width; x++) if (a[x]) return 8 * x + __builtin_ctz(a[x]);
    return 4096;
}

static size_t answer_c(size_t width, uint8_t call, size_t bit, size_t t)
{
    static const uint8_t masks[3] = { 0xAA, 0xCC, 0xF0 };
    uint8_t *a = cells + width, *b = cells + (2 + t % 2) * width, mask;
    size_t x, c = t % 4096;
    switch (call) {
    case 0: for (x = 0; x < width; x++) a[x] = 0; break;
    case 1: for (x = 0; x < width; x++) a[x] = universe[x]; break;
    case 2: for (x = 0; x < width; x++) a[x] = b[x]; break;
    case 3: for (x = 0; x < width; x++) a[x] |= b[x]; break;
    case 4: for (x = 0; x < width; x++) a[x] &= b[x]; break;
    case 5: for (x = 0; x < width; x++) a[x] = universe[x] & ~a[x]; break;
    case 6:
        if (bit < 3) for (mask = masks[bit], x = 0; x < width; x++) a[x] &= mask;
        else if (bit < 9) keep_bytes(a, width, bit - 3);
        else clear_runs(a, width, (size_t)1 << (bit - 3));
        break;
    case 7: return same(a, b, width);
    case 8: return a[c / 8] >> c % 8 & 1;
    case 9: return next(a, width, t % 8);
    }
    return 0;
}

__attribute__((noinline)) static size_t bench_c(size_t width, uint8_t call, size_t bit, size_t times)
{
    size_t sum = 0;
    for (size_t t = 0; t < times; t++) { sum += answer_c(width, call, bit, t); __asm__ volatile("" ::: "memory"); }
    return sum;
}

static double now(void)
{
    struct timespec t;
    clock_gettime(CLOCK_MONOTONIC, &t);
    return t.tv_sec * 1e9 + t.tv_nsec;
}

static volatile size_t sink;
static volatile size_t width_now = WIDTH;

static void measure(const char *name, uint8_t call, size_t bit)
{
    size_t width = width_now;
    double ours = 1e18, theirs = 1e18, open = 1e18, t;
    for (int r = 0; r < ROUNDS; r++) {
        /* the store lies on the stack: another place for it in each round */
        volatile char *pad = alloca(16);
        pad[0] = 0;
        t = now(); sink = CALLS(call, bit, 0); t = now() - t; if (t < open) open = t;
        t = now(); sink = CALLS(call, bit, TIMES); t = now() - t; if (t < ours) ours = t;
        t = now(); sink = bench_c(width, call, bit, TIMES); t = now() - t; if (t < theirs) theirs = t;
    }
    ours = (ours - open) / TIMES;
    theirs /= TIMES;
    printf("%-10s %7.1f ns  C %7.1f ns  ratio %.2f\n", name, ours, theirs, ours / theirs);
}

int main(void)
{
    char name[16];
    for (size_t x = 0; x < sizeof cells; x++) cells[x] = x * 37;
    CALLS(1, 0, 1);
    memcpy(universe, cells + WIDTH, WIDTH);
    measure("clear", 0, 0);
    measure("fill", 1, 0);
    measure("copy", 2, 0);
    measure("join", 3, 0);
    measure("meet", 4, 0);
    measure("flip", 5, 0);
    for (size_t b = 0; b < 12; b++) { snprintf(name, sizeof name, "pick %zu", b); measure(name, 6, b); }
    memcpy(cells + 3 * WIDTH, cells + 2 * WIDTH, WIDTH);
    memcpy(cells + WIDTH, cells + 2 * WIDTH, WIDTH);
    measure("same", 7, 0);
    measure("has", 8, 0);
    measure("next", 9, 0);
    memset(cells + WIDTH, 0, WIDTH);
    measure("next none", 9, 0);
    double t = 1e18;
    for (int r = 0; r < 100; r++) { double s = now(); sink = CALLS(0, 0, 0); s = now() - s; if (s < t) t = s; }
    printf("opening    %7.0f ns\n", t);
    return 0;
}
