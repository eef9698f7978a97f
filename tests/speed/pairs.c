/* Two kinds of work timed in pairs. */
#define _GNU_SOURCE
#include "pairs.h"
#include "count.h"

#include <stdio.h>
#include <stdlib.h>
#include <time.h>

enum { PLACES = 16, PAGE = 4096 };

static volatile uint32_t sink;

static double now(clockid_t clock)
{
    struct timespec t;
    clock_gettime(clock, &t);
    return (double)t.tv_sec * 1e9 + (double)t.tv_nsec;
}

/* The time for which the process was run, so that what runs beside it is not counted. */
static double spent(void)
{
    return now(CLOCK_PROCESS_CPUTIME_ID);
}

static double ticks(void)
{
#ifdef __x86_64__
    return (double)__builtin_ia32_rdtsc();
#else
    return 0;
#endif
}

static int ascending(const void *a, const void *b)
{
    double x = *(const double *)a, y = *(const double *)b;
    return (x > y) - (x < y);
}

/* Ticks of the processor's time stamp counter in a nanosecond. They are cycles only where the clock stands at its
 * nominal rate. The counter goes on while other programs run, so it is held to the clock on the wall. The middle of
 * several tries is taken, since one may be held up between two readings. */
static double tick_rate(void)
{
    double rates[9];
    for (size_t i = 0; i < COUNT(rates); i++) {
        double t = now(CLOCK_MONOTONIC), began = ticks();
        while (now(CLOCK_MONOTONIC) - t < 3e6)
            ;
        rates[i] = (ticks() - began) / (now(CLOCK_MONOTONIC) - t);
    }
    qsort(rates, COUNT(rates), sizeof *rates, ascending);
    return rates[COUNT(rates) / 2];
}

/* Nanoseconds of one byte in so many calls. Each time the stack lies some pages further on: with the stack in one
 * place, a run of the program may be slower by a tenth from start to end in all that uses some of its tables. */
static double timed(const struct side *s, int calls)
{
    static size_t times;
    volatile uint8_t room[1 + times++ % PLACES * PAGE];
    room[0] = 0;
    sink += room[0];
    double began = spent();
    for (int i = 0; i < calls; i++)
        sink += s->work(s->offset, s->len);
    return (spent() - began) / calls / (double)s->len;
}

/* As many calls as take some milliseconds, beside which reading the clock is nothing. */
static int calls_of(const struct side *s)
{
    int calls = 1;
    while (timed(s, calls) * calls * (double)s->len < 4e6 && calls < 1 << 20)
        calls *= 2;
    return calls;
}

double rate_of(const struct side *s)
{
    return 1e3 / timed(s, calls_of(s));
}

struct figure {
    double ratio, low, high, a, b;
};

/* How many times as fast a is as b, by the byte, since they may differ in length. In each pair both are timed one after
 * the other, so that what slows the machine for a while slows both. */
static struct figure compared(const struct side *a, const struct side *b)
{
    static double ratios[PAIRS], as[PAIRS], bs[PAIRS];
    int calls_a = calls_of(a), calls_b = calls_of(b), pairs = a->len == LONG_MESSAGE ? LONG_PAIRS : PAIRS;
    for (int i = 0; i < pairs; i++) {
        if (i % 2 == 0) {
            as[i] = timed(a, calls_a);
            bs[i] = timed(b, calls_b);
        } else {
            bs[i] = timed(b, calls_b);
            as[i] = timed(a, calls_a);
        }
        ratios[i] = bs[i] / as[i];
    }
    qsort(ratios, pairs, sizeof *ratios, ascending);
    qsort(as, pairs, sizeof *as, ascending);
    qsort(bs, pairs, sizeof *bs, ascending);
    return (struct figure){ratios[pairs / 2], ratios[pairs / 4], ratios[pairs - 1 - pairs / 4], as[pairs / 2],
                           bs[pairs / 2]};
}

static double rate;
static char setting[16];

void show_heads(void)
{
    rate = tick_rate();
    printf("%-7s %3s  %-48s %6s  %6s %6s  %8s %8s  %7s %7s  %s\n", "cipher", "key", "what", "ratio", "lower", "upper",
           "MB/s", "other's", "ticks/B", "other's", "asked");
}

void show_setting(uint32_t cipher, size_t key_len)
{
    snprintf(setting, sizeof setting, "FOX%-4u %3zu", (unsigned)cipher, key_len);
}

static const char *verdict_of(double ratio, double asked, enum where where)
{
#ifndef __x86_64__
    if (where == ON_X86_64)
        return "(asked on x86-64)";
#endif
    (void)where;
    return ratio >= asked ? "met" : "MISSED";
}

void show(const struct side *a, const struct side *b, double asked, enum where where)
{
    char what[64], verdict[32] = "-";
    struct figure f = compared(a, b);
    snprintf(what, sizeof what, "%s / %s", a->name, b->name);
    if (where != NOWHERE)
        snprintf(verdict, sizeof verdict, "%.2g %s", asked, verdict_of(f.ratio, asked, where));
    printf("%s  %-48s %6.2f  %6.2f %6.2f  %8.2f %8.2f  %7.1f %7.1f  %s\n", setting, what, f.ratio, f.low, f.high,
           1e3 / f.a, 1e3 / f.b, f.a * rate, f.b * rate, verdict);
}
