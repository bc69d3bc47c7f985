/* A plain wheel of the same nine levels, after the kernel's, for the comparison: timers are the
 * caller's and are linked by pointers in stacks, one for each bucket, with a bitmap for each level.
 * It has no lock, keeps no arming order and finds no timer by its number.
 * Writes `C-wheel SIZE COLUMN NANOSECONDS COUNT` for each measurement. */
#include <stdint.h>
#include <stdio.h>
#include <stdlib.h>
#include <time.h>

enum { LEVELS = 9, BUCKETS = 64, ROUNDS = 9 };

struct timer {
    struct timer *next, **at;
    uint64_t expires;
    void (*run)(struct timer *);
    uint32_t bucket;
};

struct wheel {
    uint64_t clock, first;
    int look, any;
    uint64_t marks[LEVELS];
    struct timer *buckets[LEVELS * BUCKETS];
};

static uint64_t ran;

static void run(struct timer *timer) { (void)timer; ran++; }

static void link_to(struct timer **head, struct timer *timer) {
    timer->next = *head;
    if (timer->next) timer->next->at = &timer->next;
    timer->at = head;
    *head = timer;
}

static void unlink_from(struct timer *timer) {
    *timer->at = timer->next;
    if (timer->next) timer->next->at = timer->at;
    timer->at = 0;
}

static unsigned level_of(uint64_t delay) {
    unsigned level = 0;
    while (level < LEVELS - 1 && delay >= (uint64_t)63 << 3 * level) level++;
    return level;
}

static void arm(struct wheel *w, struct timer *timer, uint64_t expires) {
    uint64_t end;
    unsigned level = 0, place;
    timer->expires = expires;
    if (expires < w->clock) {
        end = w->clock;
        place = end & 63;
    } else {
        uint64_t delay = expires - w->clock;
        if (delay >= (uint64_t)63 << 24) expires = w->clock + ((uint64_t)62 << 24), delay = expires - w->clock;
        level = level_of(delay);
        place = ((expires >> 3 * level) + 1) & 63;
        end = ((expires >> 3 * level) + 1) << 3 * level;
    }
    timer->bucket = level * BUCKETS + place;
    link_to(&w->buckets[timer->bucket], timer);
    w->marks[level] |= (uint64_t)1 << place;
    if (!w->any || end < w->first) w->first = end;
    w->any = 1;
}

static void cancel(struct wheel *w, struct timer *timer) {
    if (!timer->at) return;
    unlink_from(timer);
    if (!w->buckets[timer->bucket]) {
        w->marks[timer->bucket / BUCKETS] &= ~((uint64_t)1 << timer->bucket % BUCKETS);
        w->look = 1;
    }
}

static void look(struct wheel *w) {
    w->look = w->any = 0;
    for (unsigned level = 0; level < LEVELS; level++) {
        uint64_t word = w->marks[level];
        if (!word) continue;
        uint64_t start = (w->clock + ((uint64_t)1 << 3 * level) - 1) >> 3 * level;
        unsigned from = start & 63;
        uint64_t turned = from ? word >> from | word << (64 - from) : word;
        uint64_t end = (start + __builtin_ctzll(turned)) << 3 * level;
        if (!w->any || end < w->first) w->first = end;
        w->any = 1;
    }
}

static void expire(struct wheel *w, uint64_t now) {
    for (;;) {
        if (w->look) look(w);
        if (!w->any || w->first > now) break;
        struct timer *due[LEVELS];
        unsigned count = 0;
        uint64_t clock = w->first;
        for (unsigned level = 0; level < LEVELS; level++) {
            unsigned place = clock & 63, bucket = level * BUCKETS + place;
            if (w->marks[level] >> place & 1) {
                w->marks[level] &= ~((uint64_t)1 << place);
                due[count] = w->buckets[bucket];
                w->buckets[bucket] = 0;
                due[count]->at = &due[count];
                count++;
            }
            if (clock & 7) break;
            clock >>= 3;
        }
        w->clock = w->first + 1;
        w->look = 1;
        while (count--) {
            while (due[count]) {
                struct timer *timer = due[count];
                unlink_from(timer);
                timer->run(timer);
            }
        }
    }
}

static void forward(struct wheel *w, uint64_t now) {
    if (w->look) look(w);
    if (now > w->clock) w->clock = w->any && w->first <= now ? w->first : now;
}

static uint64_t nanos(void) {
    struct timespec t;
    clock_gettime(CLOCK_MONOTONIC, &t);
    return (uint64_t)t.tv_sec * 1000000000u + (uint64_t)t.tv_nsec;
}

static uint64_t random_of(uint64_t *x) {
    *x ^= *x << 13, *x ^= *x >> 7, *x ^= *x << 17;
    return *x;
}

static struct wheel *again;
static uint32_t *again_delays;
static size_t again_count;
static uint64_t again_now;

static void run_again(struct timer *timer) {
    arm(again, timer, again_now + again_delays[ran % again_count]);
    ran++;
}

static void tell(size_t n, const char *column, uint64_t from, uint64_t count) {
    printf("C-wheel %zu %s %llu %llu\n", n, column, (unsigned long long)(nanos() - from), (unsigned long long)count);
}

static struct wheel *fresh(struct wheel *w) {
    *w = (struct wheel){ .clock = 1000 };
    return w;
}

static void measure(size_t n) {
    const uint64_t start = 1000;
    uint64_t x = 88172645463325252u;
    uint32_t *delays = malloc(n * sizeof *delays), *order = malloc(n * sizeof *order);
    struct timer *timers = calloc(n, sizeof *timers);
    struct wheel *w = malloc(sizeof *w);
    for (size_t i = 0; i < n; i++) delays[i] = 20 + (uint32_t)(random_of(&x) % 481), order[i] = (uint32_t)i;
    for (size_t i = n - 1; i > 0; i--) {
        size_t j = random_of(&x) % (i + 1);
        uint32_t swap = order[i];
        order[i] = order[j], order[j] = swap;
    }
    for (int round = 0; round < ROUNDS; round++) {
        fresh(w);
        for (size_t i = 0; i < n; i++) timers[i].run = run;
        for (size_t i = 0; i < n; i++) arm(w, &timers[i], start + delays[i]);
        for (size_t i = 0; i < n; i++) cancel(w, &timers[i]);
        uint64_t from = nanos();
        for (size_t i = 0; i < n; i++) arm(w, &timers[i], start + delays[i]);
        tell(n, "arm", from, n);
        from = nanos();
        for (size_t i = 0; i < n; i++) cancel(w, &timers[order[i]]);
        tell(n, "cancel", from, n);
        fresh(w);
        for (size_t i = 0; i < n; i++) arm(w, &timers[i], start + delays[i]);
        ran = 0;
        from = nanos();
        for (uint64_t tick = 0; tick < 600; tick++) expire(w, start + tick);
        tell(n, "expiry", from, ran);

        fresh(w);
        for (size_t i = 0; i < n; i++) timers[i].run = run_again;
        for (size_t i = 0; i < n; i++) arm(w, &timers[i], start + delays[i]);
        again = w, again_delays = delays, again_count = n, ran = 0;
        for (uint64_t tick = 1; tick < 4501; tick++) {
            if (tick == 501) ran = 0, from = nanos();
            again_now = start + tick;
            forward(w, again_now);
            expire(w, again_now);
        }
        tell(n, "steady", from, ran);

        fresh(w);
        for (size_t i = 0; i < n; i++) timers[i].run = run, timers[i].at = 0;
        for (size_t i = 0; i < n; i++) arm(w, &timers[order[i]], start + 1000000 + delays[order[i]]);
        from = nanos();
        for (uint64_t turn = 0; turn < 200000; turn++) {
            uint32_t id = order[turn % n];
            uint64_t now = start + (turn >> 6 & 0xffff);
            if (!(turn & 63)) forward(w, now), expire(w, now);
            cancel(w, &timers[id]);
            arm(w, &timers[id], now + 1000000 + delays[turn % n]);
        }
        tell(n, "timeout", from, 200000);
    }
    free(w), free(timers), free(order), free(delays);
}

int main(void) {
    static const size_t sizes[] = { 64, 1024, 4096, 100000 };
    for (size_t i = 0; i < sizeof sizes / sizeof *sizes; i++) measure(sizes[i]);
    return 0;
}
