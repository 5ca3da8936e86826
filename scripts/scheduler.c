/* Lets one thread go on at a time, and chooses at each step on a word which: by a number, SEED, so that a schedule can be
 * played again. It stands where the sanitizer's runtime would: the compiler tells each step by a call, and the linker leads
 * what starts, joins and delays threads here.
 *
 * A thread has the turn or waits for it. At a step the one that has it draws a number, and one time in so many (2, 8, 32
 * or 128, by the seed) any thread that can go on gets the turn; else it stays. A thread that waits for the end of another
 * can't go on before that.
 *
 * STALLED="THREAD STEP" keeps this thread from its turn from this step of it on, as long as another one can go on, and until
 * the others have made FAR steps: one of them may wait for it, and look again and again.
 * TORN=1 has each step that reads and writes done in two, with a choice between them: what must be seen to go wrong.
 * TOLD names a descriptor to which, at the end, a line goes: how many threads there were, how many steps, how many turns
 * changed hands, and whether the stalled one went on only when no other could.
 */
#define _GNU_SOURCE
#include <linux/futex.h>
#include <pthread.h>
#include <semaphore.h>
#include <stdint.h>
#include <stdio.h>
#include <stdlib.h>
#include <string.h>
#include <sys/syscall.h>
#include <time.h>
#include <unistd.h>

enum { MOST_THREADS = 256, NOBODY = -1, FIRST = 0 };
static const uint64_t MOST_STEPS = 500000000, FAR = 1000000;

struct thread {
    pthread_t name;
    sem_t turn;
    void *(*run)(void *);
    void *given;
    void *answer;
    int has_ended;
    int waits_for;
};

static struct thread threads[MOST_THREADS];
static int count = 1;
static __thread int self = FIRST;
static uint64_t state, odds, steps, changes;
static int stalled = NOBODY, is_torn, told = NOBODY, was_last;
static uint64_t stalled_at, steps_of_stalled, held_since;

static uint64_t draw(void) {
    uint64_t it = (state += 0x9e3779b97f4a7c15u);
    it = (it ^ (it >> 30)) * 0xbf58476d1ce4e5b9u;
    it = (it ^ (it >> 27)) * 0x94d049bb133111ebu;
    return it ^ (it >> 31);
}

static void tell(void) {
    if (told == NOBODY) return;
    dprintf(told, "%d %lu %lu %d\n", count, (unsigned long)steps, (unsigned long)changes, was_last);
    told = NOBODY;
}

static void give_up(const char *why) {
    dprintf(2, "scheduler: %s\n", why);
    tell();
    _exit(3);
}

__attribute__((constructor)) static void begin(void) {
    const char *seed = getenv("SEED"), *stall = getenv("STALLED"), *to = getenv("TOLD");
    state = seed ? strtoull(seed, NULL, 10) : 0;
    odds = UINT64_C(2) << (2 * (draw() % 4));
    is_torn = getenv("TORN") != NULL;
    if (to) told = atoi(to);
    if (stall) {
        char *behind;
        stalled = (int)strtol(stall, &behind, 10);
        stalled_at = strtoull(behind, NULL, 10);
    }
    threads[FIRST].name = pthread_self();
    threads[FIRST].waits_for = NOBODY;
    sem_init(&threads[FIRST].turn, 0, 0);
}

__attribute__((destructor)) static void end(void) { tell(); }

static int can_go_on(int it) {
    int other = threads[it].waits_for;
    return !threads[it].has_ended && (other == NOBODY || threads[other].has_ended);
}

static int is_held_back(int it) {
    if (it != stalled || steps_of_stalled < stalled_at) return 0;
    if (!held_since) held_since = steps + 1;
    return steps + 1 - held_since < FAR;
}

/* Any thread that can go on, by the next number; of those that aren't held back, if there is one. */
static int any_but(int but) {
    int found[MOST_THREADS], n = 0, held = NOBODY;
    for (int it = 0; it < count; it++) {
        if (it == but || !can_go_on(it)) continue;
        if (is_held_back(it)) held = it;
        else found[n++] = it;
    }
    if (n) return found[draw() % (uint64_t)n];
    was_last |= held != NOBODY;
    return held;
}

static void pass_turn(int to) {
    if (to == self) return;
    changes++;
    sem_post(&threads[to].turn);
    while (sem_wait(&threads[self].turn) != 0) {}
}

/* Before a step on a word: whose turn it is next. */
static void choose(void) {
    if (++steps > MOST_STEPS) give_up("so many steps, and no end");
    if (self == stalled) steps_of_stalled++;
    if (count == 1) return;
    if (!is_held_back(self) && draw() % odds) return;
    int next = any_but(is_held_back(self) ? self : NOBODY);
    pass_turn(next == NOBODY ? self : next);
}

/* Where a thread can't go on, or would rather not: another one's turn, if there is one that can go on. */
static void step_aside(void) {
    int next = any_but(self);
    if (next == NOBODY && !can_go_on(self)) give_up("no thread can go on");
    pass_turn(next == NOBODY ? self : next);
}

static void *started(void *given) {
    self = (int)(intptr_t)given;
    struct thread *it = &threads[self];
    while (sem_wait(&it->turn) != 0) {}
    it->answer = it->run(it->given);
    it->has_ended = 1;
    int next = any_but(self);
    if (next == NOBODY) give_up("no thread can go on");
    changes++;
    sem_post(&threads[next].turn);
    return it->answer;
}

int __real_pthread_create(pthread_t *, const pthread_attr_t *, void *(*)(void *), void *);
int __real_pthread_join(pthread_t, void **);
long __real_syscall(long, ...);
void __real__exit(int) __attribute__((noreturn));

int __wrap_pthread_create(pthread_t *name, const pthread_attr_t *how, void *(*run)(void *), void *given) {
    if (count == MOST_THREADS) give_up("too many threads");
    struct thread *it = &threads[count];
    it->run = run;
    it->given = given;
    it->waits_for = NOBODY;
    sem_init(&it->turn, 0, 0);
    int wrong = __real_pthread_create(&it->name, how, started, (void *)(intptr_t)count);
    if (wrong) return wrong;
    *name = it->name;
    count++;
    choose();
    return 0;
}

int __wrap_pthread_join(pthread_t name, void **answer) {
    /* (the last of this name: a thread that was joined leaves its own to a later one) */
    int it = count - 1;
    while (it > FIRST && !pthread_equal(threads[it].name, name)) it--;
    if (it == FIRST) give_up("a join of no thread");
    threads[self].waits_for = it;
    if (!threads[it].has_ended) step_aside();
    threads[self].waits_for = NOBODY;
    return __real_pthread_join(name, answer);
}

int __wrap_sched_yield(void) {
    choose();
    step_aside();
    return 0;
}

int __wrap_nanosleep(const struct timespec *time, struct timespec *left) {
    (void)time;
    if (left) memset(left, 0, sizeof *left);
    return __wrap_sched_yield();
}

int __wrap_clock_nanosleep(clockid_t clock, int flags, const struct timespec *time, struct timespec *left) {
    (void)clock, (void)flags;
    return __wrap_nanosleep(time, left);
}

/* A thread that would sleep on a word steps aside, and looks again when it has its turn: nobody has to be woken. */
long __wrap_syscall(long number, long a, long b, long c, long d, long e, long f) {
    if (number != SYS_futex) return __real_syscall(number, a, b, c, d, e, f);
    if ((b & FUTEX_CMD_MASK) == FUTEX_WAIT || (b & FUTEX_CMD_MASK) == FUTEX_WAIT_BITSET) __wrap_sched_yield();
    return 0;
}

void __wrap__exit(int status) {
    tell();
    __real__exit(status);
}

#define STEPS(N, T)                                                                                                          \
    T __tsan_atomic##N##_load(const volatile T *at, int order) {                                                             \
        (void)order;                                                                                                         \
        choose();                                                                                                            \
        return __atomic_load_n(at, __ATOMIC_SEQ_CST);                                                                        \
    }                                                                                                                        \
    void __tsan_atomic##N##_store(volatile T *at, T to, int order) {                                                         \
        (void)order;                                                                                                         \
        choose();                                                                                                            \
        __atomic_store_n(at, to, __ATOMIC_SEQ_CST);                                                                          \
    }                                                                                                                        \
    T __tsan_atomic##N##_compare_exchange_val(volatile T *at, T from, T to, int order, int other) {                          \
        (void)order, (void)other;                                                                                            \
        choose();                                                                                                            \
        T found = __atomic_load_n(at, __ATOMIC_SEQ_CST);                                                                     \
        if (is_torn) choose();                                                                                               \
        if (found == from) __atomic_store_n(at, to, __ATOMIC_SEQ_CST);                                                       \
        return found;                                                                                                        \
    }                                                                                                                        \
    int __tsan_atomic##N##_compare_exchange_strong(volatile T *at, T *from, T to, int order, int other) {                    \
        T found = __tsan_atomic##N##_compare_exchange_val(at, *from, to, order, other);                                      \
        int is_same = found == *from;                                                                                        \
        *from = found;                                                                                                       \
        return is_same;                                                                                                      \
    }                                                                                                                        \
    int __tsan_atomic##N##_compare_exchange_weak(volatile T *at, T *from, T to, int order, int other) {                      \
        return __tsan_atomic##N##_compare_exchange_strong(at, from, to, order, other);                                       \
    }                                                                                                                        \
    READ_AND_WRITE(N, T, exchange, with)                                                                                     \
    READ_AND_WRITE(N, T, fetch_add, (T)(found + with))                                                                       \
    READ_AND_WRITE(N, T, fetch_sub, (T)(found - with))                                                                       \
    READ_AND_WRITE(N, T, fetch_and, (T)(found & with))                                                                       \
    READ_AND_WRITE(N, T, fetch_or, (T)(found | with))                                                                        \
    READ_AND_WRITE(N, T, fetch_xor, (T)(found ^ with))

#define READ_AND_WRITE(N, T, NAME, LEFT)                                                                                     \
    T __tsan_atomic##N##_##NAME(volatile T *at, T with, int order) {                                                         \
        (void)order;                                                                                                         \
        choose();                                                                                                            \
        T found = __atomic_load_n(at, __ATOMIC_SEQ_CST);                                                                     \
        if (is_torn) choose();                                                                                               \
        __atomic_store_n(at, LEFT, __ATOMIC_SEQ_CST);                                                                        \
        return found;                                                                                                        \
    }

STEPS(8, uint8_t)
STEPS(16, uint16_t)
STEPS(32, uint32_t)
STEPS(64, uint64_t)

void __tsan_init(void) {}
void __tsan_atomic_thread_fence(int order) { (void)order, choose(); }
void __tsan_atomic_signal_fence(int order) { (void)order; }
