// The engine as a C programmer would write it by hand, with every test of the words that can't be carried out, to be
// timed beside ours: engine WORD, where WORD is fib, sum, old-fib or old-sum.
#include <stdint.h>
#include <stdio.h>
#include <string.h>

enum { GOING, SPENT, ENDED, FAILED };

typedef struct { uint32_t base, next; } Return;

typedef struct {
    uint32_t index, base, len, nesting, count;
    uint64_t used, allowance;
    int status, fault;
    int32_t shown;
    uint32_t channel;
} Run;

typedef struct { int32_t grams; int fault; } Reading;

#ifdef OLD
static inline int plus(int32_t a, int32_t b, int32_t *r) { *r = (int32_t)((uint32_t)a + (uint32_t)b); return 0; }
static inline int minus(int32_t a, int32_t b, int32_t *r) { *r = (int32_t)((uint32_t)a - (uint32_t)b); return 0; }
static inline int times(int32_t a, int32_t b, int32_t *r) { *r = (int32_t)((uint32_t)a * (uint32_t)b); return 0; }
static inline int over(int32_t a, int32_t b, int32_t *r) {
    if (b == 0) return 32;
    *r = b == -1 ? (int32_t)(0u - (uint32_t)a) : a / b;
    return 0;
}
static inline int32_t number(int32_t a) { return a; }
#else
static inline int32_t number(int32_t a) { return a == INT32_MIN ? 0 : a; }
static inline int plus(int32_t a, int32_t b, int32_t *r) {
    int32_t x;
    if (__builtin_add_overflow(number(a), number(b), &x) || x == INT32_MIN) return 31;
    *r = x;
    return 0;
}
static inline int minus(int32_t a, int32_t b, int32_t *r) {
    int32_t x;
    if (__builtin_sub_overflow(number(a), number(b), &x) || x == INT32_MIN) return 31;
    *r = x;
    return 0;
}
static inline int times(int32_t a, int32_t b, int32_t *r) {
    int32_t x;
    if (__builtin_mul_overflow(number(a), number(b), &x) || x == INT32_MIN) return 31;
    *r = x;
    return 0;
}
static inline int over(int32_t a, int32_t b, int32_t *r) {
    if (number(b) == 0) return 32;
    *r = number(a) / number(b);
    return 0;
}
#endif

// One step; 0 when the run goes on, 1 when it ends, else its fault.
static inline int step(const uint32_t *image, const Reading *held, Run *run, int32_t *stack, Return *returns) {
    if (run->index >= run->count) return 52;
    uint32_t word = image[run->index], operand = word & 0x0FFFFFFF;
    int32_t *frame = stack + run->base;
    uint32_t len = run->len;
    int fault = 0;
    int32_t value;
    switch (word >> 28) {
    case 0:
        if (len >= 32) return 52;
        frame[len] = (int32_t)operand;
        run->len = len + 1;
        run->index++;
        return 0;
    case 1:
        if (operand >= len || len >= 32) return 52;
        frame[len] = frame[operand];
        run->len = len + 1;
        run->index++;
        return 0;
    case 2:
        if (operand > 3 || len < 2) return 52;
        switch (operand) {
        case 0: fault = plus(frame[len - 2], frame[len - 1], &value); break;
        case 1: fault = minus(frame[len - 2], frame[len - 1], &value); break;
        case 2: fault = times(frame[len - 2], frame[len - 1], &value); break;
        default: fault = over(frame[len - 2], frame[len - 1], &value); break;
        }
        if (fault) return fault;
        frame[len - 2] = value;
        run->len = len - 1;
        run->index++;
        return 0;
    case 3:
        if (operand != 0 || len < 2) return 52;
        frame[len - 2] = frame[len - 1];
        run->len = len - 1;
        run->index++;
        return 0;
    case 4:
        if (operand >= run->count || len < 1) return 52;
        run->len = len - 1;
        run->index = number(frame[len - 1]) > 0 ? run->index + 1 : operand;
        return 0;
    case 5:
        if (operand >= run->count) return 52;
        run->index = operand;
        return 0;
    case 6: {
        uint32_t arity = operand >> 16, target = operand & 0xFFFF;
        if (arity < 1 || arity > 8 || target >= run->count || arity > len) return 52;
        if (run->nesting >= 128) return 51;
        returns[run->nesting] = (Return){ run->base, run->index + 1 };
        run->nesting++;
        run->base += len - arity;
        run->len = arity;
        run->index = target;
        return 0;
    }
    case 7: {
        if (operand != 0 || len < 1) return 52;
        if (run->nesting == 0) {
            frame[0] = frame[len - 1];
            run->len = 1;
            run->shown = number(frame[0]);
            return 1;
        }
        uint32_t nesting = run->nesting - 1;
        Return saved = returns[nesting];
        if (saved.base > run->base || run->base - saved.base > 31 || saved.base > 31 * nesting) return 52;
        frame[0] = frame[len - 1];
        run->len = run->base - saved.base + 1;
        run->base = saved.base;
        run->index = saved.next;
        run->nesting = nesting;
        return 0;
    }
    case 8:
        if (operand < 1 || operand > 64 || len >= 32) return 52;
        if (held[operand - 1].fault) {
            run->channel = operand;
            return held[operand - 1].fault;
        }
        frame[len] = held[operand - 1].grams;
        run->len = len + 1;
        run->index++;
        return 0;
    default:
        return 52;
    }
}

__attribute__((noinline)) static void advance(const uint32_t *image, const Reading *held, Run *run, int32_t *stack, Return *returns, uint64_t grant) {
    Run r = *run;
    for (; grant > 0 && r.status == GOING; grant--) {
        int answer = step(image, held, &r, stack, returns);
        if (answer == 0) {
            r.used++;
            if (r.used >= r.allowance) r.status = SPENT;
        } else if (answer == 1) {
            r.used++;
            r.status = ENDED;
        } else {
            if (answer != 52) r.used++;
            r.fault = answer;
            r.status = FAILED;
        }
    }
    *run = r;
}

static const uint32_t FIB[] = { 0x90000015, 0x0000001E, 0x60010005, 0x70000000, 0xA0000001, 0x10000000, 0x00000001,
    0x20000001, 0x40000013, 0x10000000, 0x00000001, 0x20000001, 0x60010005, 0x10000000, 0x00000002, 0x20000001,
    0x60010005, 0x20000000, 0x50000014, 0x00000001, 0x70000000 };
static const uint32_t SUM[] = { 0x9000000C, 0x00000000, 0x10000000, 0x00000001, 0x20000000, 0x30000000, 0x00989680,
    0x10000000, 0x20000001, 0x4000000B, 0x50000002, 0x70000000 };

int main(int argc, char **argv) {
    static int32_t stack[4128];
    static Return returns[128];
    static Reading held[64];
    if (argc != 2) return 1;
    const uint32_t *image = strstr(argv[1], "fib") ? FIB : SUM;
    for (int i = 0; i < 64; i++) held[i].fault = 41;
    Run run = { .index = 1, .count = image[0] & 0x0FFFFFFF, .allowance = 4000000000u };
    advance(image, held, &run, stack, returns, 4000000000u);
    if (run.status == ENDED) printf("%d g in %llu steps\n", run.shown, (unsigned long long)run.used);
    else printf("no value\n");
    return 0;
}
