/* The pending calls of bench/queue_main.txt by hand in C: a slab of calls, each in the chain of its target and transaction and in that
   of its target, hashed ends of chains, and hashed slots by number. The same random calls, so the found calls are as many.

       cc -O2 -o queue_peer queue_peer.c && ./queue_peer        COUNT TRANSACTIONS and nanoseconds of best, remove, add: medians */
#include <stdint.h>
#include <stdio.h>
#include <stdlib.h>
#include <string.h>
#include <time.h>

enum { GROUPS = 50, BATCHES = 500, CALLS = 16 };

struct args { size_t length, room; int64_t *cells; };
struct links { int32_t before, after; };
struct node { uint32_t number, target, trans; struct args args; struct links of_transaction, of_target; };
struct ends { uint64_t key; int32_t first, last; };

static struct node *nodes;
static int32_t *unused;
static int32_t unused_count;

/* Tables with open addressing; a key is never 0. */
struct table { struct ends *slots; uint64_t mask; };

static uint64_t hash(uint64_t key) { key *= 0x9E3779B97F4A7C15u; return key ^ (key >> 32); }

static struct ends *look(struct table *t, uint64_t key)
{
    uint64_t at = hash(key) & t->mask;
    while (t->slots[at].key != 0 && t->slots[at].key != key)
        at = (at + 1) & t->mask;
    return &t->slots[at];
}

static void forget(struct table *t, struct ends *found)
{
    uint64_t hole = found - t->slots, at = hole;
    for (;;) {
        at = (at + 1) & t->mask;
        if (t->slots[at].key == 0)
            break;
        uint64_t home = hash(t->slots[at].key) & t->mask;
        if (((at - home) & t->mask) >= ((at - hole) & t->mask)) {
            t->slots[hole] = t->slots[at];
            hole = at;
        }
    }
    t->slots[hole].key = 0;
}

static void make(struct table *t, uint64_t count)
{
    uint64_t size = 16;
    while (size < 2 * count)
        size *= 2;
    t->slots = calloc(size, sizeof *t->slots);
    t->mask = size - 1;
}

static struct table slots, transactions, targets;

static uint64_t lane(uint32_t target, uint32_t trans) { return ((uint64_t)target << 32 | trans) + 1; }

static struct links *links_of(int32_t at, int of_target) { return of_target ? &nodes[at].of_target : &nodes[at].of_transaction; }

static void link_last(struct table *t, uint64_t key, int32_t at, int of_target)
{
    struct ends *e = look(t, key);
    struct links *l = links_of(at, of_target);
    l->after = -1;
    if (e->key == 0) {
        *e = (struct ends){ key, at, at };
        l->before = -1;
        return;
    }
    l->before = e->last;
    links_of(e->last, of_target)->after = at;
    e->last = at;
}

static void unlink_at(struct table *t, uint64_t key, int32_t at, int of_target)
{
    struct links l = *links_of(at, of_target);
    if (l.before >= 0)
        links_of(l.before, of_target)->after = l.after;
    if (l.after >= 0)
        links_of(l.after, of_target)->before = l.before;
    if (l.before < 0 || l.after < 0) {
        struct ends *e = look(t, key);
        if (l.before < 0 && l.after < 0) {
            forget(t, e);
            return;
        }
        if (l.before < 0)
            e->first = l.after;
        if (l.after < 0)
            e->last = l.before;
    }
}

static void ask(uint32_t number, uint32_t target, uint32_t trans, struct args args)
{
    int32_t at = unused[--unused_count];
    nodes[at] = (struct node){ number, target, trans, args, { -1, -1 }, { -1, -1 } };
    *look(&slots, number + 1) = (struct ends){ number + 1, at, at };
    link_last(&transactions, lane(target, trans), at, 0);
    link_last(&targets, lane(target, 0), at, 1);
}

static struct args take(uint32_t number)
{
    struct ends *e = look(&slots, number + 1);
    int32_t at = e->first;
    forget(&slots, e);
    struct node *n = &nodes[at];
    unlink_at(&transactions, lane(n->target, n->trans), at, 0);
    unlink_at(&targets, lane(n->target, 0), at, 1);
    unused[unused_count++] = at;
    return n->args;
}

/* How well a call fits, as a program says it, behind a pointer as `fit` of a program is. */
static int fit(const struct args *args, int64_t *rank)
{
    if (args->length == 0)
        return 0;
    *rank = args->cells[0];
    return 1;
}

static int (*volatile fits)(const struct args *, int64_t *) = fit;

static int best(uint32_t target, uint32_t trans)
{
    struct ends *e = look(&transactions, lane(target, trans));
    int found = 0;
    int64_t least = 0, rank;
    if (e->key == 0)
        return 0;
    for (int32_t at = e->first; at >= 0; at = nodes[at].of_transaction.after)
        if (fits(&nodes[at].args, &rank) && (!found || rank < least)) {
            found = 1;
            least = rank;
        }
    return found;
}

static uint64_t state;

static uint32_t draw(uint64_t *s) { *s ^= *s << 13; *s ^= *s >> 7; *s ^= *s << 17; return *s >> 32; }

struct plain { uint32_t number, target, trans; int64_t rank; };

static uint32_t next_number;

static struct plain made(uint32_t chains)
{
    struct plain p;
    p.number = next_number++;
    p.target = draw(&state) % 4096;
    p.trans = chains == 1 ? 0 : draw(&state) % 16;
    p.rank = draw(&state) % 1024;
    return p;
}

static int64_t now(void)
{
    struct timespec t;
    clock_gettime(CLOCK_MONOTONIC, &t);
    return t.tv_sec * 1000000000ll + t.tv_nsec;
}

static int by_size(const void *a, const void *b) { double x = *(const double *)a, y = *(const double *)b; return (x > y) - (x < y); }

static void measure(uint32_t count, uint32_t chains)
{
    state = 22;
    next_number = 0;
    uint32_t room = count + 64, found = 0;
    nodes = calloc(room, sizeof *nodes);
    unused = calloc(room, sizeof *unused);
    for (unused_count = 0; (uint32_t)unused_count < room; unused_count++)
        unused[unused_count] = room - 1 - unused_count;
    make(&slots, room);
    make(&transactions, room);
    make(&targets, room);
    struct plain *ring = calloc(count, sizeof *ring);
    for (uint32_t i = 0; i < count; i++) {
        ring[i] = made(chains);
        struct args a = { 1, 4, malloc(4 * sizeof(int64_t)) };
        a.cells[0] = ring[i].rank;
        ask(ring[i].number, ring[i].target, ring[i].trans, a);
    }
    uint64_t places = 7;
    static double took[3][GROUPS];
    struct args held[CALLS];
    for (int g = 0; g < GROUPS; g++) {
        int64_t sums[3] = { 0, 0, 0 };
        for (int b = 0; b < BATCHES; b++) {
            uint32_t from = draw(&places) & (count - 1);
            int64_t start = now();
            for (uint32_t i = 0; i < CALLS; i++)
                found += best(ring[from ^ i].target, ring[from ^ i].trans);
            int64_t one = now();
            for (uint32_t i = 0; i < CALLS; i++)
                held[i] = take(ring[from ^ i].number);
            int64_t two = now();
            for (uint32_t i = 0; i < CALLS; i++)
                ring[from ^ i] = made(chains);
            int64_t again = now();
            for (uint32_t i = 0; i < CALLS; i++)
                ask(ring[from ^ i].number, ring[from ^ i].target, ring[from ^ i].trans, held[CALLS - 1 - i]);
            sums[0] += one - start;
            sums[1] += two - one;
            sums[2] += now() - again;
        }
        for (int k = 0; k < 3; k++)
            took[k][g] = sums[k] / (double)(BATCHES * CALLS);
    }
    printf("%-10u %3u", count, chains);
    for (int k = 0; k < 3; k++) {
        qsort(took[k], GROUPS, sizeof **took, by_size);
        printf(" %8.1f", took[k][GROUPS / 2]);
    }
    printf("   found %u\n", found);
}

int main(void)
{
    measure(16, 16);
    measure(256, 16);
    measure(65536, 16);
    measure(65536, 1);
}
