/* A switch interpreter of the instructions of a few loops, to compare the machine's loop with: as fast as it is simply written in C. Operands
   and variables are not tested where verified code needs no test; an offset, an index and a sum are, as in the machine. */
#include <stdint.h>
#include <stdio.h>
#include <stdlib.h>
#include <string.h>

enum { CONST, FETCH, PUT, DROP, INDEX, ADD, SUB, MUL, REM, LT, JUMP_ZERO, JUMP, TICK, CALL, RET, FORMAT, END };
enum { CHAR, INT, LONG };
enum { PAUSE, DONE, OVERFLOW_FAULT, DIVIDE_BY_ZERO, INDEX_FAULT, DEPTH, MISSING };
enum { MOST_STEPS = 131072, MOST_CALLS = 1000, TICKS = 1000 };

typedef struct { uint8_t op, type; uint16_t address; uint32_t cells; int64_t number; } Instr;
typedef struct { uint16_t entry; uint32_t args, cells, value; } Part;
typedef struct { uint32_t back; uint64_t first; } Frame;
typedef struct {
  const Instr *code;
  const Part *parts;
  int64_t *stack, *cells;
  Frame *frames;
  uint64_t top, end, room, calls, first;
  uint32_t at;
} Machine;

static inline int fits(int type, int64_t z) {
  return type == LONG || (type == INT ? z == (int32_t)z : z >= 0 && z <= 255);
}

static int __attribute__((noinline)) slice(Machine *m) {
  uint32_t ticks = TICKS, count = MOST_STEPS, at = m->at;
  const Instr *code = m->code;
  int64_t *top = m->stack + m->top, *cells = m->cells + m->first, z;
  uint64_t size = m->end - m->first, first = m->first;
  int stop;
  for (;;) {
    if (count == 0) { stop = DEPTH; break; }
    count--;
    const Instr *i = &code[at++];
    switch (i->op) {
    case CONST: *top++ = i->number; break;
    case FETCH: {
      uint64_t n = i->cells, o = top[-1];
      if (o > size || n > size - o) { stop = INDEX_FAULT; goto out; }
      if (n == 1) top[-1] = cells[o];
      else { memcpy(top - 1, cells + o, n * 8); top += n - 1; }
      break;
    }
    case PUT: {
      uint64_t n = i->cells, o = top[-1 - (int64_t)n];
      if (o > size || n > size - o) { stop = INDEX_FAULT; goto out; }
      if (n == 1) { cells[o] = top[-1]; top[-2] = top[-1]; }
      else { memcpy(cells + o, top - n, n * 8); memmove(top - n - 1, top - n, n * 8); }
      top--;
      break;
    }
    case DROP: top -= i->cells; break;
    case INDEX:
      z = *--top;
      if (z < 0 || z >= (int64_t)i->cells || __builtin_add_overflow(top[-1], z * i->number, &z)) { stop = INDEX_FAULT; goto out; }
      top[-1] = z; break;
    case ADD:
      if (__builtin_add_overflow(top[-2], top[-1], &z) || !fits(i->type, z)) { stop = OVERFLOW_FAULT; goto out; }
      top--; top[-1] = z; break;
    case SUB:
      if (__builtin_sub_overflow(top[-2], top[-1], &z) || !fits(i->type, z)) { stop = OVERFLOW_FAULT; goto out; }
      top--; top[-1] = z; break;
    case MUL:
      if (__builtin_mul_overflow(top[-2], top[-1], &z) || !fits(i->type, z)) { stop = OVERFLOW_FAULT; goto out; }
      top--; top[-1] = z; break;
    case REM:
      if (top[-1] == 0) { stop = DIVIDE_BY_ZERO; goto out; }
      z = top[-1] == -1 ? 0 : top[-2] % top[-1];
      if (!fits(i->type, z)) { stop = OVERFLOW_FAULT; goto out; }
      top--; top[-1] = z; break;
    case LT: top--; top[-1] = top[-1] < top[0]; break;
    case JUMP_ZERO: if (*--top == 0) at = i->address; break;
    case JUMP: at = i->address; break;
    case TICK:
      if (ticks == 0) { at--; stop = PAUSE; goto out; }
      ticks--; count = MOST_STEPS; break;
    case CALL: {
      const Part *p = &m->parts[i->cells];
      if (m->calls >= MOST_CALLS) { stop = DEPTH; goto out; }
      if (m->end + p->cells > m->room) abort();
      m->frames[m->calls++] = (Frame){at, first};
      top -= p->args;
      memcpy(m->cells + m->end, top, p->args * 8);
      for (uint64_t k = p->args; k < p->cells; k++) m->cells[m->end + k] = 0;
      first = m->end; m->end += p->cells; cells = m->cells + first; size = p->cells; at = p->entry;
      break;
    }
    case RET: {
      if (m->calls == 0) { stop = MISSING; goto out; }
      m->end = first;
      const Frame *f = &m->frames[--m->calls];
      at = f->back; first = f->first; cells = m->cells + first; size = m->end - first;
      break;
    }
    case FORMAT: printf("%ld\n", top[-1]); break;
    case END: stop = DONE; goto out;
    default: stop = MISSING; goto out;
    }
  }
out:
  m->at = at; m->top = top - m->stack; m->first = first;
  return stop;
}

#define I(op, type, address, cells, number) {op, type, address, cells, number}
#define NUMBER(v) I(CONST, 0, 0, 0, v)
#define ONE(op) I(op, 0, 0, 1, 0)
#define OF(op, type) I(op, type, 0, 0, 0)
#define TO(op, address) I(op, 0, address, 0, 0)
#define AT(variable) NUMBER(variable), ONE(FETCH)
#define SUM AT(0), NUMBER(3), OF(MUL, LONG), AT(1), OF(ADD, LONG), NUMBER(1000003), OF(REM, LONG)
#define TEST(variable, turns, end) AT(variable), NUMBER(turns), OF(LT, 0), TO(JUMP_ZERO, end), OF(TICK, 0)
#define STEP(variable, back) NUMBER(variable), AT(variable), NUMBER(1), OF(ADD, INT), ONE(PUT), ONE(DROP), TO(JUMP, back)
#define PRINT(variable) AT(variable), OF(FORMAT, 0), ONE(DROP), OF(END, 0)
#define ELEMENT NUMBER(2), AT(0), I(INDEX, 0, 0, 1000, 1)

/* The turns are 0 here, and set before the run. */
static Instr plain[] = {TEST(1, 0, 26), NUMBER(0), SUM, ONE(PUT), ONE(DROP), STEP(1, 0), PRINT(0)};
static Instr calling[] = {
  TEST(1, 0, 22), NUMBER(0), AT(0), AT(1), I(CALL, 0, 0, 1, 0), ONE(PUT), ONE(DROP), STEP(1, 0), PRINT(0),
  OF(TICK, 0), SUM, OF(TICK, 0), ONE(RET)};
static Instr array[] = {
  TEST(1, 0, 48), NUMBER(0), NUMBER(0), ONE(PUT), ONE(DROP), TEST(0, 1000, 40), ELEMENT, ELEMENT, ONE(FETCH), AT(0), OF(ADD, INT),
  NUMBER(1000003), OF(REM, INT), ONE(PUT), ONE(DROP), STEP(0, 10), STEP(1, 0), PRINT(1001)};
static Instr fib[] = {
  NUMBER(0), I(CALL, 0, 0, 1, 0), OF(FORMAT, 0), ONE(DROP), OF(END, 0),
  OF(TICK, 0), AT(0), NUMBER(2), OF(LT, 0), TO(JUMP_ZERO, 15), AT(0), OF(TICK, 0), ONE(RET),
  AT(0), NUMBER(1), OF(SUB, INT), I(CALL, 0, 0, 1, 0), AT(0), NUMBER(2), OF(SUB, INT), I(CALL, 0, 0, 1, 0), OF(ADD, INT), OF(TICK, 0), ONE(RET)};

/* For each of them the place of the turns, the variable cells of main, and the function. */
static const struct { const char *name; Instr *code; int turns; uint32_t cells; Part function; } loops[] = {
  {"plain", plain, 2, 2, {0, 0, 0, 0}},
  {"calling", calling, 2, 2, {27, 2, 2, 1}},
  {"array", array, 2, 1002, {0, 0, 0, 0}},
  {"fib", fib, 0, 0, {5, 1, 1, 1}}};

int main(int count, char **words) {
  if (count < 3) return 1;
  for (size_t k = 0; k < sizeof loops / sizeof *loops; k++) {
    if (strcmp(words[1], loops[k].name) != 0) continue;
    loops[k].code[loops[k].turns].number = atol(words[2]);
    Part parts[] = {{0, 0, 0, 0}, loops[k].function};
    Machine m = {0};
    m.code = loops[k].code;
    m.parts = parts;
    m.stack = calloc(8, 4000);
    m.cells = calloc(8, 4000);
    m.frames = calloc(sizeof(Frame), MOST_CALLS);
    m.room = 4000;
    m.end = loops[k].cells;
    int stop;
    while ((stop = slice(&m)) == PAUSE) {}
    return stop != DONE;
  }
  return 1;
}
