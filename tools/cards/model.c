/* A model of the card rules, written from docs/RULES.md alone, and a maker of random and damaged card streams.
   model make SEED CARDS   writes a stream of about that many cards
   model answer            reads a stream and writes what pegs must write
   Figures come from the static library (two-step). */
#include <stdint.h>
#include <stdio.h>
#include <stdlib.h>
#include <string.h>
#include "vastulm.h"

enum { PEGS = 128, MOST = 65535 };
typedef enum { EMPTY, WAITING, DONE } state;
typedef struct { state is; unsigned code; uint32_t input, figure; } hook;
static hook hooks[PEGS];

static uint64_t seed;
static uint32_t draw(uint32_t below) {
  seed ^= seed << 13; seed ^= seed >> 7; seed ^= seed << 17;
  return (uint32_t)((seed >> 32) % below);
}

static uint32_t some_input(void) {
  static const uint32_t known[] = {0, 0x80000000u, 0x3f800000u, 0x7f800000u, 0xff800000u, 0x7fc00000u, 0xffc00001u, 0x42b17218u, 0x42b17217u, 0xc2cff1b4u, 0xc2cff1b5u, 0x43000000u, 0xc3150000u, 0xc3160000u, 0xb25e5bd9u, 1, 0x7f7fffffu, 0xff7fffffu};
  switch (draw(4)) {
    case 0: return known[draw(sizeof known / sizeof *known)];
    case 1: return draw(0xffffffffu);
    default: return (draw(2) << 31) | (0x3c000000u + draw(0x07000000u));
  }
}

static void put(uint64_t card) {
  for (int shift = 40; shift >= 0; shift -= 8) putchar((int)(card >> shift & 255));
}

static int make(uint64_t start, long cards) {
  seed = start * 0x9e3779b97f4a7c15u + 1;
  for (int i = 0; i < 20; i++) draw(2);
  for (long i = 0; i < cards; i++) {
    static const unsigned ops[] = {0, 0, 0, 1, 1, 2, 2, 3, 3, 3};
    uint64_t peg = draw(16) ? draw(PEGS + 2) : draw(4096), op = ops[draw(10)], code = draw(4), value = 0;
    if (op == 0) value = some_input();
    else if (op == 1) { value = draw(8) ? draw(40) : draw(0xffffffffu); if (draw(16)) code = 0; }
    else { if (draw(16)) code = 0; if (!draw(16)) value = draw(3); }
    uint64_t card = op << 46 | code << 44 | peg << 32 | value;
    if (!draw(200)) card ^= (uint64_t)1 << draw(48);
    if (start % 8 == 0 && !draw(20000)) putchar((int)draw(256));
    put(card);
  }
  for (uint32_t extra = draw(6); extra > 0; extra--) putchar((int)draw(256));
  return 0;
}

static uint32_t figure_of(unsigned code, uint32_t x) {
  switch (code) {
    case 0: return vastulm_exp_two_step(x);
    case 1: return vastulm_exp2_two_step(x);
    case 2: return vastulm_exp10_two_step(x);
    default: return vastulm_expm1_two_step(x);
  }
}

typedef struct { unsigned refusal; uint32_t result; } said;
static said no(unsigned line) { return (said){line, 0}; }
static said yes(uint32_t v) { return (said){0, v}; }

static said play(const unsigned char *c, size_t n, uint32_t *worked) {
  if (n != 6) return no(3);
  unsigned op = c[0] >> 6, code = c[0] >> 4 & 3, peg = (c[0] & 15u) << 8 | c[1];
  uint32_t value = (uint32_t)c[2] << 24 | (uint32_t)c[3] << 16 | (uint32_t)c[4] << 8 | c[5];
  if (op != 0 && code != 0) return no(4);
  if (op >= 2 && value != 0) return no(4);
  if (op == 1) {
    if ((uint64_t)peg + value > PEGS) return no(5);
    uint32_t count = 0;
    for (uint32_t i = peg; i < peg + value; i++)
      if (hooks[i].is == WAITING) { hooks[i].figure = figure_of(hooks[i].code, hooks[i].input); hooks[i].is = DONE; count++; }
    *worked += count;
    return yes(count);
  }
  if (op == 0 && (value >> 23 & 255) == 255) return no(7);
  if (peg >= PEGS) return no(8);
  hook *h = &hooks[peg];
  if (op == 0) {
    if (h->is != EMPTY) return no(9);
    *h = (hook){WAITING, code, value, 0};
    return yes(0);
  }
  if (h->is == EMPTY) return no(10);
  if (op == 2) return h->is == DONE ? yes(h->figure) : no(11);
  *h = (hook){EMPTY, 0, 0, 0};
  return yes(0);
}

static int answer(void) {
  unsigned char c[6];
  uint32_t taken = 0, refused = 0, worked = 0;
  size_t n;
  while ((n = fread(c, 1, 6, stdin)) > 0) {
    said s;
    if (taken == MOST) s = no(2);
    else { s = play(c, n, &worked); taken++; refused += s.refusal != 0; }
    putchar((int)s.refusal);
    for (int shift = 24; shift >= 0; shift -= 8) putchar((int)(s.result >> shift & 255));
    if (n < 6) break;
  }
  putchar((int)(taken >> 8)); putchar((int)(taken & 255));
  putchar((int)(refused >> 8)); putchar((int)(refused & 255));
  for (int shift = 24; shift >= 0; shift -= 8) putchar((int)(worked >> shift & 255));
  return 0;
}

int main(int argc, char **argv) {
  if (argc == 4 && !strcmp(argv[1], "make")) return make(strtoull(argv[2], 0, 10), strtol(argv[3], 0, 10));
  if (argc == 2 && !strcmp(argv[1], "answer")) return answer();
  fputs("usage: model make SEED CARDS | model answer\n", stderr);
  return 2;
}
