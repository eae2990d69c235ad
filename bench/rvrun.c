// A plain RV64 runner in C over the listing of an image: the yardstick for the runner of this repository.
// It runs the harts in turns, in rounds from hart 0 up, and ends where the end word isn't 0, a budget is
// spent, or a whole round went by without an instruction.
//   rvrun LISTING [TURNS]      prints the log to stdout and "end E details retired..." to stderr
// Compiled with -DCOUNTS it prints how often each instruction was carried out in place of the log, a line each.
#include <inttypes.h>
#include <stdint.h>
#include <stdio.h>
#include <stdlib.h>
#include <string.h>
#include <time.h>

enum op { ADD, SUB, SLL, SLT, SLTU, XOR, SRL, SRA, OR, AND, MUL, MULH, MULHSU, MULHU, DIV, DIVU, REM, REMU,
  ADDW, SUBW, ADDI, SLTI, SLTIU, XORI, ORI, ANDI, SLLI, SRLI, SRAI, ADDIW, LD, LBU, JALR, SD, BEQ, BNE, BLT,
  BGE, BLTU, BGEU, LUI, AUIPC, JAL, AMOADD, AMOSWAP, AMOAND, AMOCAS, ECALL, BAD };
struct ins { uint8_t op, rd, rs1, rs2; int64_t imm; };

static int64_t sx(uint64_t v, int bits) { return (int64_t)(v << (64 - bits)) >> (64 - bits); }

static struct ins decode(uint32_t w) {
  struct ins i = {BAD, (w >> 7) & 31, (w >> 15) & 31, (w >> 20) & 31, 0};
  uint32_t f3 = (w >> 12) & 7, f7 = w >> 25;
  switch (w & 127) {
  case 0x33:
    if (f7 == 0) { uint8_t t[8] = {ADD, SLL, SLT, SLTU, XOR, SRL, OR, AND}; i.op = t[f3]; }
    else if (f7 == 32) i.op = f3 == 0 ? SUB : f3 == 5 ? SRA : BAD;
    else if (f7 == 1) { uint8_t t[8] = {MUL, MULH, MULHSU, MULHU, DIV, DIVU, REM, REMU}; i.op = t[f3]; }
    break;
  case 0x3b: i.op = f3 ? BAD : f7 == 0 ? ADDW : f7 == 32 ? SUBW : BAD; break;
  case 0x13:
    i.imm = sx(w >> 20, 12);
    switch (f3) {
    case 0: i.op = ADDI; break; case 2: i.op = SLTI; break; case 3: i.op = SLTIU; break;
    case 4: i.op = XORI; break; case 6: i.op = ORI; break; case 7: i.op = ANDI; break;
    case 1: i.op = (w >> 26) == 0 ? SLLI : BAD; i.imm = (w >> 20) & 63; break;
    case 5: i.op = (w >> 26) == 0 ? SRLI : (w >> 26) == 16 ? SRAI : BAD; i.imm = (w >> 20) & 63; break;
    }
    break;
  case 0x1b: i.op = f3 ? BAD : ADDIW; i.imm = sx(w >> 20, 12); break;
  case 0x03: i.op = f3 == 3 ? LD : f3 == 4 ? LBU : BAD; i.imm = sx(w >> 20, 12); break;
  case 0x67: i.op = f3 ? BAD : JALR; i.imm = sx(w >> 20, 12); break;
  case 0x23: i.op = f3 == 3 ? SD : BAD; i.imm = sx((w >> 25 << 5) | ((w >> 7) & 31), 12); break;
  case 0x63: { uint8_t t[8] = {BEQ, BNE, BAD, BAD, BLT, BGE, BLTU, BGEU}; i.op = t[f3];
    i.imm = sx(((w >> 31) << 12) | (((w >> 7) & 1) << 11) | (((w >> 25) & 63) << 5) | (((w >> 8) & 15) << 1), 13); break; }
  case 0x37: i.op = LUI; i.imm = (int64_t)(int32_t)(w & 0xfffff000u); break;
  case 0x17: i.op = AUIPC; i.imm = (int64_t)(int32_t)(w & 0xfffff000u); break;
  case 0x6f: i.op = JAL;
    i.imm = sx(((w >> 31) << 20) | (((w >> 12) & 255) << 12) | (((w >> 20) & 1) << 11) | (((w >> 21) & 1023) << 1), 21); break;
  case 0x2f: if (f3 == 3) switch (w >> 27) { case 0: i.op = AMOADD; break; case 1: i.op = AMOSWAP; break; case 12: i.op = AMOAND; break; case 5: i.op = AMOCAS; break; } break;
  case 0x73: i.op = w == 0x73 ? ECALL : BAD; break;
  }
  return i;
}

struct hart { uint64_t x[32], pc, retired; };
static struct ins *code; static uint64_t ncode, *words, nwords, budget, domains;
#ifdef COUNTS
static uint64_t *counts;
#endif
enum { WENT, WAITS, STOPPED, FAULT };

static int step(struct hart *h) {
  if ((h->pc & 3) || h->pc / 4 >= ncode) return FAULT;
  struct ins i = code[h->pc / 4];
  uint64_t *x = h->x, a = x[i.rs1], b = x[i.rs2], r = 0, next = h->pc + 4, at; int wr = 1;
#define ADDR(e) at = (e); if ((at & 7) || at / 8 >= nwords) return FAULT; at /= 8
  switch (i.op) {
  case ADD: r = a + b; break; case SUB: r = a - b; break; case SLL: r = a << (b & 63); break;
  case SLT: r = (int64_t)a < (int64_t)b; break; case SLTU: r = a < b; break; case XOR: r = a ^ b; break;
  case SRL: r = a >> (b & 63); break; case SRA: r = (int64_t)a >> (b & 63); break; case OR: r = a | b; break;
  case AND: r = a & b; break; case MUL: r = a * b; break;
  case MULH: r = (uint64_t)(((__int128)(int64_t)a * (int64_t)b) >> 64); break;
  case MULHSU: r = (uint64_t)(((__int128)(int64_t)a * (unsigned __int128)b) >> 64); break;
  case MULHU: r = (uint64_t)(((unsigned __int128)a * b) >> 64); break;
  case DIV: r = b == 0 ? ~0ull : ((int64_t)a == INT64_MIN && (int64_t)b == -1) ? a : (uint64_t)((int64_t)a / (int64_t)b); break;
  case DIVU: r = b == 0 ? ~0ull : a / b; break;
  case REM: r = b == 0 ? a : ((int64_t)a == INT64_MIN && (int64_t)b == -1) ? 0 : (uint64_t)((int64_t)a % (int64_t)b); break;
  case REMU: r = b == 0 ? a : a % b; break;
  case ADDW: r = (uint64_t)(int64_t)(int32_t)(a + b); break; case SUBW: r = (uint64_t)(int64_t)(int32_t)(a - b); break;
  case ADDI: r = a + i.imm; break; case SLTI: r = (int64_t)a < i.imm; break; case SLTIU: r = a < (uint64_t)i.imm; break;
  case XORI: r = a ^ i.imm; break; case ORI: r = a | i.imm; break; case ANDI: r = a & i.imm; break;
  case SLLI: r = a << i.imm; break; case SRLI: r = a >> i.imm; break; case SRAI: r = (int64_t)a >> i.imm; break;
  case ADDIW: r = (uint64_t)(int64_t)(int32_t)(a + i.imm); break;
  case LD: ADDR(a + i.imm); r = words[at]; break;
  case LBU: at = a + i.imm; if (at / 8 >= nwords) return FAULT; r = (words[at / 8] >> (8 * (at & 7))) & 255; break;
  case JALR: r = next; next = (a + i.imm) & ~1ull; break;
  case SD: ADDR(a + i.imm); words[at] = b; wr = 0; break;
  case BEQ: wr = 0; if (a == b) next = h->pc + i.imm; break; case BNE: wr = 0; if (a != b) next = h->pc + i.imm; break;
  case BLT: wr = 0; if ((int64_t)a < (int64_t)b) next = h->pc + i.imm; break;
  case BGE: wr = 0; if ((int64_t)a >= (int64_t)b) next = h->pc + i.imm; break;
  case BLTU: wr = 0; if (a < b) next = h->pc + i.imm; break; case BGEU: wr = 0; if (a >= b) next = h->pc + i.imm; break;
  case LUI: r = i.imm; break; case AUIPC: r = h->pc + i.imm; break; case JAL: r = next; next = h->pc + i.imm; break;
  case AMOADD: ADDR(a); r = words[at]; words[at] = r + b; break;
  case AMOSWAP: ADDR(a); r = words[at]; words[at] = b; break;
  case AMOAND: ADDR(a); r = words[at]; words[at] = r & b; break;
  case AMOCAS: ADDR(a); r = words[at]; if (r == x[i.rd]) words[at] = b; break;
  case ECALL:
    if (x[17] == 0) return STOPPED;
    if (x[17] != 1) return FAULT;
    ADDR(x[10]); if (words[at] == x[11]) return WAITS; x[10] = words[at]; wr = 0; break;
  default: return FAULT;
  }
#ifdef COUNTS
  counts[h->pc / 4]++;
#endif
  if (wr && i.rd) x[i.rd] = r;
  h->pc = next; h->retired++;
  return WENT;
}

int main(int argc, char **argv) {
  uint64_t heap, stack, out, turns = argc > 2 ? strtoull(argv[2], 0, 10) : 1000, cap = 0;
  FILE *f = argc > 1 ? fopen(argv[1], "r") : 0; char line[256];
  if (!f || !fgets(line, sizeof line, f) || sscanf(line, "image %" SCNu64 " %" SCNu64 " %" SCNu64 " %" SCNu64 " %" SCNu64 " %" SCNu64,
      &heap, &stack, &out, &budget, &domains, &nwords) != 6) { fprintf(stderr, "rvrun: no listing\n"); return 64; }
  words = calloc(nwords, 8);
  while (fgets(line, sizeof line, f)) {
    uint64_t at, value; uint32_t pc, word;
    if (sscanf(line, "word %" SCNu64 " %" SCNx64, &at, &value) == 2) { if (at >= nwords) return 65; words[at] = value; }
    else if (sscanf(line, "%" SCNx32 " %" SCNx32, &pc, &word) == 2) {
      if (ncode == cap) code = realloc(code, (cap = cap ? cap * 2 : 4096) * sizeof *code);
      if (pc != 4 * ncode) { fprintf(stderr, "rvrun: pc out of order\n"); return 65; }
      code[ncode++] = decode(word);
    } else { fprintf(stderr, "rvrun: bad line %s", line); return 65; }
  }
#ifdef COUNTS
  counts = calloc(ncode, sizeof *counts);
#endif
  struct hart *h = calloc(domains, sizeof *h);
  for (uint64_t i = 0; i < domains; i++) h[i].x[10] = i;
  struct timespec t0, t1; clock_gettime(CLOCK_MONOTONIC, &t0);
  const char *end = 0;
  while (!end) {
    int any = 0;
    for (uint64_t i = 0; i < domains && !end; i++)
      for (uint64_t n = 0; n < turns; n++) {
        int r = step(&h[i]);
        if (r == FAULT) { end = "fault"; break; }
        if (r != WENT) break;
        any = 1;
        if (words[1]) { end = "end"; break; }
        if (h[i].retired == budget) { end = "budget"; break; }
      }
    if (!end && !any) end = "deadlock";
  }
  clock_gettime(CLOCK_MONOTONIC, &t1);
#ifdef COUNTS
  for (uint64_t i = 0; i < ncode; i++) printf("%" PRIu64 "\n", counts[i]);
  words[6] = 0;
#endif
  for (uint64_t i = 0; i < words[6]; i++) putchar((int)((words[(1152 + i) / 8] >> (8 * (i & 7))) & 255));
  fprintf(stderr, "%s %" PRIu64 " details %" PRIu64 " %" PRIu64 " %" PRIu64 " heap %" PRIu64 " retired", end, words[1], words[2], words[3], words[4], words[8]);
  uint64_t total = 0;
  for (uint64_t i = 0; i < domains; i++) { fprintf(stderr, " %" PRIu64, h[i].retired); total += h[i].retired; }
  double s = (t1.tv_sec - t0.tv_sec) + (t1.tv_nsec - t0.tv_nsec) / 1e9;
  fprintf(stderr, " seconds %.6f mips %.1f\n", s, total / s / 1e6);
  return 0;
}
