// A threaded RV64 runner in C (pre-decoded, one indirect jump an instruction): how fast an interpreter of these
// listings can be. Rounds of turns, as run_serial takes them.
//   rvrun LISTING [TURNS]      prints the log to stdout and "end E details retired..." to stderr
#include <inttypes.h>
#include <stdint.h>
#include <stdio.h>
#include <stdlib.h>
#include <string.h>
#include <time.h>

enum op { ADD, SUB, SLL, SLT, SLTU, XOR, SRL, SRA, OR, AND, MUL, MULH, MULHSU, MULHU, DIV, DIVU, REM, REMU,
  ADDW, SUBW, ADDI, SLTI, SLTIU, XORI, ORI, ANDI, SLLI, SRLI, SRAI, ADDIW, LD, LBU, JALR, SD, BEQ, BNE, BLT,
  BGE, BLTU, BGEU, LUI, AUIPC, JAL, AMOADD, AMOSWAP, AMOAND, AMOCAS, ECALL, BAD };
struct ins { uint8_t op, rd, rs1, rs2; int64_t imm; void *go; };

static int64_t sx(uint64_t v, int bits) { return (int64_t)(v << (64 - bits)) >> (64 - bits); }

static struct ins decode(uint32_t w) {
  struct ins i = {BAD, (w >> 7) & 31, (w >> 15) & 31, (w >> 20) & 31, 0};
  uint32_t f3 = (w >> 12) & 7, f7 = w >> 25;
  switch (w & 127) {
  case 0x33:
    if (f7 == 0) { uint8_t t[8] = {ADD, SLL, SLT, SLTU, XOR, SRL, OR, AND}; i.op = t[f3]; }
    else if (f7 == 32) i.op = f3 == 0 ? SUB : f3 == 5 ? SRA : BAD;
    else if (f7 == 1) { uint8_t t[8] = {MUL, MULH, MULHSU, MULHU, DIV, DIVU, REM, REMU}; i.op = t[f3]; }
    break;
  case 0x3b: i.op = f3 ? BAD : f7 == 0 ? ADDW : f7 == 32 ? SUBW : BAD; break;
  case 0x13:
    i.imm = sx(w >> 20, 12);
    switch (f3) {
    case 0: i.op = ADDI; break; case 2: i.op = SLTI; break; case 3: i.op = SLTIU; break;
    case 4: i.op = XORI; break; case 6: i.op = ORI; break; case 7: i.op = ANDI; break;
    case 1: i.op = (w >> 26) == 0 ? SLLI : BAD; i.imm = (w >> 20) & 63; break;
    case 5: i.op = (w >> 26) == 0 ? SRLI : (w >> 26) == 16 ? SRAI : BAD; i.imm = (w >> 20) & 63; break;
    }
    break;
  case 0x1b: i.op = f3 ? BAD : ADDIW; i.imm = sx(w >> 20, 12); break;
  case 0x03: i.op = f3 == 3 ? LD : f3 == 4 ? LBU : BAD; i.imm = sx(w >> 20, 12); break;
  case 0x67: i.op = f3 ? BAD : JALR; i.imm = sx(w >> 20, 12); break;
  case 0x23: i.op = f3 == 3 ? SD : BAD; i.imm = sx((w >> 25 << 5) | ((w >> 7) & 31), 12); break;
  case 0x63: { uint8_t t[8] = {BEQ, BNE, BAD, BAD, BLT, BGE, BLTU, BGEU}; i.op = t[f3];
    i.imm = sx(((w >> 31) << 12) | (((w >> 7) & 1) << 11) | (((w >> 25) & 63) << 5) | (((w >> 8) & 15) << 1), 13); break; }
  case 0x37: i.op = LUI; i.imm = (int64_t)(int32_t)(w & 0xfffff000u); break;
  case 0x17: i.op = AUIPC; i.imm = (int64_t)(int32_t)(w & 0xfffff000u); break;
  case 0x6f: i.op = JAL;
    i.imm = sx(((w >> 31) << 20) | (((w >> 12) & 255) << 12) | (((w >> 20) & 1) << 11) | (((w >> 21) & 1023) << 1), 21); break;
  case 0x2f: if (f3 == 3) switch (w >> 27) { case 0: i.op = AMOADD; break; case 1: i.op = AMOSWAP; break; case 12: i.op = AMOAND; break; case 5: i.op = AMOCAS; break; } break;
  case 0x73: i.op = w == 0x73 ? ECALL : BAD; break;
  }
  return i;
}

struct hart { uint64_t x[32], pc, retired; };
static struct ins *code; static uint64_t ncode, *words, nwords, budget, domains;
enum { WENT, WAITS, STOPPED, FAULT };

static int run_turn(struct hart *h, uint64_t most) {
  static void *labels[] = {&&L_ADD, &&L_SUB, &&L_SLL, &&L_SLT, &&L_SLTU, &&L_XOR, &&L_SRL, &&L_SRA, &&L_OR, &&L_AND, &&L_MUL, &&L_MULH, &&L_MULHSU, &&L_MULHU, &&L_DIV, &&L_DIVU, &&L_REM, &&L_REMU, &&L_ADDW, &&L_SUBW, &&L_ADDI, &&L_SLTI, &&L_SLTIU, &&L_XORI, &&L_ORI, &&L_ANDI, &&L_SLLI, &&L_SRLI, &&L_SRAI, &&L_ADDIW, &&L_LD, &&L_LBU, &&L_JALR, &&L_SD, &&L_BEQ, &&L_BNE, &&L_BLT, &&L_BGE, &&L_BLTU, &&L_BGEU, &&L_LUI, &&L_AUIPC, &&L_JAL, &&L_AMOADD, &&L_AMOSWAP, &&L_AMOAND, &&L_AMOCAS, &&L_ECALL, &&L_BAD};
  if (!h) { for (uint64_t k = 0; k < ncode; k++) code[k].go = labels[code[k].op]; return 0; }
  uint64_t *x = h->x, left = most; struct ins *i = code + h->pc / 4; int stopped = 0, failed = 0;
#define GO do { if (left == 0) goto out; goto *i->go; } while (0)
#define NEXT do { i++; left--; GO; } while (0)
#define TO do { i += i->imm / 4; left--; GO; } while (0)
#define JUMP(t) do { i = code + (t) / 4; left--; GO; } while (0)
#define FAIL do { failed = 1; goto out; } while (0)
#undef ADDR
#define ADDR(v) uint64_t at = (v); if ((at & 7) || (at >>= 3) >= nwords) FAIL
  GO;
L_ADD: { x[i->rd] = x[i->rs1] + x[i->rs2]; x[0] = 0; NEXT; }
L_SUB: { x[i->rd] = x[i->rs1] - x[i->rs2]; x[0] = 0; NEXT; }
L_SLL: { x[i->rd] = x[i->rs1] << (x[i->rs2] & 63); x[0] = 0; NEXT; }
L_SLT: { x[i->rd] = (int64_t)x[i->rs1] < (int64_t)x[i->rs2]; x[0] = 0; NEXT; }
L_SLTU: { x[i->rd] = x[i->rs1] < x[i->rs2]; x[0] = 0; NEXT; }
L_XOR: { x[i->rd] = x[i->rs1] ^ x[i->rs2]; x[0] = 0; NEXT; }
L_SRL: { x[i->rd] = x[i->rs1] >> (x[i->rs2] & 63); x[0] = 0; NEXT; }
L_SRA: { x[i->rd] = (uint64_t)((int64_t)x[i->rs1] >> (x[i->rs2] & 63)); x[0] = 0; NEXT; }
L_OR: { x[i->rd] = x[i->rs1] | x[i->rs2]; x[0] = 0; NEXT; }
L_AND: { x[i->rd] = x[i->rs1] & x[i->rs2]; x[0] = 0; NEXT; }
L_MUL: { x[i->rd] = x[i->rs1] * x[i->rs2]; x[0] = 0; NEXT; }
L_MULH: { x[i->rd] = (uint64_t)(((__int128)(int64_t)x[i->rs1] * (int64_t)x[i->rs2]) >> 64); x[0] = 0; NEXT; }
L_MULHSU: { x[i->rd] = (uint64_t)(((__int128)(int64_t)x[i->rs1] * (unsigned __int128)x[i->rs2]) >> 64); x[0] = 0; NEXT; }
L_MULHU: { x[i->rd] = (uint64_t)(((unsigned __int128)x[i->rs1] * x[i->rs2]) >> 64); x[0] = 0; NEXT; }
L_DIV: { x[i->rd] = x[i->rs2] == 0 ? ~0ull : ((int64_t)x[i->rs1] == INT64_MIN && (int64_t)x[i->rs2] == -1) ? x[i->rs1] : (uint64_t)((int64_t)x[i->rs1] / (int64_t)x[i->rs2]); x[0] = 0; NEXT; }
L_DIVU: { x[i->rd] = x[i->rs2] == 0 ? ~0ull : x[i->rs1] / x[i->rs2]; x[0] = 0; NEXT; }
L_REM: { x[i->rd] = x[i->rs2] == 0 ? x[i->rs1] : ((int64_t)x[i->rs1] == INT64_MIN && (int64_t)x[i->rs2] == -1) ? 0 : (uint64_t)((int64_t)x[i->rs1] % (int64_t)x[i->rs2]); x[0] = 0; NEXT; }
L_REMU: { x[i->rd] = x[i->rs2] == 0 ? x[i->rs1] : x[i->rs1] % x[i->rs2]; x[0] = 0; NEXT; }
L_ADDW: { x[i->rd] = (uint64_t)(int64_t)(int32_t)(x[i->rs1] + x[i->rs2]); x[0] = 0; NEXT; }
L_SUBW: { x[i->rd] = (uint64_t)(int64_t)(int32_t)(x[i->rs1] - x[i->rs2]); x[0] = 0; NEXT; }
L_ADDI: { x[i->rd] = x[i->rs1] + i->imm; x[0] = 0; NEXT; }
L_SLTI: { x[i->rd] = (int64_t)x[i->rs1] < i->imm; x[0] = 0; NEXT; }
L_SLTIU: { x[i->rd] = x[i->rs1] < (uint64_t)i->imm; x[0] = 0; NEXT; }
L_XORI: { x[i->rd] = x[i->rs1] ^ i->imm; x[0] = 0; NEXT; }
L_ORI: { x[i->rd] = x[i->rs1] | i->imm; x[0] = 0; NEXT; }
L_ANDI: { x[i->rd] = x[i->rs1] & i->imm; x[0] = 0; NEXT; }
L_SLLI: { x[i->rd] = x[i->rs1] << i->imm; x[0] = 0; NEXT; }
L_SRLI: { x[i->rd] = x[i->rs1] >> i->imm; x[0] = 0; NEXT; }
L_SRAI: { x[i->rd] = (uint64_t)((int64_t)x[i->rs1] >> i->imm); x[0] = 0; NEXT; }
L_ADDIW: { x[i->rd] = (uint64_t)(int64_t)(int32_t)(x[i->rs1] + i->imm); x[0] = 0; NEXT; }
L_LD: { ADDR(x[i->rs1] + i->imm); x[i->rd] = words[at]; x[0] = 0; NEXT; }
L_LBU: { uint64_t at = x[i->rs1] + i->imm; if (at / 8 >= nwords) FAIL; x[i->rd] = (words[at / 8] >> (8 * (at & 7))) & 255; x[0] = 0; NEXT; }
L_JALR: { uint64_t to = (x[i->rs1] + i->imm) & ~1ull; x[i->rd] = 4 * (i - code + 1); x[0] = 0; JUMP(to); }
L_SD: { ADDR(x[i->rs1] + i->imm); words[at] = x[i->rs2]; if (at == 1) { i++; left--; goto out; } NEXT; }
L_BEQ: { if (x[i->rs1] == x[i->rs2]) TO; NEXT; }
L_BNE: { if (x[i->rs1] != x[i->rs2]) TO; NEXT; }
L_BLT: { if ((int64_t)x[i->rs1] < (int64_t)x[i->rs2]) TO; NEXT; }
L_BGE: { if ((int64_t)x[i->rs1] >= (int64_t)x[i->rs2]) TO; NEXT; }
L_BLTU: { if (x[i->rs1] < x[i->rs2]) TO; NEXT; }
L_BGEU: { if (x[i->rs1] >= x[i->rs2]) TO; NEXT; }
L_LUI: { x[i->rd] = i->imm; x[0] = 0; NEXT; }
L_AUIPC: { x[i->rd] = 4 * (uint64_t)(i - code) + i->imm; x[0] = 0; NEXT; }
L_JAL: { x[i->rd] = 4 * (i - code + 1); x[0] = 0; TO; }
L_AMOADD: { ADDR(x[i->rs1]); uint64_t r = words[at]; words[at] = r + x[i->rs2]; x[i->rd] = r; x[0] = 0; NEXT; }
L_AMOSWAP: { ADDR(x[i->rs1]); uint64_t r = words[at]; words[at] = x[i->rs2]; x[i->rd] = r; x[0] = 0; NEXT; }
L_AMOAND: { ADDR(x[i->rs1]); uint64_t r = words[at]; words[at] = r & x[i->rs2]; x[i->rd] = r; x[0] = 0; NEXT; }
L_AMOCAS: { ADDR(x[i->rs1]); uint64_t r = words[at]; if (r == x[i->rd]) words[at] = x[i->rs2]; x[i->rd] = r; x[0] = 0; NEXT; }
L_ECALL: { if (x[17] != 1) { stopped = 1; goto out; } ADDR(x[10]); if (words[at] == x[11]) { stopped = 1; goto out; } x[10] = words[at]; NEXT; }
L_BAD: FAIL;
out:
  h->retired += most - left; h->pc = 4 * (i - code);
  return failed ? FAULT : stopped ? STOPPED : WENT;
}

int main(int argc, char **argv) {
  uint64_t heap, stack, out, turns = argc > 2 ? strtoull(argv[2], 0, 10) : 1000, cap = 0;
  FILE *f = argc > 1 ? fopen(argv[1], "r") : 0; char line[256];
  if (!f || !fgets(line, sizeof line, f) || sscanf(line, "image %" SCNu64 " %" SCNu64 " %" SCNu64 " %" SCNu64 " %" SCNu64 " %" SCNu64,
      &heap, &stack, &out, &budget, &domains, &nwords) != 6) { fprintf(stderr, "rvrun: no listing\n"); return 64; }
  words = calloc(nwords, 8);
  while (fgets(line, sizeof line, f)) {
    uint64_t at, value; uint32_t pc, word;
    if (sscanf(line, "word %" SCNu64 " %" SCNx64, &at, &value) == 2) { if (at >= nwords) return 65; words[at] = value; }
    else if (sscanf(line, "%" SCNx32 " %" SCNx32, &pc, &word) == 2) {
      if (ncode == cap) code = realloc(code, (cap = cap ? cap * 2 : 4096) * sizeof *code);
      if (pc != 4 * ncode) { fprintf(stderr, "rvrun: pc out of order\n"); return 65; }
      code[ncode++] = decode(word);
    } else { fprintf(stderr, "rvrun: bad line %s", line); return 65; }
  }
  struct hart *h = calloc(domains, sizeof *h);
  for (uint64_t i = 0; i < domains; i++) h[i].x[10] = i;
  struct timespec t0, t1; clock_gettime(CLOCK_MONOTONIC, &t0);
  const char *end = 0;
  run_turn(0, 0);
  while (!end) {
    int any = 0;
    for (uint64_t i = 0; i < domains && !end; i++)
      {
        uint64_t before = h[i].retired, most = budget - before < turns ? budget - before : turns;
        int r = run_turn(&h[i], most);
        if (h[i].retired != before) any = 1;
        if (r == FAULT) { end = "fault"; break; }
        if (words[1]) { end = "end"; break; }
        if (h[i].retired == budget) { end = "budget"; break; }
      }
    if (!end && !any) end = "deadlock";
  }
  clock_gettime(CLOCK_MONOTONIC, &t1);
  for (uint64_t i = 0; i < words[6]; i++) putchar((int)((words[(1152 + i) / 8] >> (8 * (i & 7))) & 255));
  fprintf(stderr, "%s %" PRIu64 " details %" PRIu64 " %" PRIu64 " %" PRIu64 " heap %" PRIu64 " retired", end, words[1], words[2], words[3], words[4], words[8]);
  uint64_t total = 0;
  for (uint64_t i = 0; i < domains; i++) { fprintf(stderr, " %" PRIu64, h[i].retired); total += h[i].retired; }
  double s = (t1.tv_sec - t0.tv_sec) + (t1.tv_nsec - t0.tv_nsec) / 1e9;
  fprintf(stderr, " seconds %.6f mips %.1f\n", s, total / s / 1e6);
  return 0;
}
