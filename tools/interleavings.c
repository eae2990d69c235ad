// Runs an image in a random interleaving of its harts and watches each instruction, for tools/interleavings.py. The instructions
// and the check of ownership are those of sim.c, of the executable design of the compiler; its folder is given by -I.
#include "sim.c"

enum mode { EACH, BURSTS, SLOW, BLOCKS, STRETCHES, STALLS };
enum reason { ENDED, BUDGET, DEADLOCK, STEPS_DONE = 4, BREACHED };     // the first three and STEPS_DONE as in sim.c
enum breach { NONE, AT_FAULT, NOT_OWN, TAKEN_TWICE, WITHOUT_LOCK, HOLDER_WAITS, CURSOR_BACK, LOG_CHANGED };
enum word { END_WORD = 1, LOCK = 5, CURSOR = 6, LOG = 144 };

typedef struct {
  uint64_t seed, mode, most;        // which interleaving, and how many instructions it may have
  uint64_t taken_at, log_end;       // where a continuation, in x10, was found full; the first word behind the log
  uint8_t *taken;                   // for each word, whether the continuation there was taken
  uint64_t steps, takes, locks;     // instructions, continuations taken, times that the lock was taken
  uint64_t holder;                  // the hart that holds the lock, counted from 1, or 0
  uint64_t breach, hart, pc, at;    // the first breach: who, where, and the word
} watch;

typedef struct { uint64_t state, left, slow, slow_left, asleep[64]; int now; } scheduler;

static void found(watch *w, uint64_t breach, int hart, uint64_t pc, uint64_t at) {
  if (w->breach) return;
  w->breach = breach; w->hart = hart; w->pc = pc; w->at = at;
}

// The bytes of a word of the log that stand below the cursor.
static uint64_t printed_part(uint64_t word, uint64_t cursor) {
  uint64_t first = 8 * (word - LOG), bytes = cursor > first ? cursor - first : 0;
  return bytes >= 8 ? ~0ull : (1ull << 8 * bytes) - 1;
}

// A hart has changed a word of the end or the log, or the lock.
static void look_at_log(machine *m, watch *w, int i, uint64_t pc, uint64_t word, uint64_t old, uint64_t cursor) {
  uint64_t new = m->mem[word];
  if (word == LOCK) {
    if (old && new) return;
    if (!old && new) { w->holder = i + 1; w->locks++; return; }
    if (w->holder != (uint64_t)i + 1) found(w, WITHOUT_LOCK, i, pc, word);
    w->holder = 0;
    return;
  }
  if (w->holder != (uint64_t)i + 1) found(w, WITHOUT_LOCK, i, pc, word);
  if (word == CURSOR && new < old) found(w, CURSOR_BACK, i, pc, word);
  if (word >= LOG && (old ^ new) & printed_part(word, cursor)) found(w, LOG_CHANGED, i, pc, word);
}

// The word that the next instruction of a hart may change, or `size`.
static uint64_t next_word(machine *m, hart *h) {
  if ((h->pc & 3) || (h->pc >> 2) >= m->n) return m->size;
  ins *c = &m->code[h->pc >> 2];
  uint64_t at = 8 * m->size;
  if (c->op == SD) at = h->x[c->rs1] + c->imm;
  else if (c->op >= AADD && c->op <= ACAS) at = h->x[c->rs1];
  return at >> 3 < m->size ? at >> 3 : m->size;
}

static int watched(machine *m, watch *w, int i) {
  hart *h = &m->h[i];
  uint64_t pc = h->pc, word = next_word(m, h), old = word < m->size ? m->mem[word] : 0, cursor = m->mem[CURSOR];
  uint64_t continuation = h->x[10] >> 3;
  if (pc == w->taken_at && continuation < m->size) {
    if (w->taken[continuation]) found(w, TAKEN_TWICE, i, pc, continuation);
    w->taken[continuation] = 1;
    w->takes++;
  }
  int r = checked(m, i);
  if (r == FAULT) found(w, AT_FAULT, i, pc, 0);
  if (r == WAITS && w->holder == (uint64_t)i + 1) found(w, HOLDER_WAITS, i, pc, h->x[10] >> 3);
  if (m->bad_hart) found(w, NOT_OWN, m->bad_hart - 1, m->bad_pc, m->bad_at >> 3);
  int of_log = (word >= END_WORD && word <= CURSOR) || (word >= LOG && word < w->log_end);
  if (r == WENT && of_log) look_at_log(m, w, i, pc, word, old, cursor);
  return r;
}

// Whether a hart has a step, or will be at fault.
static int has_step(machine *m, int i) {
  hart *h = &m->h[i];
  if (h->pc >> 2 >= m->n || m->code[h->pc >> 2].op != ECALL) return 1;
  return h->x[17] == 1 && (h->x[10] >> 3 >= m->size || m->mem[h->x[10] >> 3] != h->x[11]);
}

static uint64_t below(scheduler *s, uint64_t n) { return rng(&s->state) % n; }

static int is_shared(machine *m, int i) { return m->h[i].pc >> 2 < m->n && m->shared[m->h[i].pc >> 2]; }

static int not_asleep(machine *m, scheduler *s) {
  int awake = 0;
  for (int j = 0; j < m->H; j++) if (s->asleep[j]) s->asleep[j]--; else awake++;
  if (!awake) return below(s, m->H);
  int n = below(s, awake), i = 0;
  while (s->asleep[i] || n--) i++;
  if (is_shared(m, i) && below(s, 8) == 0) s->asleep[i] = 1 + below(s, 500);
  return i;
}

// The hart whose instruction is next: any; in bursts of up to 128; with one that is slow; any before each access to a shared
// word; in stretches of up to 16,384; without those that sleep for a while behind an access to a shared word.
static int next_hart(machine *m, watch *w, scheduler *s) {
  switch (w->mode) {
  case EACH: return below(s, m->H);
  case STALLS: return not_asleep(m, s);
  case SLOW:
    if (!s->slow_left) { s->slow = below(s, m->H); s->slow_left = 1 + below(s, 2000); }
    s->slow_left--;
    s->now = below(s, m->H);
    return s->now == (int)s->slow && below(s, 64) ? (s->now + 1) % m->H : s->now;
  case BLOCKS:
    if (!s->left || is_shared(m, s->now)) s->now = below(s, m->H);
    s->left = 1;
    return s->now;
  default:
    if (!s->left) { s->now = below(s, m->H); s->left = 1 + below(s, 1ull << below(s, w->mode == BURSTS ? 8 : 15)); }
    s->left--;
    return s->now;
  }
}

static int interleave(machine *m, watch *w, scheduler *s) {
  while (w->steps < w->most) {
    if (m->mem[END_WORD]) return ENDED;
    int i = next_hart(m, w, s);
    if (m->h[i].retired == m->budget) { w->hart = i; return BUDGET; }
    int r = watched(m, w, i);
    if (w->breach) return BREACHED;
    if (r == WENT) { w->steps++; continue; }
    s->left = 0;
    int any = 0;
    for (int j = 0; j < m->H; j++) any |= has_step(m, j);
    if (!any) return DEADLOCK;
  }
  return STEPS_DONE;
}

// One interleaving. Behind an end the other harts go on for a while, which may change nothing that counts.
int run_watched(machine *m, watch *w) {
  scheduler s;
  memset(&s, 0, sizeof s);
  s.state = w->seed;
  int reason = interleave(m, w, &s);
  for (int k = 0; reason == ENDED && k < 1000; k++) {
    watched(m, w, below(&s, m->H));
    if (w->breach) reason = BREACHED;
  }
  return reason;
}
