/* Reads left rows, right rows and a claimed division of the left rows, and prints the answer of each function of the
 * library in the form that tools/check-library compares. */
#include <inttypes.h>
#include <ruzgalt.h>
#include <stdio.h>
#include <stdlib.h>

struct rows {
  size_t len;
  uint64_t *class;
  int64_t *from, *to, *amount;
};

static int64_t number(void) {
  int64_t n;
  if (scanf("%" SCNd64, &n) != 1) exit(2);
  return n;
}

/* Allocates n values of 8 bytes. Never returns NULL. */
static void *room(size_t n) {
  void *at = malloc(n ? 8 * n : 1);
  if (!at) exit(3);
  return at;
}

static struct rows read_rows(void) {
  size_t n = number();
  struct rows rows = {n, room(n), room(n), room(n), room(n)};
  for (size_t k = 0; k < n; k++) {
    rows.class[k] = number();
    rows.from[k] = number();
    rows.to[k] = number();
    rows.amount[k] = number();
  }
  return rows;
}

static void dip(struct rows rows) {
  uint32_t *part = room(rows.len), parts = 0;
  int64_t instant = 0;
  int32_t code = ruzgalt_dip(rows.from, rows.len, rows.to, rows.len, part, rows.len, &parts, &instant);
  printf("dip %d %u %" PRId64, code, parts, instant);
  for (size_t k = 0; k < rows.len; k++) printf(" %u", part[k]);
  printf("\n");
}

static void join(struct rows a, struct rows b) {
  size_t most = 4;
  uint64_t count;
  for (;;) {
    uint32_t *left = room(most), *right = room(most);
    int64_t *from = room(most), *to = room(most);
    int32_t code = ruzgalt_join(a.class, a.len, a.from, a.len, a.to, a.len, b.class, b.len, b.from, b.len, b.to, b.len,
                                left, most, right, most, from, most, to, most, &count);
    if (code == RUZGALT_NO_ROOM && count > most) {
      most = count;
      continue;
    }
    printf("join %d %" PRIu64 "\n", code, count);
    for (uint64_t k = 0; k < count; k++)
      printf("%u %u %" PRId64 " %" PRId64 "\n", left[k], right[k], from[k], to[k]);
    return;
  }
}

static void anti(struct rows a, struct rows b) {
  size_t most = a.len + b.len;
  uint64_t count;
  for (;;) {
    uint32_t *left = room(most);
    int64_t *from = room(most), *to = room(most);
    int32_t code = ruzgalt_anti(a.class, a.len, a.from, a.len, a.to, a.len, b.class, b.len, b.from, b.len, b.to, b.len,
                                left, most, from, most, to, most, &count);
    if (code == RUZGALT_NO_ROOM && count > most) {
      most = count;
      continue;
    }
    printf("anti %d %" PRIu64 "\n", code, count);
    for (uint64_t k = 0; k < count; k++) printf("%u %" PRId64 " %" PRId64 "\n", left[k], from[k], to[k]);
    return;
  }
}

static void agg(struct rows rows, uint32_t function) {
  size_t most = 2 * rows.len;
  uint64_t count, *group = room(most), *low = room(most);
  int64_t *from = room(most), *to = room(most), *high = room(most);
  int32_t code = ruzgalt_agg(rows.class, rows.len, rows.from, rows.len, rows.to, rows.len, rows.amount, rows.len,
                             function, group, most, from, most, to, most, low, most, high, most, &count);
  printf("agg %d %" PRIu64 "\n", code, count);
  for (uint64_t k = 0; k < count; k++)
    printf("%" PRIu64 " %" PRId64 " %" PRId64 " %" PRIu64 " %" PRId64 "\n", group[k], from[k], to[k], low[k], high[k]);
}

static void check(struct rows rows) {
  uint32_t *part = room(rows.len), verdict = 0;
  uint64_t first = 0, second = 0;
  uint32_t parts = number();
  int64_t instant = number();
  for (size_t k = 0; k < rows.len; k++) part[k] = number();
  int32_t code = ruzgalt_check(rows.from, rows.len, rows.to, rows.len, part, rows.len, parts, instant, &verdict, &first,
                               &second);
  printf("check %d %u %" PRIu64 " %" PRIu64 "\n", code, verdict, first, second);
}

int main(void) {
  struct rows left = read_rows(), right = read_rows();
  dip(left);
  join(left, right);
  anti(left, right);
  for (uint32_t function = RUZGALT_COUNT; function <= RUZGALT_MAX; function++) agg(left, function);
  check(left);
  return 0;
}
