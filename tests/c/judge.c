/* The proved library asked from C: the 105-byte sheet of the paper with its verdicts, damaged sheets, and null pointers. */
#include "judge.h"

#include <stdio.h>
#include <string.h>

static const uint8_t sheet[105] = {
    'B', 'S', 1,
    'T', 'M', 5, 0, 0,  /* 0: a symmetric key */
    'T', 'M', 3, 0, 0,  /* 1: data */
    'T', 'M', 6, 0, 0,  /* 2, 3: two asymmetric keys */
    'T', 'M', 6, 1, 0,
    'T', 'M', 8, 2, 0,  /* 4, 5: their inverses */
    'T', 'M', 8, 3, 0,
    'T', 'M', 11, 0, 4, /* 6: 0 under 4 */
    'T', 'M', 11, 6, 3, /* 7: 6 under 3 */
    'T', 'M', 11, 1, 0, /* 8: 1 under 0 */
    'S', 'K',
    'S', 'T', 2, 0, 7, 1, 8,
    'N', 'O', 4, 'N', 'O', 5, 'U', 'O', 0,
    'S', 'K',
    'S', 'T', 2, 0, 7, 1, 8,
    'S', 'T', 2, 1, 7, 0, 8,
    'O', 'R', 0, 0, 1, 0,
    'O', 'R', 1, 1, 0, 1,
    'N', 'O', 4, 'N', 'O', 5, 'U', 'O', 0,
    'E', 'N'};

static int asked = 0;
static int failed = 0;

static uint64_t word(uint64_t tag, uint64_t x, uint64_t y, uint64_t z) { return tag | x << 8 | y << 16 | z << 32; }

static void expect(const char *what, uint64_t is, uint64_t due) {
  asked++;
  if (is != due) {
    failed++;
    printf("%s: tag %u x %u y %u z %u, and tag %u x %u y %u z %u is due\n", what, judge_tag(is), judge_x(is), judge_y(is),
           judge_z(is), judge_tag(due), judge_x(due), judge_y(due), judge_z(due));
  }
}

static void expect_bytes(const char *what, const uint8_t *are, const uint8_t *due, size_t n) {
  asked++;
  if (memcmp(are, due, n) != 0) {
    failed++;
    printf("%s: other bytes are due\n", what);
  }
}

static void whole_sheet(void) {
  const size_t n = sizeof sheet;
  const uint8_t body[1] = {6}, itself[1] = {0}, no_term[2] = {6, 9};
  expect("sheet", judge_sheet(sheet, n), word(1, 2, 0, 9));
  expect("P1: skeleton 0 open at (0,1)", judge_realized(sheet, n, 0), word(2, 0, 1, 0));
  expect("P2: reach there 4", judge_reach(sheet, n, 0, 0, 1), word(1, 0, 0, 4));
  expect("P3: skeleton 1 realized", judge_realized(sheet, n, 1), word(1, 0, 0, 0));
  expect("P3: reach before (0,1) 5", judge_reach(sheet, n, 1, 0, 1), word(1, 0, 0, 5));
  expect("not derivable in skeleton 0", judge_derivable(sheet, n, 0, 0, 1, 8), word(2, 0, 0, 0));
  expect("derivable in skeleton 1", judge_derivable(sheet, n, 1, 0, 1, 8), word(1, 0, 0, 0));
  expect("within the body", judge_within(sheet, n, 0, 7, body, 1), word(1, 0, 0, 0));
  expect("itself protects nothing", judge_within(sheet, n, 0, 7, itself, 1), word(2, 0, 0, 0));
  expect("carried within nothing", judge_within(sheet, n, 0, 7, NULL, 0), word(2, 0, 0, 0));
  expect("not carried", judge_within(sheet, n, 1, 7, NULL, 0), word(1, 0, 0, 0));
  expect("no such term in the set", judge_within(sheet, n, 0, 7, no_term, 2), word(0, 15, 0, 0));
  expect("no such skeleton", judge_realized(sheet, n, 2), word(0, 15, 0, 0));
  expect("a send is no reception", judge_reach(sheet, n, 0, 0, 0), word(0, 15, 0, 0));
  expect("no such term", judge_derivable(sheet, n, 0, 0, 1, 9), word(0, 15, 0, 0));
}

static void maps(void) {
  const size_t n = sizeof sheet;
  const uint8_t to_0[2] = {0, 0}, to_1[1] = {1};
  uint8_t images[12], before[12], due[12] = {0, 1, 2, 3, 255, 255, 255, 255, 255, 77, 77, 77};
  memset(before, 77, sizeof before);
  memcpy(images, before, sizeof images);
  expect("too many strands", judge_map(sheet, n, 0, 1, to_0, 2, images, 9), word(2, 1, 0, 0));
  expect("no strands", judge_map(sheet, n, 0, 1, NULL, 0, images, 9), word(2, 1, 0, 0));
  expect("other directions", judge_map(sheet, n, 0, 1, to_1, 1, images, 9), word(2, 2, 0, 0));
  expect("room for eight images", judge_map(sheet, n, 0, 1, to_0, 1, images, 8), word(0, 16, 0, 0));
  expect("room for no image", judge_map(sheet, n, 0, 1, to_0, 1, NULL, 0), word(0, 16, 0, 0));
  expect("no such target", judge_map(sheet, n, 0, 2, to_0, 1, NULL, 0), word(0, 15, 0, 0));
  expect_bytes("no and refused write nothing", images, before, sizeof images);
  expect("a map", judge_map(sheet, n, 0, 1, to_0, 1, images, sizeof images), word(1, 0, 0, 0));
  expect_bytes("its images", images, due, sizeof images);
}

static void lists(void) {
  const size_t n = sizeof sheet;
  uint8_t space[3] = {77, 77, 77};
  const uint8_t before[3] = {77, 77, 77}, due[3] = {0, 77, 77};
  expect("no room for the map", judge_list(sheet, n, 0, 1, NULL, 0), word(0, 16, 0, 0));
  expect("no map, and no room", judge_list(sheet, n, 1, 0, NULL, 0), word(1, 0, 0, 0));
  expect("no such source", judge_list(sheet, n, 2, 1, space, 3), word(0, 15, 0, 0));
  expect_bytes("no map and refused write nothing", space, before, 3);
  expect("P4: one map", judge_list(sheet, n, 0, 1, space, 3), word(1, 0, 0, 1));
  expect_bytes("P4: it is 0", space, due, 3);
}

/* A bad sheet gives its refusal to all questions, and nothing is written. */
static void bad(const char *what, const uint8_t *bytes, size_t n, uint64_t due) {
  uint8_t lent[9], before[9];
  memset(before, 77, sizeof before);
  memcpy(lent, before, sizeof lent);
  expect(what, judge_sheet(bytes, n), due);
  expect(what, judge_within(bytes, n, 0, 7, NULL, 0), due);
  expect(what, judge_derivable(bytes, n, 0, 0, 1, 8), due);
  expect(what, judge_reach(bytes, n, 0, 0, 1), due);
  expect(what, judge_realized(bytes, n, 0), due);
  expect(what, judge_map(bytes, n, 0, 1, NULL, 0, lent, sizeof lent), due);
  expect(what, judge_list(bytes, n, 0, 1, lent, sizeof lent), due);
  expect(what, judge_map(bytes, n, 0, 1, NULL, 0, NULL, 0), due);
  expect(what, judge_list(bytes, n, 0, 1, NULL, 0), due);
  expect_bytes(what, lent, before, sizeof lent);
}

static void bad_sheets(void) {
  uint8_t damaged[sizeof sheet + 1];
  memcpy(damaged, sheet, sizeof sheet);
  damaged[sizeof sheet] = 0;
  bad("no bytes", NULL, 0, word(0, 1, 0, 0));
  bad("cut short", sheet, sizeof sheet - 1, word(0, 1, 0, 103));
  bad("a byte after EN", damaged, sizeof damaged, word(0, 8, 0, 105));
  damaged[2] = 2;
  bad("edition 2", damaged, sizeof sheet, word(0, 3, 0, 0));
  damaged[2] = 1;
  memcpy(damaged + 100, "NO", 2); /* the last UO 0 becomes NO 0, of an atom that skeleton 1 carries */
  bad("0 is carried in skeleton 1", damaged, sizeof sheet, word(0, 11, 1, 0));
}

int main(void) {
  whole_sheet();
  maps();
  lists();
  bad_sheets();
  printf("the library from C: %d asked, %d wrong\n", asked, failed);
  return failed != 0;
}
