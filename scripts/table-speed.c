// The look-ups of crates/speed_calls, with one hash table for each length. The same words behind `table`, the same answer.
#include <stdio.h>
#include <stdlib.h>
#include <string.h>

typedef unsigned __int128 u128;
typedef unsigned u32;

#define SLOTS 16384
struct slot { u128 key; char used, negated; };
static struct slot *tables[129];
static int used[129], lens;
static int longest_first[129];

static u32 next(u32 x) { return x * 1664525u + 1013904223u; }
static u128 addr_of(int v6, u32 x) { u128 b = x; return v6 ? b << 96 | b << 64 | b << 32 | b : b; }
static int len_of(int v6, u32 place) {
  int s = place % 16;
  switch (place % 3) {
    case 0: return v6 ? 128 : 32;
    case 1: return v6 ? 64 : 24;
    default: return v6 ? 32 + s : 8 + s;
  }
}
static u128 front(int width, u128 bits, int len) { return len == 0 ? 0 : bits >> (width - len) << (width - len); }
static u32 place_of(u128 key) {
  unsigned long long h = (unsigned long long)(key >> 64) * 0x9e3779b97f4a7c15ull + (unsigned long long)key;
  return (u32)((h * 0x9e3779b97f4a7c15ull) >> 50);
}
static void put(int len, u128 key, int negated) {
  struct slot *t = tables[len];
  u32 i = place_of(key);
  while (t[i].used && t[i].key != key) i = (i + 1) % SLOTS;
  if (!t[i].used) t[i] = (struct slot){ key, 1, (char)negated };
}
static int holds(int width, u128 bits) {
  for (int n = 0; n < lens; n++) {
    int len = longest_first[n];
    u128 key = front(width, bits, len);
    struct slot *t = tables[len];
    for (u32 i = place_of(key); t[i].used; i = (i + 1) % SLOTS)
      if (t[i].key == key) return !t[i].negated;
  }
  return 0;
}

int main(int argc, char **argv) {
  if (argc != 4) return 2;
  int v6 = atoi(argv[1]) == 6, width = v6 ? 128 : 32;
  u32 builds = (u32)atoi(argv[2]), lookups = (u32)atoi(argv[3]);
  for (u32 n = 0; n < builds; n++) {
    u32 x = 1;
    for (int len = 0; len <= 128; len++) if (tables[len]) memset(tables[len], 0, SLOTS * sizeof(struct slot));
    for (u32 place = 0; place < 4096; place++) {
      x = next(x);
      int len = len_of(v6, place);
      if (!tables[len]) { tables[len] = calloc(SLOTS, sizeof(struct slot)); used[len] = 1; }
      put(len, front(width, addr_of(v6, x), len), place % 10 == 9);
    }
  }
  for (int len = 128; len >= 0; len--) if (used[len]) longest_first[lens++] = len;
  u32 own = 1, other = 7, found = 0;
  for (u32 turn = 0; turn < lookups; turn++) {
    u32 x;
    if (turn % 8192 == 0) own = 1;
    if (turn % 2 == 0) x = own = next(own); else x = other = next(other);
    found += (u32)holds(width, addr_of(v6, x));
  }
  printf("found %u\n", found);
  return 0;
}
