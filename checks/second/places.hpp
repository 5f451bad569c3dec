// Places, each of which has one number.
#pragma once
#include "texts.hpp"

struct Place {
  string country, region, city, postal;
};

static vector<Place> places(1); // number 0 is none

static vector<u32> place_table(1 << 12, 0);
static vector<u64> place_hashes(1);

static u64 hash_bytes(const char *p, size_t n, u64 h) {
  while (n >= 8) {
    u64 v;
    memcpy(&v, p, 8);
    h = (h ^ v) * 0x9E3779B97F4A7C15ull;
    h ^= h >> 29;
    p += 8;
    n -= 8;
  }
  u64 v = 0;
  memcpy(&v, p, n);
  h = (h ^ v ^ (u64)n << 56) * 0xBF58476D1CE4E5B9ull;
  return h ^ h >> 32;
}

// The number of a place.
static u32 intern(string_view co, string_view re, string_view ci, string_view po) {
  u64 h =
      hash_bytes(po.data(), po.size(),
                 hash_bytes(ci.data(), ci.size(),
                            hash_bytes(re.data(), re.size(), hash_bytes(co.data(), co.size(), 1))));
  size_t m = place_table.size() - 1, i = h & m;
  for (; place_table[i]; i = (i + 1) & m) {
    u32 k = place_table[i];
    if (place_hashes[k] != h) continue;
    Place &p = places[k];
    if (p.country == co && p.region == re && p.city == ci && p.postal == po) return k;
  }
  u32 k = (u32)places.size();
  places.push_back({string(co), string(re), string(ci), string(po)});
  place_hashes.push_back(h);
  place_table[i] = k;
  if (places.size() * 2 > place_table.size()) {
    vector<u32> t(place_table.size() * 2, 0);
    m = t.size() - 1;
    for (u32 j = 1; j < places.size(); j++) {
      size_t x = place_hashes[j] & m;
      while (t[x]) x = (x + 1) & m;
      t[x] = j;
    }
    place_table.swap(t);
  }
  return k;
}

// The number of the place that four fields say: 0 where they say nothing, -1 where they are
// refused.
static int64_t place_of(string_view co, string_view re, string_view ci, string_view po) {
  char c[2], r[8];
  if (!co.empty() && (co.size() != 2 || !alpha(co[0]) || !alpha(co[1]))) return -1;
  if (!re.empty()) {
    if (re.size() < 4 || re.size() > 6 || !alpha(re[0]) || !alpha(re[1]) || re[2] != '-') return -1;
    for (size_t i = 3; i < re.size(); i++)
      if (!alpha(re[i]) && !digit(re[i])) return -1;
  }
  if (ci.size() > 1024 || po.size() > 1024) return -1;
  auto up = [](char x) { return x >= 'a' && x <= 'z' ? (char)(x - 32) : x; };
  for (size_t i = 0; i < re.size(); i++) r[i] = up(re[i]);
  for (size_t i = 0; i < co.size(); i++) c[i] = up(co[i]);
  string_view C(c, co.size()), R(r, re.size());
  if (C.empty() && !R.empty()) C = R.substr(0, 2);
  if (C == "ZZ" || (C.empty() && R.empty() && ci.empty() && po.empty())) return 0;
  return intern(C, R, ci, po);
}
