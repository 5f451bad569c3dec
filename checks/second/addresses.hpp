// Addresses and ranges: a number below 2^128, of which those below 2^32 are IPv4.
#pragma once
#include "texts.hpp"

static const u128 V4END = (u128)1 << 32, ALL1 = ~(u128)0;

// An IPv4 address.
static bool parse4(string_view s, u128 &out) {
  u64 v = 0;
  size_t i = 0;
  for (int part = 0; part < 4; part++) {
    if (part) {
      if (i >= s.size() || s[i] != '.') return false;
      i++;
    }
    size_t b = i;
    u32 o = 0;
    while (i < s.size() && digit(s[i]) && i - b < 3) o = o * 10 + (u32)(s[i++] - '0');
    if (i == b || o > 255 || (i - b > 1 && s[b] == '0')) return false;
    v = v << 8 | o;
  }
  if (i != s.size()) return false;
  out = v;
  return true;
}

// The parts of an IPv6 address, of which the last may be an IPv4 address.
static bool list6(string_view s, bool tail, vector<u32> &g) {
  if (s.empty()) return true;
  for (;;) {
    size_t c = s.find(':');
    string_view m = s.substr(0, c);
    if (c == s.npos && tail && m.find('.') != m.npos) {
      u128 a;
      if (!parse4(m, a)) return false;
      g.push_back((u32)(a >> 16));
      g.push_back((u32)a & 0xFFFF);
      return true;
    }
    if (m.empty() || m.size() > 4) return false;
    u32 v = 0;
    for (char ch : m) {
      if (digit(ch))
        v = v << 4 | (u32)(ch - '0');
      else if ((ch | 32) >= 'a' && (ch | 32) <= 'f')
        v = v << 4 | (u32)((ch | 32) - 'a' + 10);
      else
        return false;
    }
    g.push_back(v);
    if (c == s.npos) return true;
    s.remove_prefix(c + 1);
    if (s.empty()) return false;
  }
}

// An address of either family.
static bool parse_addr(string_view s, u128 &out, bool &six) {
  if (!memchr(s.data(), ':', s.size())) {
    six = false;
    return parse4(s, out);
  }
  six = true;
  static vector<u32> a, b;
  a.clear();
  b.clear();
  size_t d = s.find("::");
  if (d == s.npos) {
    if (!list6(s, true, a) || a.size() != 8) return false;
  } else {
    if (!list6(s.substr(0, d), false, a) || !list6(s.substr(d + 2), true, b) ||
        a.size() + b.size() > 7)
      return false;
    a.resize(8 - b.size(), 0);
    a.insert(a.end(), b.begin(), b.end());
  }
  out = 0;
  for (u32 g : a) out = out << 16 | g;
  return true;
}

struct Range {
  u128 first, last;
  bool six() const { return last >= V4END; }
};

// The bits below a prefix of this length.
static u128 below(int len) {
  return len >= 128 ? 0 : ALL1 >> len;
}

// A prefix, or an address alone.
static bool parse_block(string_view s, u128 &first, int &len) {
  bool six;
  size_t c = s.find('/');
  u64 n;
  if (!parse_addr(s.substr(0, c), first, six)) return false;
  if (c == s.npos)
    n = six ? 128 : 32;
  else if (!number(s.substr(c + 1), 3, n) || n > (six ? 128u : 32u))
    return false;
  len = six ? (int)n : 96 + (int)n;
  if (first & below(len)) return false;
  return !(six && len >= 96 && first < V4END);
}

// A prefix, an address, or the first and the last of a range.
static bool parse_span(string_view s, Range &r) {
  size_t c = s.find('-');
  if (c == s.npos) {
    u128 f;
    int l;
    if (!parse_block(s, f, l)) return false;
    r = {f, f | below(l)};
    return true;
  }
  bool s1, s2;
  if (!parse_addr(trim(s.substr(0, c)), r.first, s1) ||
      !parse_addr(trim(s.substr(c + 1)), r.last, s2) || s1 != s2)
    return false;
  return r.first <= r.last && !(s1 && r.last < V4END);
}

// Where a range speaks: an IPv6 range has no part among the IPv4 addresses.
static Range ground(Range r) {
  if (r.six() && r.first < V4END) r.first = V4END;
  return r;
}
