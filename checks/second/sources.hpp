// The four kinds of sources. A line or object that is refused is passed over.
#pragma once
#include "addresses.hpp"
#include "places.hpp"

struct Reference {
  Range r;
  u64 modified;
  u32 line;
  string url;
  string slot;
};

#pragma pack(push, 4)
struct Entry {
  u128 first;
  u32 leaf;
  u8 len;
};
#pragma pack(pop)

struct Delegation {
  Range r;
  u32 leaf;
  u32 line;
  char cc[2];
};

struct Override {
  Range r;
  u32 leaf;
};

struct Sources {
  std::map<string, vector<Reference>> dumps;
  std::map<string, vector<Entry>> feeds;
  std::map<string, vector<Delegation>> stats;
  vector<Override> over;
};

// The URL of a feed, with its scheme and host in lower case; false where it is none of https.
static bool url_of(string_view s, string &out) {
  if (s.empty() || !utf8(s)) return false;
  size_t c = s.find("://");
  if (c == s.npos) return false;
  out.clear();
  for (char ch : s.substr(0, c)) out += (char)tolower(ch);
  if (out != "https") return false;
  out += "://";
  s.remove_prefix(c + 3);
  size_t e = s.find_first_of("/?#");
  string_view host = s.substr(0, e);
  if (host.empty()) return false;
  for (char ch : host) out += (char)tolower(ch);
  if (e == s.npos)
    out += '/';
  else {
    if (s[e] != '/') out += '/';
    out += s.substr(e);
  }
  return true;
}

// The references of a registry dump, one of each object at most.
static vector<Reference> read_dump(const string &slot, const string &file) {
  vector<Reference> refs;
  enum { NONE, GEO, REM, MOD, FIRST };
  Lines lines(file);
  string_view l;
  u32 n = 0;
  bool in = false, have = false;
  int kind = 0, cur = NONE;
  string val, first;
  u32 at = 0, geo_n = 0, rem_n = 0;
  string geo, rem, mod;
  bool mod_seen = false;
  u32 geo_l = 0, rem_l = 0;
  auto is = [](string_view a, const char *b, size_t k) {
    if (a.size() != k) return false;
    for (size_t i = 0; i < k; i++)
      if ((a[i] | 32) != b[i]) return false;
    return true;
  };
  auto add = [&](string_view piece) {
    piece = trim(cut(piece));
    if (piece.empty()) return;
    if (!val.empty()) val += ' ';
    val.append(piece);
  };
  auto close = [&] {
    switch (cur) {
    case FIRST:
      first = val;
      break;
    case GEO:
      if (!geo_n++) {
        geo = val;
        geo_l = at;
      }
      break;
    case MOD:
      if (!mod_seen) {
        mod = val;
        mod_seen = true;
      }
      break;
    case REM:
      if (val.compare(0, 7, "Geofeed") == 0) {
        string_view v = string_view(val).substr(7);
        if (!v.empty() && blank(v[0])) {
          v = trim(v);
          size_t e = v.find_first_of(" \t");
          v = v.substr(0, e);
          if (v.find("://") != v.npos && !rem_n++) {
            rem = string(v);
            rem_l = at;
          }
        }
      }
      break;
    }
    cur = NONE;
    val.clear();
  };
  auto end = [&] {
    if (have) close();
    if (in && kind && (geo_n ? geo_n == 1 : rem_n == 1)) {
      Range r;
      bool ok;
      u128 f;
      int len;
      if (kind == 4)
        ok = parse_span(first, r) && !r.six() && first.find(':') == first.npos;
      else {
        ok = parse_block(first, f, len) && first.find(':') != first.npos;
        if (ok) r = {f, f | below(len)};
      }
      Reference x;
      if (ok && url_of(geo_n ? geo : rem, x.url)) {
        x.r = r;
        x.line = geo_n ? geo_l : rem_l;
        x.slot = slot;
        x.modified = 0;
        const char *sh = "dddd-dd-ddTdd:dd:ddZ";
        u64 v = 0;
        bool g = mod.size() == 20;
        for (size_t i = 0; g && i < 20; i++) {
          if (sh[i] == 'd') {
            g = digit(mod[i]);
            v = v * 10 + (u64)(mod[i] - '0');
          } else
            g = mod[i] == sh[i];
        }
        if (g) x.modified = v;
        refs.push_back(x);
      }
    }
    in = have = false;
    kind = 0;
    geo_n = rem_n = 0;
    mod_seen = false;
    mod.clear();
    cur = NONE;
    val.clear();
  };
  while (lines.next(l)) {
    n++;
    if (l.empty()) {
      end();
      continue;
    }
    char c = l[0];
    if (c == '%' || c == '#') continue;
    if (blank(c) || c == '+') {
      if (trim(l).empty()) {
        end();
        continue;
      }
      if (have && cur != NONE) add(l.substr(1));
      continue;
    }
    if (have && !kind) continue; // an object of another class: only its end matters
    if (have && cur == NONE && !((c | 32) == 'g' || (c | 32) == 'r' || (c | 32) == 'l'))
      continue; // no attribute that speaks
    if (!alpha(c)) continue;
    size_t i = 1;
    while (i < l.size() && i < 65 && (alpha(l[i]) || digit(l[i]) || l[i] == '-' || l[i] == '_'))
      i++;
    if (i > 64 || i >= l.size() || l[i] != ':') continue;
    string_view name = l.substr(0, i), rest = l.substr(i + 1);
    if (have) close();
    in = true;
    at = n;
    if (!have) {
      have = true;
      kind = is(name, "inetnum", 7) ? 4 : is(name, "inet6num", 8) ? 6 : 0;
      cur = kind ? FIRST : NONE;
    } else
      cur = is(name, "remarks", 7)          ? REM
            : is(name, "geofeed", 7)        ? GEO
            : is(name, "last-modified", 13) ? MOD
                                            : NONE;
    if (cur != NONE) add(rest);
  }
  end();
  return refs;
}

// The fields of a line, without their quotes, and how many they are: -1 where they are none.
static int fields_of(string_view s, string_view *f, int max, string &hold) {
  int n = 0;
  size_t i = 0;
  if (memchr(s.data(), '\r', s.size())) return -1;
  if (!memchr(s.data(), '"', s.size())) {
    for (;;) {
      auto p = (const char *)memchr(s.data(), ',', s.size());
      string_view x = p ? s.substr(0, p - s.data()) : s;
      if (n < max) f[n] = trim(x);
      n++;
      if (!p) return n;
      s.remove_prefix(p - s.data() + 1);
    }
  }
  hold.clear();
  hold.reserve(s.size() + 1);
  for (;;) {
    if (i < s.size() && s[i] == '"') {
      size_t b = hold.size();
      i++;
      for (;;) {
        if (i >= s.size()) return -1;
        if (s[i] != '"') {
          hold += s[i++];
          continue;
        }
        if (i + 1 < s.size() && s[i + 1] == '"') {
          hold += '"';
          i += 2;
          continue;
        }
        i++;
        break;
      }
      if (n < max) f[n] = trim(string_view(hold.data() + b, hold.size() - b));
      n++;
      if (i < s.size() && s[i] != ',') return -1;
    } else {
      size_t b = i;
      while (i < s.size() && s[i] != ',')
        if (s[i++] == '"') return -1;
      if (n < max) f[n] = trim(s.substr(b, i - b));
      n++;
    }
    if (i >= s.size()) return n;
    i++;
  }
}

// Of rows that stand together where they are about one thing, the first of each: none of those
// that say different things of it.
template <class Row, class About> static void keep_one_of_each(vector<Row> &rows, About about) {
  size_t kept = 0;
  for (size_t i = 0; i < rows.size();) {
    size_t end = i + 1;
    bool same = true;
    while (end < rows.size() && about(rows[end], rows[i])) same &= rows[end++].leaf == rows[i].leaf;
    if (same) rows[kept++] = rows[i];
    i = end;
  }
  rows.resize(kept);
}

// The entries of a feed in ascending order, outer ones first.
static vector<Entry> read_feed(const string &file, size_t bytes) {
  vector<Entry> out;
  Lines lines(file);
  string_view l;
  string hold;
  string_view f[5];
  out.reserve(bytes / 34 + 16);
  while (lines.next(l)) {
    l = trim(cut(l));
    if (l.empty() || !utf8(l)) continue;
    for (auto &x : f) x = {};
    if (fields_of(l, f, 5, hold) < 0 || f[0].empty()) continue;
    Entry e;
    int len;
    if (!parse_block(f[0], e.first, len)) continue;
    int64_t p = place_of(f[1], f[2], f[3], f[4]);
    if (p < 0) continue;
    e.len = (u8)len;
    e.leaf = (u32)p;
    out.push_back(e);
  }
  auto less = [](const Entry &a, const Entry &b) {
    return a.first != b.first ? a.first < b.first : a.len < b.len;
  };
  if (!std::is_sorted(out.begin(), out.end(), less)) std::stable_sort(out.begin(), out.end(), less);
  keep_one_of_each(
      out, [](const Entry &a, const Entry &b) { return a.first == b.first && a.len == b.len; });
  return out;
}

// The delegations of a statistics file, in its order.
static vector<Delegation> read_stats(const string &file) {
  vector<Delegation> out;
  Lines lines(file);
  string_view l;
  u32 line = 0;
  while (lines.next(l)) {
    line++;
    l = trim(l);
    if (l.empty() || l[0] == '#') continue;
    string_view f[7];
    int n = 0;
    string_view s = l;
    for (;;) {
      auto p = (const char *)memchr(s.data(), '|', s.size());
      string_view x = p ? s.substr(0, p - s.data()) : s;
      if (n < 7) f[n] = trim(x);
      n++;
      if (!p || n == 8) break;
      s.remove_prefix(p - s.data() + 1);
    }
    if (f[0] == "2" || (f[0].size() > 2 && f[0].substr(0, 2) == "2." &&
                        std::all_of(f[0].begin() + 2, f[0].end(), digit)))
      continue;
    if (n < 7 || (f[1] == "*" && f[5] == "summary")) continue;
    bool v4 = f[2] == "ipv4";
    if (!v4 && f[2] != "ipv6") continue;
    if (f[6] != "allocated" && f[6] != "assigned") continue;
    Delegation d;
    bool six;
    u64 v;
    u128 a;
    if (!parse_addr(f[3], a, six) || six == v4) continue;
    if (v4) {
      if (!number(f[4], 10, v) || !v || a + v > V4END) continue;
      d.r = {a, a + v - 1};
    } else {
      if (!number(f[4], 3, v) || v > 128 || (a & below((int)v)) || (v >= 96 && a < V4END)) continue;
      d.r = {a, a | below((int)v)};
    }
    if (f[1].size() != 2 || !alpha(f[1][0]) || !alpha(f[1][1])) continue;
    int64_t p = place_of(f[1], {}, {}, {});
    if (p <= 0) continue;
    d.leaf = (u32)p;
    d.line = line;
    d.cc[0] = (char)(f[1][0] & ~32);
    d.cc[1] = (char)(f[1][1] & ~32);
    out.push_back(d);
  }
  return out;
}

// The rows of a file of overrides in ascending order.
static vector<Override> read_over(const string &file) {
  vector<Override> out;
  Lines lines(file);
  string_view l;
  string hold;
  string_view f[6];
  while (lines.next(l)) {
    l = trim(cut(l));
    if (l.empty() || !utf8(l)) continue;
    for (auto &x : f) x = {};
    if (fields_of(l, f, 6, hold) < 0) continue;
    Override o;
    if (!parse_span(f[0], o.r)) continue;
    if (f[1] == "void")
      o.leaf = 0;
    else if (f[1] == "set") {
      int64_t p = place_of(f[2], f[3], f[4], f[5]);
      if (p <= 0) continue;
      o.leaf = (u32)p;
    } else
      continue;
    out.push_back(o);
  }
  std::stable_sort(out.begin(), out.end(), [](const Override &a, const Override &b) {
    return a.r.first != b.r.first ? a.r.first < b.r.first : a.r.last < b.r.last;
  });
  keep_one_of_each(out, [](const Override &a, const Override &b) {
    return a.r.first == b.r.first && a.r.last == b.r.last;
  });
  return out;
}
