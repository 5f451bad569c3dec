// The bytes of a file: its nodes in preorder, its data section with pointers, and its metadata.
#pragma once
#include "tree.hpp"

// The control bytes of a value of this type and size.
static void head(string &o, int type, size_t n) {
  u8 t = (u8)(type < 8 ? type << 5 : 0);
  auto ctl = [&](u8 five) {
    o += (char)(t | five);
    if (type >= 8) o += (char)(type - 7);
  };
  if (n < 29)
    ctl((u8)n);
  else if (n < 285) {
    ctl(29);
    o += (char)(n - 29);
  } else if (n < 65821) {
    ctl(30);
    n -= 285;
    o += (char)(n >> 8);
    o += (char)n;
  } else {
    ctl(31);
    n -= 65821;
    o += (char)(n >> 16);
    o += (char)(n >> 8);
    o += (char)n;
  }
}

static void text(string &o, string_view s) {
  head(o, 2, s.size());
  o += s;
}

static void uint_(string &o, int type, u64 v) {
  int n = 0;
  while (n < 8 && v >> (8 * n)) n++;
  head(o, type, (size_t)n);
  while (n--) o += (char)(v >> (8 * n));
}

// The data section: a value that stands there already is a pointer, where that is shorter.
struct Packer {
  string out;
  std::unordered_map<string, u64> seen; // spelt bytes -> least offset
  void pointer(u64 o) {
    auto b = [&](u64 v, int n) {
      while (n--) out += (char)(v >> (8 * n));
    };
    if (o < 2048)
      b(0x2000 | o, 2);
    else if (o < 526336) {
      o -= 2048;
      b(0x280000 | o, 3);
    } else if (o < 134744064) {
      o -= 526336;
      b(0x30000000u | o, 4);
    } else {
      out += (char)0x38;
      b(o, 4);
    }
  }
  static size_t pointer_len(u64 o) { return o < 2048 ? 2 : o < 526336 ? 3 : o < 134744064 ? 4 : 5; }
  struct Value {
    int kind; // 0 a text, 1 a map of keys and values, 2 a list
    string spelt;
    vector<Value> kids;
  };
  static Value text_of(string_view s) {
    Value v{0, {}, {}};
    text(v.spelt, s);
    return v;
  }
  static Value map_of(vector<Value> k) {
    Value v{1, {}, std::move(k)};
    head(v.spelt, 7, v.kids.size() / 2);
    for (auto &x : v.kids) v.spelt += x.spelt;
    return v;
  }
  static Value list_of(vector<Value> k) {
    Value v{2, {}, std::move(k)};
    head(v.spelt, 11, v.kids.size());
    for (auto &x : v.kids) v.spelt += x.spelt;
    return v;
  }
  void put(const Value &v, bool top) {
    if (!top) {
      auto it = seen.find(v.spelt);
      if (it != seen.end() && it->second < V4END && pointer_len(it->second) < v.spelt.size()) {
        pointer(it->second);
        return;
      }
    }
    u64 at = out.size();
    if (v.kind == 0)
      out += v.spelt;
    else {
      head(out, v.kind == 1 ? 7 : 11, v.kind == 1 ? v.kids.size() / 2 : v.kids.size());
      for (auto &x : v.kids) put(x, false);
    }
    seen.emplace(v.spelt, at);
  }
  u64 place(const Place &p) {
    vector<Value> m;
    u64 at = out.size();
    if (!p.city.empty()) {
      m.push_back(text_of("city"));
      m.push_back(map_of({text_of("names"), map_of({text_of("en"), text_of(p.city)})}));
    }
    if (!p.country.empty()) {
      m.push_back(text_of("country"));
      m.push_back(map_of({text_of("iso_code"), text_of(p.country)}));
    }
    if (!p.postal.empty()) {
      m.push_back(text_of("postal"));
      m.push_back(map_of({text_of("code"), text_of(p.postal)}));
    }
    if (!p.region.empty()) {
      m.push_back(text_of("subdivisions"));
      m.push_back(
          list_of({map_of({text_of("iso_code"), text_of(string_view(p.region).substr(3))})}));
    }
    put(map_of(std::move(m)), true);
    return at;
  }
};

// A file, and what its line tells.
struct Out {
  string bytes;
  u64 nodes, data;
  int bits;
};

// The file of a tree: nodes are numbered as the walk from the root first comes to them, left before
// right, and so are places.
static Out emit(u32 root, u64 epoch, const string &type) {
  vector<u32> num(nodes.size(), 0), ord;
  vector<u32> off(places.size(), 0);
  Packer packer;
  vector<u32> st;
  vector<char> got(places.size(), 0);
  auto leaf = [&](u32 k) {
    if (k && !got[k]) {
      got[k] = 1;
      off[k] = (u32)packer.place(places[k]);
    }
  };
  if (root & NODE) {
    st.push_back(root);
    while (!st.empty()) {
      u32 x = st.back();
      st.pop_back();
      if (!(x & NODE)) {
        leaf(x);
        continue;
      }
      u32 id = x & ~NODE;
      if (num[id]) continue;
      ord.push_back(id);
      num[id] = (u32)ord.size();
      st.push_back(nodes[id].r);
      st.push_back(nodes[id].l);
    }
  } else
    leaf(root);
  u64 N = std::max<u64>(1, ord.size()), top = N + 16 + packer.out.size();
  int bits = top <= (1u << 24) - 1 ? 24 : top <= (1u << 28) - 1 ? 28 : 32;
  if (top >> 32) die("too large");
  Out o;
  o.nodes = N;
  o.data = packer.out.size();
  o.bits = bits;
  o.bytes.resize(N * (u64)bits / 4);
  u8 *w = (u8 *)&o.bytes[0];
  auto rec = [&](u32 x) -> u32 {
    return x & NODE ? num[x & ~NODE] - 1 : x ? (u32)N + 16 + off[x] : (u32)N;
  };
  for (u64 i = 0; i < N; i++) {
    u32 l, r;
    if (ord.empty())
      l = r = rec(root);
    else {
      l = rec(nodes[ord[i]].l);
      r = rec(nodes[ord[i]].r);
    }
    if (bits == 24) {
      w[0] = (u8)(l >> 16);
      w[1] = (u8)(l >> 8);
      w[2] = (u8)l;
      w[3] = (u8)(r >> 16);
      w[4] = (u8)(r >> 8);
      w[5] = (u8)r;
      w += 6;
    } else if (bits == 28) {
      w[0] = (u8)(l >> 16);
      w[1] = (u8)(l >> 8);
      w[2] = (u8)l;
      w[3] = (u8)((l >> 24) << 4 | r >> 24);
      w[4] = (u8)(r >> 16);
      w[5] = (u8)(r >> 8);
      w[6] = (u8)r;
      w += 7;
    } else {
      for (int k = 0; k < 4; k++) {
        w[k] = (u8)(l >> (24 - 8 * k));
        w[4 + k] = (u8)(r >> (24 - 8 * k));
      }
      w += 8;
    }
  }
  o.bytes.append(16, '\0');
  o.bytes += packer.out;
  o.bytes += "\xAB\xCD\xEFMaxMind.com";
  string &b = o.bytes;
  head(b, 7, 9);
  text(b, "binary_format_major_version");
  uint_(b, 5, 2);
  text(b, "binary_format_minor_version");
  uint_(b, 5, 0);
  text(b, "build_epoch");
  uint_(b, 9, epoch);
  text(b, "database_type");
  text(b, type);
  text(b, "description");
  head(b, 7, 1);
  text(b, "en");
  text(b, type);
  text(b, "ip_version");
  uint_(b, 5, 6);
  text(b, "languages");
  head(b, 11, 1);
  text(b, "en");
  text(b, "node_count");
  uint_(b, 6, N);
  text(b, "record_size");
  uint_(b, 5, (u64)bits);
  return o;
}
