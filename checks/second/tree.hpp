// The search tree: equal subtrees are one node.
#pragma once
#include "speaking.hpp"

static const u32 NODE = 0x80000000u; // a record: NODE | id, or a leaf number

struct Pair {
  u32 l, r;
};

static vector<Pair> nodes;

static vector<u32> pair_table(1 << 14, 0); // id + 1

static inline size_t pair_hash(u32 l, u32 r) {
  u64 k = (u64)l << 32 | r;
  k *= 0x9E3779B97F4A7C15ull;
  k ^= k >> 32;
  k *= 0xD6E8FEB86659FD93ull;
  return (size_t)(k >> 20);
}

// The record of two records: a node, or the leaf that both are.
static u32 node_of(u32 l, u32 r) {
  if (l == r && !(l & NODE)) return l;
  size_t m = pair_table.size() - 1, i = pair_hash(l, r) & m;
  for (; pair_table[i]; i = (i + 1) & m) {
    const Pair &p = nodes[pair_table[i] - 1];
    if (p.l == l && p.r == r) return NODE | (pair_table[i] - 1);
  }
  u32 id = (u32)nodes.size();
  nodes.push_back({l, r});
  pair_table[i] = id + 1;
  if (nodes.size() * 2 > pair_table.size()) {
    vector<u32> t(pair_table.size() * 2, 0);
    m = t.size() - 1;
    for (u32 j = 0; j < nodes.size(); j++) {
      size_t x = pair_hash(nodes[j].l, nodes[j].r) & m;
      while (t[x]) x = (x + 1) & m;
      t[x] = j + 1;
    }
    pair_table.swap(t);
  }
  return NODE | id;
}

// The tree of segments from c on, under the first bits of an address.
static u32 build(const Segment *s, const Segment *e, const Segment *&c, u128 first, int len) {
  u128 last = first | below(len);
  if (c == e || c->first > last) return 0;
  if (c->first <= first && c->last >= last) {
    u32 v = c->leaf;
    if (c->last == last) ++c;
    return v;
  }
  u32 l = build(s, e, c, first, len + 1);
  return node_of(l, build(s, e, c, first | (u128)1 << (127 - len), len + 1));
}

// The tree built anew where a change lies.
static u32 repaint(u32 root, const Segment *s, const Segment *e, const vector<Range> &ch, size_t &k,
                   u128 first, int len) {
  u128 last = first | below(len);
  while (k < ch.size() && ch[k].last < first) k++;
  if (k >= ch.size() || ch[k].first > last) return root;
  const Segment *c =
      std::lower_bound(s, e, first, [](const Segment &x, u128 a) { return x.last < a; });
  if (c == e || c->first > last) return 0;
  if (c->first <= first && c->last >= last) return c->leaf;
  u32 l = root & NODE ? nodes[root & ~NODE].l : root,
      r = root & NODE ? nodes[root & ~NODE].r : root;
  l = repaint(l, s, e, ch, k, first, len + 1);
  u128 mid = first | (u128)1 << (127 - len);
  size_t k2 = k;
  return node_of(l, repaint(r, s, e, ch, k2, mid, len + 1));
}

// The record under the first bits of an address.
static u32 under(u32 root, u128 a, int len) {
  for (int i = 0; i < len && (root & NODE); i++)
    root = (a >> (127 - i)) & 1 ? nodes[root & ~NODE].r : nodes[root & ~NODE].l;
  return root;
}

// The tree with another record under the first bits of an address.
static u32 graft(u32 root, u128 a, int len, u32 rec, int i = 0) {
  if (i == len) return rec;
  u32 l = root & NODE ? nodes[root & ~NODE].l : root,
      r = root & NODE ? nodes[root & ~NODE].r : root;
  if ((a >> (127 - i)) & 1) return node_of(l, graft(r, a, len, rec, i + 1));
  u32 x = graft(l, a, len, rec, i + 1);
  return node_of(x, r);
}
