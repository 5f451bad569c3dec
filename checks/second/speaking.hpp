// Which place each address has: ascending segments of one place each, and none where there is none.
#pragma once
#include "sources.hpp"

#pragma pack(push, 4)
struct Segment {
  u128 first, last;
  u32 leaf;
};
#pragma pack(pop)
// One segment more, or the last one longer.
static void push(vector<Segment> &v, u128 a, u128 b, u32 x) {
  if (!v.empty() && v.back().leaf == x && v.back().last + 1 == a)
    v.back().last = b;
  else
    v.push_back({a, b, x});
}

// Of ranges in the order of their rank, the best first: segments whose number is the rank of the
// best range that holds them.
static vector<Segment> sweep(const vector<Range> &rs) {
  vector<u32> by(rs.size());
  for (u32 i = 0; i < by.size(); i++) by[i] = i;
  std::sort(by.begin(), by.end(), [&](u32 a, u32 b) {
    return rs[a].first != rs[b].first ? rs[a].first < rs[b].first : a < b;
  });
  vector<Segment> out;
  out.reserve(rs.size() * 2);
  vector<u32> heap;
  auto gt = [](u32 a, u32 b) { return a > b; };
  size_t i = 0;
  u128 cur = 0;
  while (i < by.size() || !heap.empty()) {
    while (!heap.empty() && rs[heap[0]].last < cur) {
      std::pop_heap(heap.begin(), heap.end(), gt);
      heap.pop_back();
    }
    if (heap.empty()) {
      if (i >= by.size()) break;
      cur = rs[by[i]].first;
    }
    while (i < by.size() && rs[by[i]].first <= cur) {
      heap.push_back(by[i++]);
      std::push_heap(heap.begin(), heap.end(), gt);
    }
    u32 top = heap[0];
    u128 end = rs[top].last;
    if (i < by.size() && rs[by[i]].first <= end) end = rs[by[i]].first - 1;
    push(out, cur, end, top);
    if (end == ALL1) break;
    cur = end + 1;
  }
  return out;
}

// What the upper list says, and where it says nothing, what the lower one says.
static vector<Segment> overlay(const vector<Segment> &top, vector<Segment> &&low) {
  if (top.empty()) return std::move(low);
  if (low.empty()) {
    vector<Segment> c(top);
    return c;
  }
  vector<Segment> out;
  out.reserve(top.size() + low.size());
  size_t j = 0;
  u128 from = 0;
  bool more = true;
  auto lower = [&](u128 a, u128 b) { // the part of the lower list from a to b
    while (j < low.size() && low[j].last < a) j++;
    for (size_t k = j; k < low.size() && low[k].first <= b; k++)
      push(out, std::max(a, low[k].first), std::min(b, low[k].last), low[k].leaf);
  };
  for (auto &t : top) {
    if (t.first > from) lower(from, t.first - 1);
    push(out, t.first, t.last, t.leaf);
    if (t.last == ALL1) {
      more = false;
      break;
    }
    from = t.last + 1;
  }
  if (more) lower(from, ALL1);
  return out;
}

// The delegation that counts at each address: the narrowest, the lowest, the first country.
static vector<Segment> delegated(const Sources &sources) {
  vector<const Delegation *> ranked;
  for (auto &[slot, rows] : sources.stats)
    for (auto &row : rows) ranked.push_back(&row);
  std::stable_sort(ranked.begin(), ranked.end(), [](const Delegation *a, const Delegation *b) {
    u128 wide = a->r.last - a->r.first, other = b->r.last - b->r.first;
    if (wide != other) return wide < other;
    if (a->r.first != b->r.first) return a->r.first < b->r.first;
    return memcmp(a->cc, b->cc, 2) < 0;
  });
  vector<Range> ranges;
  for (auto row : ranked) ranges.push_back(ground(row->r));
  vector<Segment> segments;
  for (auto &s : sweep(ranges)) push(segments, s.first, s.last, ranked[s.leaf]->leaf);
  return segments;
}

// The override that counts at each address: the narrowest, then the lowest.
static vector<Segment> overridden(const Sources &sources) {
  vector<Override> ranked = sources.over;
  std::stable_sort(ranked.begin(), ranked.end(), [](const Override &a, const Override &b) {
    u128 wide = a.r.last - a.r.first, other = b.r.last - b.r.first;
    return wide != other ? wide < other : a.r.first < b.r.first;
  });
  vector<Range> ranges;
  for (auto &row : ranked) ranges.push_back(ground(row.r));
  vector<Segment> segments = sweep(ranges);
  for (auto &s : segments) s.leaf = ranked[s.leaf].leaf;
  return segments;
}

// What the entries of a feed inside a range say: of those that hold an address the narrowest.
static void said_inside(const vector<Entry> &entries, Range range, vector<Segment> &out) {
  vector<std::pair<u128, u32>> open; // entries that hold the next address: their last one, and leaf
  u128 from = 0;
  auto said_up_to = [&](u128 to) {
    while (!open.empty() && from <= to) {
      u128 end = std::min(to, open.back().first);
      if (end >= from) {
        push(out, from, end, open.back().second);
        if (end == ALL1) {
          open.clear();
          return;
        }
        from = end + 1;
      }
      if (open.back().first > to) break;
      open.pop_back();
    }
  };
  out.clear();
  auto it = std::lower_bound(entries.begin(), entries.end(), range.first,
                             [](const Entry &e, u128 a) { return e.first < a; });
  for (; it != entries.end() && it->first <= range.last; ++it) {
    u128 last = it->first | below(it->len);
    if (last > range.last) continue;
    if (it->first) said_up_to(it->first - 1);
    from = it->first;
    open.push_back({last, it->leaf});
  }
  said_up_to(ALL1);
}

// The references in the order in which they speak: the narrowest, the latest, the lowest, the
// first URL.
static vector<const Reference *> ranked_references(const Sources &sources) {
  vector<const Reference *> ranked;
  for (auto &[slot, rows] : sources.dumps)
    for (auto &row : rows) ranked.push_back(&row);
  std::stable_sort(ranked.begin(), ranked.end(), [](const Reference *a, const Reference *b) {
    u128 wide = a->r.last - a->r.first, other = b->r.last - b->r.first;
    if (wide != other) return wide < other;
    if (a->modified != b->modified) return a->modified > b->modified;
    if (a->r.first != b->r.first) return a->r.first < b->r.first;
    return a->url < b->url;
  });
  return ranked;
}

// The entry that counts at each address: of the feed of the reference that speaks there.
static vector<Segment> said(const Sources &sources) {
  vector<const Reference *> ranked = ranked_references(sources);
  vector<Range> ranges;
  for (auto reference : ranked) ranges.push_back(ground(reference->r));
  vector<Segment> spoken = sweep(ranges), inside, segments;
  // Segments by their reference, and then by place.
  vector<u32> order(spoken.size());
  for (u32 i = 0; i < order.size(); i++) order[i] = i;
  std::stable_sort(order.begin(), order.end(),
                   [&](u32 a, u32 b) { return spoken[a].leaf < spoken[b].leaf; });
  for (size_t i = 0; i < order.size();) {
    const Reference &speaker = *ranked[spoken[order[i]].leaf];
    size_t end = i;
    while (end < order.size() && spoken[order[end]].leaf == spoken[order[i]].leaf) end++;
    auto feed = sources.feeds.find(speaker.url);
    if (feed != sources.feeds.end()) {
      said_inside(feed->second, speaker.r, inside);
      size_t k = 0;
      for (size_t at = i; at < end; at++) {
        const Segment &s = spoken[order[at]];
        while (k < inside.size() && inside[k].last < s.first) k++;
        for (size_t z = k; z < inside.size() && inside[z].first <= s.last; z++)
          segments.push_back({std::max(s.first, inside[z].first), std::min(s.last, inside[z].last),
                              inside[z].leaf});
      }
    }
    i = end;
  }
  auto less = [](const Segment &a, const Segment &b) { return a.first < b.first; };
  if (!std::is_sorted(segments.begin(), segments.end(), less))
    std::sort(segments.begin(), segments.end(), less);
  return segments;
}

// What all sources together say: an override, else an entry, else a delegation.
static vector<Segment> spoken_places(const Sources &sources) {
  vector<Segment> all = overlay(overridden(sources), overlay(said(sources), delegated(sources)));
  auto none = [](const Segment &s) { return s.leaf == 0; };
  all.erase(std::remove_if(all.begin(), all.end(), none), all.end());
  return all;
}
