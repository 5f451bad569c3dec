// A second program for the command `build`, which shares nothing with the first (README.md).
#include "file.hpp"

// The ranges in which two lists of segments differ, disjoint and ascending.
static vector<Range> changed(const vector<Segment> &old, const vector<Segment> &now) {
  vector<Range> found, merged;
  size_t i = 0, j = 0;
  while (i < old.size() || j < now.size()) {
    bool both = i < old.size() && j < now.size();
    if (both && old[i].first == now[j].first && old[i].last == now[j].last &&
        old[i].leaf == now[j].leaf) {
      i++;
      j++;
      continue;
    }
    bool goes = j >= now.size() || (both && old[i].last <= now[j].last);
    bool comes = i >= old.size() || (both && now[j].last <= old[i].last);
    u128 first = goes && comes ? std::min(old[i].first, now[j].first)
                 : goes        ? old[i].first
                               : now[j].first;
    found.push_back({first, goes ? old[i].last : now[j].last});
    i += goes;
    j += comes;
  }
  std::sort(found.begin(), found.end(),
            [](const Range &x, const Range &y) { return x.first < y.first; });
  for (auto &x : found)
    if (!merged.empty() && x.first <= merged.back().last)
      merged.back().last = std::max(merged.back().last, x.last);
    else
      merged.push_back(x);
  return merged;
}

// The sources in force, and the tree of the last file.
struct Session {
  Sources sources;
  vector<Segment> old;
  u32 root = 0;
  bool any = false;
  u64 epoch = 0;
  string type = "Geofeed-City";
  void emit_to(const string &name) {
    vector<Segment> now = spoken_places(sources);
    const Segment *b = now.data();
    const Segment *e = b + now.size();
    if (!any) {
      const Segment *c = b;
      nodes.reserve(now.size() + now.size() / 2 + 4096);
      {
        size_t t = 1 << 14;
        while (t < now.size() * 2) t *= 2;
        pair_table.assign(std::min(t, (size_t)1 << 24), 0);
      }
      root = build(b, e, c, 0, 0);
    } else {
      vector<Range> m = changed(old, now);
      size_t k = 0;
      if (!m.empty()) root = repaint(root, b, e, m, k, 0, 0);
    }
    old.swap(now);
    any = true;
    u32 v4 = under(root, 0, 96);
    u32 out = graft(graft(root, (u128)0xFFFF << 32, 96, v4), (u128)0x2002 << 112, 16, v4);
    Out o = emit(out, epoch, type);
    int fd = open(name.c_str(), O_WRONLY | O_CREAT | O_TRUNC, 0666);
    if (fd < 0) die("write " + name);
    for (size_t at = 0; at < o.bytes.size();) {
      ssize_t k = write(fd, o.bytes.data() + at, o.bytes.size() - at);
      if (k <= 0) die("write " + name);
      at += (size_t)k;
    }
    close(fd);
    printf("emit %s nodes %llu data %llu bits %d bytes %llu\n", name.c_str(),
           (unsigned long long)o.nodes, (unsigned long long)o.data, o.bits,
           (unsigned long long)o.bytes.size());
    fflush(stdout);
  }
};

// Does the lines of a job. One that the first program refuses is none that this is made for.
static void do_job(const string &job) {
  Session session;
  Lines lines(job);
  string_view l;
  while (lines.next(l)) {
    vector<string> w;
    string_view s = trim(l);
    if (s.empty() || s[0] == '#') continue;
    while (!s.empty()) {
      size_t e = s.find_first_of(" \t");
      w.emplace_back(s.substr(0, e));
      s = e == s.npos ? string_view() : trim(s.substr(e));
    }
    if (w[0] == "epoch")
      session.epoch = strtoull(w[1].c_str(), nullptr, 10);
    else if (w[0] == "type")
      session.type = w[1];
    else if (w[0] == "pieces" || w[0] == "report")
      ;
    else if (w[0] == "rpsl")
      session.sources.dumps[w[1]] = read_dump(w[1], w[2]);
    else if (w[0] == "stats")
      session.sources.stats[w[1]] = read_stats(w[2]);
    else if (w[0] == "feed") {
      string u;
      if (!url_of(w[1], u)) die("job url");
      session.sources.feeds.erase(u);
      session.sources.feeds[u] = read_feed(w[2], size_of(w[2]));
    } else if (w[0] == "overrides")
      session.sources.over = read_over(w[1]);
    else if (w[0] == "drop") {
      if (w[1] == "rpsl")
        session.sources.dumps.erase(w[2]);
      else if (w[1] == "stats")
        session.sources.stats.erase(w[2]);
      else if (w[1] == "feed") {
        string u;
        url_of(w[2], u);
        session.sources.feeds.erase(u);
      } else
        session.sources.over.clear();
    } else if (w[0] == "emit")
      session.emit_to(w[1]);
    else
      die("job line " + w[0]);
  }
}

int main(int argc, char **argv) {
  if (argc != 3 || string(argv[1]) != "build") {
    fprintf(stderr, "usage: second build JOB\n");
    return 2;
  }
  do_job(argv[2]);
  return 0;
}
