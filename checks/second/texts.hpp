// Texts: lines of files, blanks, numbers and UTF-8.
#pragma once
#include <algorithm>
#include <cstdint>
#include <cstdio>
#include <cstdlib>
#include <cstring>
#include <fcntl.h>
#include <map>
#include <string>
#include <string_view>
#include <sys/stat.h>
#include <unistd.h>
#include <unordered_map>
#include <vector>
using u8 = uint8_t;
using u32 = uint32_t;
using u64 = uint64_t;
using u128 = unsigned __int128;
using std::string;
using std::string_view;
using std::vector;

[[noreturn]] static void die(const string &s) {
  fprintf(stderr, "second: %s\n", s.c_str());
  exit(1);
}

static size_t size_of(const string &n) {
  struct stat st;
  return stat(n.c_str(), &st) ? 0 : (size_t)st.st_size;
}

static bool blank(char c) {
  return c == ' ' || c == '\t';
}

static string_view trim(string_view s) {
  while (!s.empty() && blank(s.front())) s.remove_prefix(1);
  while (!s.empty() && blank(s.back())) s.remove_suffix(1);
  return s;
}

static string_view cut(string_view s) {
  auto p = (const char *)memchr(s.data(), '#', s.size());
  return p ? s.substr(0, p - s.data()) : s;
}

// The lines of a file, which is read in pieces.
struct Lines {
  int fd = -1;
  bool start = true;
  string buf;
  string_view s;
  static constexpr size_t PIECE = 1 << 16;
  explicit Lines(const string &name) {
    fd = open(name.c_str(), O_RDONLY);
    if (fd < 0) die("missing " + name);
    buf.resize(2 * PIECE);
    s = string_view(buf.data(), 0);
    more();
  }
  Lines(const Lines &) = delete;
  ~Lines() {
    if (fd >= 0) close(fd);
  }
  bool more() {
    if (fd < 0) return false;
    size_t n = s.size();
    if (n + PIECE > buf.size()) {
      string b(2 * n + 2 * PIECE, 0);
      memcpy(&b[0], s.data(), n);
      buf.swap(b);
    } else
      memmove(&buf[0], s.data(), n);
    ssize_t k = read(fd, &buf[n], buf.size() - n);
    if (k <= 0) {
      close(fd);
      fd = -1;
      k = 0;
    }
    s = string_view(buf.data(), n + (size_t)k);
    return k > 0;
  }
  bool next(string_view &l) {
    if (start) {
      start = false;
      if (s.substr(0, 3) == "\xEF\xBB\xBF") s.remove_prefix(3);
    }
    const char *p;
    while (!(p = s.empty() ? nullptr : (const char *)memchr(s.data(), '\n', s.size())) && more()) {
    }
    if (s.empty()) return false;
    if (p) {
      l = s.substr(0, (size_t)(p - s.data()));
      s.remove_prefix((size_t)(p - s.data()) + 1);
    } else {
      l = s;
      s = {};
    }
    if (!l.empty() && l.back() == '\r') l.remove_suffix(1);
    return true;
  }
};

static bool alpha(char c) {
  return (c | 32) >= 'a' && (c | 32) <= 'z';
}

static bool digit(char c) {
  return c >= '0' && c <= '9';
}

static bool number(string_view s, size_t max, u64 &out) {
  if (s.empty() || s.size() > max) return false;
  out = 0;
  for (char c : s) {
    if (!digit(c)) return false;
    out = out * 10 + (u64)(c - '0');
  }
  return true;
}

static bool utf8(string_view v) {
  size_t i = 0, n = v.size();
  while (i + 8 <= n) {
    u64 x;
    memcpy(&x, v.data() + i, 8);
    if (x & 0x8080808080808080ull) break;
    i += 8;
  }
  while (i < n) {
    u8 c = (u8)v[i];
    if (c < 0x80) {
      i++;
      continue;
    }
    int k = c >= 0xC2 && c < 0xE0 ? 1 : c >= 0xE0 && c < 0xF0 ? 2 : c >= 0xF0 && c < 0xF5 ? 3 : 0;
    if (!k || i + (size_t)k >= n) return false;
    u32 cp = c & (0x3F >> k);
    for (int j = 1; j <= k; j++) {
      u8 d = (u8)v[i + j];
      if ((d & 0xC0) != 0x80) return false;
      cp = cp << 6 | (d & 0x3F);
    }
    if ((k == 2 && (cp < 0x800 || (cp >= 0xD800 && cp < 0xE000))) ||
        (k == 3 && (cp < 0x10000 || cp > 0x10FFFF)))
      return false;
    i += k + 1;
  }
  return true;
}
