// Makes hostile feeds, and honest ones beside them: as many lines, texts of the same lengths.
// It knows how the program mixes texts and how the toolchain's tables hash, so its keys crowd any
// table that rests on these: they have one mark, or one hash.
//
//   hostile FAMILY COUNT [honest] > feed.csv
//   hostile words COUNT | gzip -9n > checks/hostile/words.gz
//
// ranges  prefixes of one hash, falling
// slots   addresses that are counted in one of the slots in which lines of one range are looked for
// places  places of one mark, whose cities begin with the same 24 letters
// texts   cities of one mark, so that their places have one too
// packed  cities whose spellings in a data section have one hash
// cache   six cities in turn, of one mark and with tails of one slot: more than have slots
// quoted  the same cities in quotes, so that no line is told by its tail
// words   what is searched for feeds of so many lines, for where nothing can be compiled
#include <cstdint>
#include <cstdio>
#include <cstdlib>
#include <cstring>
#include <string>
#include <vector>

using std::string;
using u64 = uint64_t;
using u128 = unsigned __int128;
using strings = std::vector<string>;

static const u64 MULTIPLIER = 0x9e3779b97f4a7c15;

static u64 folded(u64 a, u64 b) {
    u128 product = (u128)a * b;
    return (u64)product ^ (u64)(product >> 64);
}

static u64 word(const unsigned char *at) {
    u64 found;
    memcpy(&found, at, 8);
    return found;
}

static u64 half_word(const unsigned char *at) {
    uint32_t found;
    memcpy(&found, at, 4);
    return found;
}

static const unsigned char *bytes_of(const string &text) {
    return (const unsigned char *)text.data();
}

static string spelled(u64 number) { return string((const char *)&number, 8); }

// The mark of a line's tail of eight bytes or more: its last eight count once more.
static u64 tail_mark(const string &tail) {
    u64 mark = tail.size();
    for (size_t at = 0; at + 8 <= tail.size(); at += 8)
        mark = folded(mark ^ word(bytes_of(tail) + at), MULTIPLIER);
    return folded(mark ^ word(bytes_of(tail) + tail.size() - 8), MULTIPLIER);
}

// The hasher of the toolchain's tables.
struct Fold {
    u64 state = 0x243f6a8885a308d3;

    void write(const unsigned char *bytes, size_t len) {
        if (len <= 8) {
            u64 read = 0;
            if (len >= 4) read = half_word(bytes) | half_word(bytes + len - 4) << 32;
            else if (len > 0)
                read = bytes[0] | (u64)bytes[len / 2] << 8 | (u64)bytes[len - 1] << 16;
            state = folded(state ^ read, MULTIPLIER ^ (2 * len));
            return;
        }
        u64 now = state + len;
        for (size_t at = 0; len - at > 16; at += 16)
            now = folded(word(bytes + at) ^ now, word(bytes + at + 8) ^ MULTIPLIER);
        size_t last = len < 16 ? 0 : len - 16;
        state = folded(word(bytes + last) ^ now, word(bytes + len - 8) ^ MULTIPLIER);
    }

    void write(const string &text) { write(bytes_of(text), text.size()); }
};

static u64 seed = 1;

static u64 next() {
    seed ^= seed << 13;
    seed ^= seed >> 7;
    seed ^= seed << 17;
    return seed;
}

static string letters(size_t count) {
    string text(count, 'a');
    for (char &letter : text) letter = 'a' + next() % 26;
    return text;
}

static bool is_plain(u64 number) {
    for (int i = 0; i < 8; i++) {
        unsigned char byte = number >> (8 * i);
        if (byte < 0x24 || byte > 0x7e || byte == ',') return false;
    }
    return true;
}

// Sixteen letters behind which the hasher's state is a plain text. With that text behind them the
// state is 0, whatever the last eight bytes are.
static string trap() {
    for (;;) {
        string front = letters(16);
        Fold fold;
        for (const char *text : {"DE", ""}) fold.write(text);
        u64 now = fold.state + 32;
        now = folded(word(bytes_of(front)) ^ now, word(bytes_of(front) + 8) ^ MULTIPLIER);
        if (is_plain(now)) return front + spelled(now);
    }
}

// The first 22 of 30 letters: the spelling of such a text has a hash of 0, whatever the last eight
// are.
static string packed_trap() {
    for (;;) {
        string front = letters(14), spelling = "\x5d\x01" + front;
        u64 now = Fold().state + 32;
        now = folded(word(bytes_of(spelling)) ^ now, word(bytes_of(spelling) + 8) ^ MULTIPLIER);
        if (is_plain(now)) return front + spelled(now);
    }
}

// The next of the texts of 16 letters that have one mark: what the first eight letters come to is
// taken back by the last eight.
static string of_one_mark() {
    static string front = letters(8);
    for (;;) {
        for (size_t at = 0; at < 8 && ++front[at] > 'z'; at++) front[at] = 'a';
        u64 last = folded(16 ^ word(bytes_of(front)), MULTIPLIER) ^ 0x123456789abcdef;
        if (is_plain(last)) return front + spelled(last);
    }
}

// As many such texts, whose lines have tails that lead to one of 16,384 slots: too many for it.
static const unsigned TURNS = 6;

static strings crowded_turns() {
    std::vector<strings> slots(1 << 14);
    for (;;) {
        string city = of_one_mark();
        auto &slot = slots[tail_mark("DE,," + city + ",") % slots.size()];
        slot.push_back(city);
        if (slot.size() == TURNS) return slot;
    }
}

static void put_ranges(u64 count, bool honest) {
    const char *front = honest ? "2001:db8:7f4a:7c15" : "9e37:79b9:7f4a:7c15";
    for (unsigned n = count; n > 0; n--)
        printf("%s:1:%x:%x:1/128,DE,,Berlin,\n", front, n >> 16, n & 0xffff);
}

// The slot of an address is the upper part of its double times the golden ratio; so what stands in
// the first slot is found by the inverse of that.
static void put_slots(u64 count, bool honest) {
    const u128 ratio = (u128)0x9e3779b97f4a7c15 << 64 | 0xf39cc0605cedc835;
    u128 inverse = 1;
    for (int turn = 0; turn < 7; turn++) inverse *= 2 - ratio * inverse;
    const u128 step = (~(u128)0 / (32 * count + 1) / count) & ~(u128)1;
    for (u64 n = 1; n <= count; n++) {
        u128 address = (step * n + 2) * (honest ? ratio : inverse) >> 1;
        for (int part = 7; part >= 0; part--)
            printf("%x%s", (unsigned)(address >> 16 * part) & 0xffff, part > 0 ? ":" : "");
        printf("/128,DE,,Berlin,\n");
    }
}

static void put_city(unsigned n, const string &city, const char *quote = "") {
    printf("11.%u.%u.%u/32,DE,,%s%s%s,\n", n >> 16, n >> 8 & 255, n & 255, quote,
           city.c_str(), quote);
}

static void put_words(unsigned count) {
    printf("places %s\npacked %s\n", trap().c_str(), packed_trap().c_str());
    for (const string &city : crowded_turns()) printf("cache %s\n", city.c_str());
    for (unsigned n = 0; n < count; n++) printf("texts %s\n", of_one_mark().c_str());
}

int main(int count_of_words, char **words) {
    if (count_of_words < 3) return fputs("usage: hostile FAMILY COUNT [honest]\n", stderr), 2;
    string family = words[1];
    unsigned count = strtoul(words[2], nullptr, 10);
    bool honest = count_of_words > 3;
    if (family == "words") return put_words(count), 0;
    if (family == "ranges") return put_ranges(count, honest), 0;
    if (family == "slots") return put_slots(count, honest), 0;
    size_t length = family == "places" ? 32 : family == "packed" ? 30 : 16;
    string front;
    strings turns;
    if (!honest && family == "places") front = trap();
    if (!honest && family == "packed") front = packed_trap();
    bool in_turn = family == "cache" || family == "quoted";
    if (in_turn && !honest) turns = crowded_turns();
    while (in_turn && turns.size() < TURNS) turns.push_back(letters(16));
    for (unsigned n = 0; n < count; n++) {
        if (in_turn) put_city(n, turns[n % TURNS], family == "quoted" ? "\"" : "");
        else if (honest) put_city(n, letters(length));
        else if (!front.empty()) put_city(n, front + letters(8));
        else if (family == "texts") put_city(n, of_one_mark());
        else return fprintf(stderr, "hostile: no family %s\n", family.c_str()), 2;
    }
}
