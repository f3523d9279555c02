// A plain C++ program for comparison: `solve` on a marriage in which who is listed lists back. It checks nothing.
//
//     g++ -O2 -o plain bench/plain.cpp && ./plain < instance.txt
//
// It prints what `matchbench solve` prints, so that both can be timed on one machine over the same text.

#include <cstdint>
#include <cstring>
#include <string>
#include <unistd.h>
#include <vector>

using std::vector;

// The names of one side, numbered as they come, in a table with open addresses.
struct Names {
    struct Name { const char *text; uint32_t length; };
    vector<Name> names;
    vector<uint32_t> slots = vector<uint32_t>(1 << 14);

    uint32_t number(const char *text, uint32_t length) {
        uint64_t hash = 14695981039346656037u;
        for (uint32_t i = 0; i < length; i++) hash = (hash ^ (uint8_t)text[i]) * 1099511628211u;
        for (size_t slot = (hash ^ hash >> 32) & (slots.size() - 1);; slot = (slot + 1) & (slots.size() - 1)) {
            uint32_t known = slots[slot];
            if (known == 0) {
                names.push_back({text, length});
                slots[slot] = names.size();
                return names.size() - 1;
            }
            const Name &name = names[known - 1];
            if (name.length == length && memcmp(name.text, text, length) == 0) return known - 1;
        }
    }
};

// The lists of one side, one behind another, by the number of their owners.
struct Lists {
    vector<uint32_t> start, length, entries;

    void begin(uint32_t owner) {
        if (owner >= start.size()) start.resize(owner + 1), length.resize(owner + 1);
        start[owner] = entries.size();
    }
};

int main() {
    vector<char> text;
    size_t filled = 0;
    for (ssize_t n = 1; n > 0; filled += n) {
        if (text.size() < filled + 65536) text.resize(2 * text.size() + 65536);
        n = read(0, &text[filled], 65536);
        if (n < 0) return 1;
    }
    Names names[2];
    Lists lists[2];
    vector<uint32_t> order;
    for (const char *at = text.data(), *end = at + filled; at < end;) {
        const char *stop = (const char *)memchr(at, '\n', end - at);
        if (!stop) stop = end;
        if (stop - at > 2 && at[1] == ' ' && (at[0] == 'p' || at[0] == 'r')) {
            int side = at[0] == 'r';
            bool owned = false;
            uint32_t owner = 0;
            for (at += 2; at < stop;) {
                while (at < stop && (*at == ' ' || *at == ':')) at++;
                const char *from = at;
                while (at < stop && *at != ' ' && *at != ':') at++;
                if (at == from) break;
                if (owned) {
                    lists[side].entries.push_back(names[!side].number(from, at - from));
                } else {
                    owned = true;
                    owner = names[side].number(from, at - from);
                    lists[side].begin(owner);
                    if (side == 0) order.push_back(owner);
                }
            }
            lists[side].length[owner] = lists[side].entries.size() - lists[side].start[owner];
        }
        at = stop + 1;
    }
    const Lists &ps = lists[0], &rs = lists[1];
    uint32_t proposers = ps.start.size(), reviewers = rs.start.size(), size = ps.entries.size();
    // Who lists each reviewer, and where.
    vector<uint32_t> first(reviewers + 1), by(size), at(size), cross(size), note(proposers);
    for (uint32_t r : ps.entries) first[r + 1]++;
    for (uint32_t r = 0; r < reviewers; r++) first[r + 1] += first[r];
    vector<uint32_t> next(first.begin(), first.end() - 1);
    for (uint32_t p = 0; p < proposers; p++)
        for (uint32_t i = ps.start[p]; i < ps.start[p] + ps.length[p]; i++) {
            uint32_t k = next[ps.entries[i]]++;
            by[k] = p, at[k] = i;
        }
    for (uint32_t r = 0; r < reviewers; r++) {
        for (uint32_t j = 0; j < rs.length[r]; j++) note[rs.entries[rs.start[r] + j]] = j;
        for (uint32_t k = first[r]; k < first[r + 1]; k++) cross[at[k]] = note[by[k]];
    }
    // Deferred acceptance.
    const uint32_t nobody = UINT32_MAX;
    vector<uint32_t> place(proposers), held(reviewers, nobody);
    for (uint32_t q = 0; q < proposers; q++)
        for (uint32_t p = q; place[p] < ps.length[p];) {
            uint32_t i = ps.start[p] + place[p], r = ps.entries[i];
            if (held[r] == nobody) {
                held[r] = cross[i];
                break;
            }
            if (cross[i] < held[r]) {
                uint32_t other = rs.entries[rs.start[r] + held[r]];
                held[r] = cross[i];
                p = other;
            }
            place[p]++;
        }
    std::string out = "answer solve side=proposers\n";
    for (uint32_t p : order)
        if (place[p] < ps.length[p]) {
            const Names::Name &a = names[0].names[p], &b = names[1].names[ps.entries[ps.start[p] + place[p]]];
            out.append("pair ").append(a.text, a.length).append(" ").append(b.text, b.length).append("\n");
        }
    out += "end\n";
    for (size_t done = 0; done < out.size();) {
        ssize_t n = write(1, out.data() + done, out.size() - done);
        if (n <= 0) return 1;
        done += n;
    }
}
