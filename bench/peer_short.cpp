// The same job as peer.cpp by the fastest exact way known here, to compare times with; nothing is proved. Units are sent along
// a line with one place for each maximal set of bookings that run at one moment (Carlisle and Lloyd 1995). A search keeps places
// that are reached at reduced length 0 on a stack, puts the others into a heap once that is empty, drops each label that is not
// below that of the last place, and ends there. One search over the line of all moments gives the least prices.
// Usage: peer_short CHANNELS < BOOKINGS > PLAN
#include <algorithm>
#include <charconv>
#include <cstdint>
#include <cstdio>
#include <cstdlib>
#include <functional>
#include <queue>
#include <string>
#include <string_view>
#include <utility>
#include <vector>

struct Booking {
    int start, end;
    int64_t pay;
    std::string_view number;
};

static std::string read_all() {
    std::string text;
    char part[1 << 16];
    while (size_t got = std::fread(part, 1, sizeof part, stdin)) text.append(part, got);
    return text;
}

static int two_digits(const char* at) { return (at[0] - '0') * 10 + at[1] - '0'; }

static int second_of(const char* stamp) {
    return two_digits(stamp + 11) * 3600 + two_digits(stamp + 14) * 60 + two_digits(stamp + 17);
}

static std::vector<Booking> read_bookings(const std::string& text) {
    std::vector<Booking> bookings;
    const char* at = text.data();
    const char* end = at + text.size();
    at = std::find(at, end, '\n') + 1;
    while (at < end) {
        const char* second = std::find(at, end, ',') + 1;
        const char* third = std::find(second, end, ',') + 1;
        const char* fourth = std::find(third, end, ',') + 1;
        Booking b{second_of(at), second_of(second), 0, std::string_view(third, fourth - 1 - third)};
        at = std::from_chars(fourth, end, b.pay).ptr;
        bookings.push_back(b);
        at = std::find(at, end, '\n') + 1;
    }
    return bookings;
}

// One end of a row's arc: the row, and the place at the other end.
struct End {
    int row, other;
    int64_t pay;
};

// Rows grouped by a place of theirs: those of place v stand from first[v] to first[v + 1].
struct ByPlace {
    std::vector<int> first;
    std::vector<End> ends;

    ByPlace(const std::vector<int>& place_of, const std::vector<int>& other, const std::vector<Booking>& bookings, int places)
        : first(places + 1, 0), ends(place_of.size()) {
        for (int place : place_of) first[place + 1]++;
        for (int v = 0; v < places; v++) first[v + 1] += first[v];
        std::vector<int> next(first.begin(), first.end() - 1);
        for (size_t i = 0; i < place_of.size(); i++) ends[next[place_of[i]]++] = {int(i), other[i], bookings[i].pay};
    }
};

struct Line {
    int places;
    std::vector<int> from, to;
    ByPlace leaving, arriving;
    std::vector<int> idle;

    Line(int count, std::vector<int> starts, std::vector<int> ends, const std::vector<Booking>& bookings)
        : places(count), from(std::move(starts)), to(std::move(ends)), leaving(from, to, bookings, count),
          arriving(to, from, bookings, count), idle(count, 0) {}
};

constexpr int IDLE = -1, BACK = -2;

struct Search {
    std::vector<char>& carried;
    std::vector<int64_t> height, length;
    std::vector<int> before, by, stack, settled;
    std::vector<char> is_settled;

    Search(std::vector<char>& marks, int places)
        : carried(marks), height(places, 0), length(places), before(places), by(places), is_settled(places) {}

    // Distances with nothing carried: one pass, since all arcs go forward.
    void start(const Line& line) {
        for (int v = 0; v + 1 < line.places; v++) {
            height[v + 1] = std::min(height[v + 1], height[v]);
            for (int k = line.leaving.first[v]; k < line.leaving.first[v + 1]; k++) {
                const End& end = line.leaving.ends[k];
                height[end.other] = std::min(height[end.other], height[v] - end.pay);
            }
        }
    }

    // Settles the places by reduced lengths; all of them, or those that are nearer than the last one.
    void settle(const Line& line, bool all) {
        using Label = std::pair<int64_t, int>;
        std::vector<Label> heap;
        std::vector<int> fresh;
        const int last = line.places - 1;
        std::fill(length.begin(), length.end(), INT64_MAX);
        std::fill(is_settled.begin(), is_settled.end(), 0);
        stack.assign(1, 0);
        settled.clear();
        int64_t here = length[0] = 0;
        auto reach = [&](int v, int w, int64_t cost, int step) {
            const int64_t there = here + cost + height[v] - height[w];
            if (there >= length[w] || (!all && there >= length[last])) return;
            length[w] = there;
            before[w] = v;
            by[w] = step;
            (there == here ? stack : fresh).push_back(w);
        };
        while (true) {
            int v;
            if (!stack.empty()) {
                v = stack.back();
                stack.pop_back();
                if (is_settled[v]) continue;
            } else {
                for (int w : fresh)
                    if (!is_settled[w] && (all || length[w] < length[last] || w == last)) {
                        heap.push_back({length[w], w});
                        std::push_heap(heap.begin(), heap.end(), std::greater<>());
                    }
                fresh.clear();
                if (heap.empty()) break;
                std::pop_heap(heap.begin(), heap.end(), std::greater<>());
                const Label label = heap.back();
                heap.pop_back();
                v = label.second;
                if (is_settled[v] || label.first > length[v]) continue;
                here = label.first;
            }
            if (v == last && !all) break;
            is_settled[v] = 1;
            settled.push_back(v);
            for (int k = line.leaving.first[v]; k < line.leaving.first[v + 1]; k++) {
                const End& end = line.leaving.ends[k];
                if (!carried[end.row]) reach(v, end.other, -end.pay, end.row);
            }
            for (int k = line.arriving.first[v]; k < line.arriving.first[v + 1]; k++) {
                const End& end = line.arriving.ends[k];
                if (carried[end.row]) reach(v, end.other, end.pay, end.row);
            }
            if (v > 0 && line.idle[v - 1] > 0) reach(v, v - 1, 0, BACK);
            if (v < last) reach(v, v + 1, 0, IDLE);
        }
    }

    // Sends a unit along the walk that was found; the last place keeps its potential.
    void send(Line& line) {
        const int last = line.places - 1;
        for (int v : settled) height[v] += length[v] - length[last];
        for (int v = last; v != 0; v = before[v]) {
            if (by[v] == IDLE) line.idle[v - 1]++;
            else if (by[v] == BACK) line.idle[v]--;
            else carried[by[v]] ^= 1;
        }
    }
};

// For each place how many maximal sets of bookings have ended by then.
static std::vector<int> cliques(const Line& line) {
    std::vector<int> counts(line.places);
    int ended = 0;
    bool has_started = false;
    for (int v = 0; v < line.places; v++) {
        if (has_started && line.arriving.first[v] < line.arriving.first[v + 1]) {
            ended++;
            has_started = false;
        }
        if (line.leaving.first[v] < line.leaving.first[v + 1]) has_started = true;
        counts[v] = ended;
    }
    return counts;
}

static std::vector<int64_t> least_distances(Line& line, const std::vector<Booking>& bookings, std::vector<char>& carried, int units) {
    const std::vector<int> counts = cliques(line);
    std::vector<int> from(bookings.size()), to(bookings.size());
    for (size_t i = 0; i < bookings.size(); i++) {
        from[i] = counts[line.from[i]];
        to[i] = counts[line.to[i]];
    }
    Line shorter(counts.back() + 1, std::move(from), std::move(to), bookings);
    Search near(carried, shorter.places);
    near.start(shorter);
    for (int unit = 0; unit < units; unit++) {
        near.settle(shorter, false);
        near.send(shorter);
    }
    std::vector<int> change(line.places + 1, 0);
    for (size_t i = 0; i < bookings.size(); i++)
        if (carried[i]) {
            change[line.from[i]]++;
            change[line.to[i]]--;
        }
    Search whole(carried, line.places);
    int running = 0;
    for (int v = 0; v < line.places; v++) {
        running += change[v];
        line.idle[v] = units - running;
        whole.height[v] = near.height[counts[v]];
    }
    whole.settle(line, true);
    for (int v = 0; v < line.places; v++) whole.length[v] += whole.height[v];
    return whole.length;
}

struct Text {
    std::string text;

    Text& add(int64_t number) {
        char digits[24];
        text.append(digits, std::to_chars(digits, digits + sizeof digits, number).ptr);
        return *this;
    }

    Text& add(std::string_view words) {
        text.append(words);
        return *this;
    }
};

int main(int argc, char** argv) {
    const int count = argc > 1 ? std::atoi(argv[1]) : 30;
    std::vector<int> channels;
    for (int n = 1; int(channels.size()) < count; n++)
        if (n != 16) channels.push_back(n);
    const std::string source = read_all();
    const std::vector<Booking> bookings = read_bookings(source);

    std::vector<int> place(86'402, 0), moments;
    for (const Booking& b : bookings) place[b.start] = place[b.end] = 1;
    for (int t = 0; t < int(place.size()); t++)
        if (place[t]) {
            place[t] = int(moments.size());
            moments.push_back(t);
        }
    std::vector<int> starts(bookings.size()), ends(bookings.size());
    for (size_t i = 0; i < bookings.size(); i++) {
        starts[i] = place[bookings[i].start];
        ends[i] = place[bookings[i].end];
    }
    Line line(int(moments.size()), std::move(starts), std::move(ends), bookings);
    std::vector<char> carried(bookings.size(), 0);
    std::vector<int64_t> distance;
    if (!moments.empty()) distance = least_distances(line, bookings, carried, count);

    std::vector<int> until(channels.size(), 0), channel(bookings.size(), 0);
    int64_t total = 0;
    for (const End& end : line.leaving.ends) {
        const int i = end.row;
        if (!carried[i]) continue;
        size_t c = 0;
        while (until[c] > bookings[i].start) c++;
        until[c] = bookings[i].end;
        channel[i] = channels[c];
        total += bookings[i].pay;
    }
    Text out, prices;
    out.add("bx-plan 3\nchannels");
    for (int n : channels) out.add(" ").add(n);
    out.add("\nbookings ").add(int64_t(bookings.size())).add("\n");
    for (size_t i = 0; i < bookings.size(); i++) {
        const Booking& b = bookings[i];
        out.add(b.start).add(" ").add(b.end).add(" ").add(b.pay).add(" ").add(b.number).add(" ");
        if (channel[i]) out.add(channel[i]);
        else out.add("-");
        out.add(" free out\n");
    }
    int64_t priced = 0;
    for (size_t v = 0; v + 1 < moments.size(); v++)
        if (distance[v] != distance[v + 1]) {
            prices.add(moments[v]).add(" ").add(distance[v] - distance[v + 1]).add("\n");
            priced++;
        }
    out.add("prices ").add(priced).add("\n").add(prices.text).add("total ").add(total).add("\nend\n");
    std::fwrite(out.text.data(), 1, out.text.size(), stdout);
}
