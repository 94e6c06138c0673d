// The same job in plain C++, to compare times with: a booking text in UTC is read, and a plan text of version 3 is
// written. Successive shortest paths along the line of moments with potentials and a heap, all places settled; nothing is
// proved. Usage: peer CHANNELS < BOOKINGS > PLAN
#include <algorithm>
#include <cstdint>
#include <cstdio>
#include <cstdlib>
#include <iostream>
#include <queue>
#include <sstream>
#include <string>
#include <vector>

struct Booking {
    int start, end;
    int64_t pay;
    std::string number;
};

struct Arc {
    int to, back;
    int64_t cost;
    int room;
};

static int second_of(const std::string& stamp) {
    return std::stoi(stamp.substr(11, 2)) * 3600 + std::stoi(stamp.substr(14, 2)) * 60 + std::stoi(stamp.substr(17, 2));
}

static std::vector<Booking> read_bookings() {
    std::vector<Booking> bookings;
    std::string line, start, end, number, pay;
    std::getline(std::cin, line);
    while (std::getline(std::cin, line)) {
        std::istringstream fields(line);
        std::getline(fields, start, ',');
        std::getline(fields, end, ',');
        std::getline(fields, number, ',');
        std::getline(fields, pay, ',');
        bookings.push_back({second_of(start), second_of(end), std::stoll(pay), number});
    }
    return bookings;
}

struct Network {
    std::vector<std::vector<Arc>> arcs;
    std::vector<int64_t> height;

    explicit Network(size_t places) : arcs(places), height(places, 0) {}

    void add(int from, int to, int64_t cost, int room) {
        arcs[from].push_back({to, int(arcs[to].size()), cost, room});
        arcs[to].push_back({from, int(arcs[from].size()) - 1, -cost, 0});
    }

    // Distances with nothing carried: one pass, since all arcs go forward.
    void start() {
        std::vector<bool> reached(arcs.size(), false);
        reached[0] = true;
        for (size_t v = 0; v < arcs.size(); v++)
            for (const Arc& a : arcs[v])
                if (a.room > 0 && (!reached[a.to] || height[v] + a.cost < height[a.to])) {
                    reached[a.to] = true;
                    height[a.to] = height[v] + a.cost;
                }
    }

    // Distances by reduced costs, and the step by which each place was reached.
    void settle(std::vector<std::pair<int, int>>& step) {
        const int64_t far = INT64_MAX / 4;
        std::vector<int64_t> length(arcs.size(), far);
        std::priority_queue<std::pair<int64_t, int>, std::vector<std::pair<int64_t, int>>, std::greater<>> waiting;
        length[0] = 0;
        waiting.push({0, 0});
        while (!waiting.empty()) {
            auto [here, v] = waiting.top();
            waiting.pop();
            if (here > length[v]) continue;
            for (size_t i = 0; i < arcs[v].size(); i++) {
                const Arc& a = arcs[v][i];
                int64_t there = here + a.cost + height[v] - height[a.to];
                if (a.room > 0 && there < length[a.to]) {
                    length[a.to] = there;
                    step[a.to] = {v, int(i)};
                    waiting.push({there, a.to});
                }
            }
        }
        for (size_t v = 0; v < arcs.size(); v++) height[v] += length[v];
    }

    void send(const std::vector<std::pair<int, int>>& step) {
        for (int v = int(arcs.size()) - 1; v != 0; v = step[v].first) {
            Arc& a = arcs[step[v].first][step[v].second];
            a.room--;
            arcs[v][a.back].room++;
        }
    }
};

int main(int argc, char** argv) {
    const int count = argc > 1 ? std::atoi(argv[1]) : 30;
    std::vector<int> channels;
    for (int n = 1; int(channels.size()) < count; n++)
        if (n != 16) channels.push_back(n);
    const std::vector<Booking> bookings = read_bookings();
    std::vector<int> moments;
    for (const Booking& b : bookings) {
        moments.push_back(b.start);
        moments.push_back(b.end);
    }
    std::sort(moments.begin(), moments.end());
    moments.erase(std::unique(moments.begin(), moments.end()), moments.end());
    auto place = [&](int t) { return int(std::lower_bound(moments.begin(), moments.end(), t) - moments.begin()); };
    Network network(moments.size());
    std::vector<std::pair<int, int>> row_arc;
    for (const Booking& b : bookings) {
        row_arc.push_back({place(b.start), int(network.arcs[place(b.start)].size())});
        network.add(place(b.start), place(b.end), -b.pay, 1);
    }
    for (size_t v = 0; v + 1 < moments.size(); v++) network.add(int(v), int(v) + 1, 0, 1 << 20);
    network.start();
    std::vector<std::pair<int, int>> step(moments.size());
    for (int unit = 0; unit < count && !moments.empty(); unit++) {
        network.settle(step);
        network.send(step);
    }
    if (!moments.empty()) network.settle(step);

    std::vector<int> order, channel(bookings.size(), 0);
    for (size_t i = 0; i < bookings.size(); i++)
        if (network.arcs[row_arc[i].first][row_arc[i].second].room == 0) order.push_back(int(i));
    std::stable_sort(order.begin(), order.end(), [&](int a, int b) { return bookings[a].start < bookings[b].start; });
    std::vector<int> until(channels.size(), 0);
    int64_t total = 0;
    for (int i : order) {
        size_t c = 0;
        while (until[c] > bookings[i].start) c++;
        until[c] = bookings[i].end;
        channel[i] = channels[c];
        total += bookings[i].pay;
    }
    std::ostringstream out;
    out << "bx-plan 3\nchannels";
    for (int n : channels) out << ' ' << n;
    out << "\nbookings " << bookings.size() << '\n';
    for (size_t i = 0; i < bookings.size(); i++) {
        const Booking& b = bookings[i];
        out << b.start << ' ' << b.end << ' ' << b.pay << ' ' << b.number << ' ';
        if (channel[i]) out << channel[i]; else out << '-';
        out << " free out\n";
    }
    std::ostringstream prices;
    size_t priced = 0;
    for (size_t v = 0; v + 1 < moments.size(); v++)
        if (network.height[v] != network.height[v + 1]) {
            prices << moments[v] << ' ' << network.height[v] - network.height[v + 1] << '\n';
            priced++;
        }
    out << "prices " << priced << '\n' << prices.str() << "total " << total << "\nend\n";
    std::fputs(out.str().c_str(), stdout);
}
