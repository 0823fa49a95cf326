// What a C++ programmer would take in place of chi_order and chi_chan, on the same works and with the same sums: std::set for a set of
// numbers (and, for a member by its rank, the tree with order statistics of libstdc++), std::set of pairs for due times, with each
// number's own beside it, and for each channel a std::set of its senders and one of its receivers, with each instance's offers beside it.
#include <cstdint>
#include <cstdio>
#include <cstdlib>
#include <cstring>
#include <ctime>
#include <ext/pb_ds/assoc_container.hpp>
#include <ext/pb_ds/tree_policy.hpp>
#include <set>
#include <utility>
#include <vector>

using std::pair, std::set, std::vector;
using Ranked = __gnu_pbds::tree<uint32_t, __gnu_pbds::null_type, std::less<uint32_t>, __gnu_pbds::rb_tree_tag,
                                __gnu_pbds::tree_order_statistics_node_update>;

struct Random {
    uint64_t state;
    uint32_t next() { state = state * 6364136223846793005u + 1442695040888963407u; return uint32_t(state >> 33); }
    uint32_t below(uint32_t bound) { uint32_t number = next(); return bound ? number % bound : 0; }
    vector<uint32_t> many(uint32_t count, uint32_t bound) { vector<uint32_t> it; while (count--) it.push_back(below(bound)); return it; }
    void shuffle(vector<uint32_t>& it) { for (size_t at = 1; at < it.size(); ++at) std::swap(it[at], it[next() % (at + 1)]); }
    vector<uint32_t> order(uint32_t bound) { vector<uint32_t> it; for (uint32_t k = 0; k < bound; ++k) it.push_back(k); shuffle(it); return it; }
};

static uint64_t nanos() { timespec now; clock_gettime(CLOCK_THREAD_CPUTIME_ID, &now); return uint64_t(now.tv_sec) * 1000000000u + uint64_t(now.tv_nsec); }
struct Watch { uint64_t taken = 0; template <class Pass> void time(Pass pass) { uint64_t begun = nanos(); pass(); taken += nanos() - begun; } };
static Watch first, second, third;
static uint64_t sum;
static uint32_t copies_of(uint32_t room) { return room == 0 || room > 16384 ? 1 : 16384 / room; }

// numbers come and leave: std::set; a member by its rank wants the tree with order statistics
template <class Set> static void come_and_leave(Random& random, uint32_t room, uint32_t rounds, Watch& coming, Watch& going, auto ask) {
    auto members = random.order(room);
    members.resize(room / 2);
    auto ranks = random.order(room / 2), leaving = members;
    random.shuffle(leaving);
    vector<Set> sets(copies_of(room));
    for (uint32_t r = 0; r < rounds; ++r) {
        coming.time([&] { for (auto& set : sets) for (uint32_t number : members) set.insert(number); });
        ask(sets, ranks);
        going.time([&] { for (auto& set : sets) for (uint32_t number : leaving) set.erase(number); });
    }
}

static void ranks(uint32_t room, uint32_t rounds, uint64_t seed) {
    Random random{seed}, again{seed};
    Watch other, another;
    come_and_leave<set<uint32_t>>(random, room, rounds, first, third, [](auto&, auto&) {});
    come_and_leave<Ranked>(again, room, rounds, other, another, [](auto& sets, auto& ranks) {
        second.time([&] { for (auto& set : sets) for (uint32_t rank : ranks) sum += *set.find_by_order(rank); });
    });
}

struct Dues {
    set<pair<int64_t, uint32_t>> sorted; vector<int64_t> own;
    Dues(uint32_t room) : own(room, -1) {}
    void withdraw(uint32_t number) { if (own[number] != -1) { sorted.erase({own[number], number}); own[number] = -1; } }
    void put(uint32_t number, int64_t due) { withdraw(number); own[number] = due; sorted.insert({due, number}); }
};

static void dues(uint32_t room, uint32_t rounds, uint64_t seed) {
    Random random{seed};
    auto numbers = random.order(room), times = random.many(room, 1000000000), later = random.many(room, 1000000000), leaving = random.order(room);
    vector<Dues> copies(copies_of(room), Dues(room));
    for (uint32_t r = 0; r < rounds; ++r) {
        first.time([&] { for (auto& it : copies) for (size_t k = 0; k < numbers.size(); ++k) it.put(numbers[k], times[k]); });
        second.time([&] { for (auto& it : copies) for (uint32_t more : later) { auto [due, number] = *it.sorted.begin(); it.put(number, due + more); sum += number; } });
        third.time([&] { for (auto& it : copies) for (uint32_t number : leaving) it.withdraw(number); });
    }
}

struct Offer { bool sends; uint32_t channel; };
using Party = pair<uint32_t, uint32_t>;
struct Waiting {
    vector<set<Party>> senders, receivers; vector<vector<Offer>> offers;
    Waiting(uint32_t channels, uint32_t instances) : senders(channels), receivers(channels), offers(instances) {}
    set<Party>& line(Offer offer) { return offer.sends ? senders[offer.channel] : receivers[offer.channel]; }
    void come(uint32_t pid, Offer offer) { if (!offers[pid].empty()) return; offers[pid].push_back(offer); uint32_t a = 0; for (Offer own : offers[pid]) line(own).insert({pid, a++}); }
    void leave(uint32_t pid) { uint32_t a = 0; for (Offer own : offers[pid]) line(own).erase({pid, a++}); offers[pid].clear(); }
    // how many receivers of other instances, and the last of them
    uint64_t count(uint32_t pid) {
        uint64_t count = 0;
        for (Offer own : offers[pid]) if (own.sends) { auto& line = receivers[own.channel]; count += line.size(); for (auto it = line.lower_bound({pid, 0}); it != line.end() && it->first == pid; ++it) --count; }
        return count;
    }
    uint64_t last(uint32_t pid) {
        uint64_t last = 0;
        for (Offer own : offers[pid]) if (own.sends) for (auto it = receivers[own.channel].rbegin(); it != receivers[own.channel].rend(); ++it) if (it->first != pid) { last = it->first + 1; break; }
        return last;
    }
};

static void waiting(uint32_t room, uint32_t rounds, uint64_t seed, bool lent) {
    Random random{seed};
    auto pids = random.order(room), asking = random.order(room), leaving = random.order(room);
    vector<Waiting> copies(copies_of(room), Waiting(room / 2 + 1, room));
    auto open = [&] { for (auto& it : copies) for (uint32_t pid : pids) it.come(pid, {pid % 2 == 0, pid / 2}); };
    auto close = [&] { for (auto& it : copies) for (uint32_t pid : leaving) it.leave(pid); };
    open();
    close();
    for (uint32_t r = 0; r < rounds; ++r) {
        first.time(open);
        if (lent) second.time([&] { for (auto& it : copies) for (uint32_t pid : asking) sum += it.count(pid); });
        else second.time([&] { for (auto& it : copies) for (uint32_t pid : asking) if (it.count(pid)) sum += it.last(pid); });
        third.time(close);
    }
}

static void crowds(uint32_t crowd, uint32_t rounds, uint64_t order) {
    bool sends = order & 1, one_last = order & 2, ascending = order & 4;
    uint32_t one = crowd / 2;
    auto member = [&](uint32_t turn) { uint32_t place = ascending ? turn : crowd - turn - 1; return place < one ? place : place + 1; };
    Waiting waiting(8, crowd + 1);
    auto open = [&] {
        if (!one_last) waiting.come(one, {!sends, 7});
        for (uint32_t turn = 0; turn < crowd; ++turn) waiting.come(member(turn), {sends, 7});
        if (one_last) waiting.come(one, {!sends, 7});
    };
    auto close = [&] {
        if (!one_last) waiting.leave(one);
        for (uint32_t turn = 0; turn < crowd; ++turn) waiting.leave(member(turn));
        if (one_last) waiting.leave(one);
    };
    open();
    close();
    for (uint32_t r = 0; r < rounds; ++r) {
        first.time(open);
        second.time([&] { for (uint32_t turn = 0; turn < crowd; ++turn) sum += waiting.count(member(turn)); sum += waiting.count(one) + waiting.last(one); });
        third.time(close);
    }
}

int main(int, char** words) {
    uint32_t room = uint32_t(atol(words[2])), rounds = uint32_t(atol(words[3]));
    uint64_t seed = strtoull(words[4], nullptr, 10);
    if (!strcmp(words[1], "ranks")) ranks(room, rounds, seed);
    else if (!strcmp(words[1], "dues")) dues(room, rounds, seed);
    else if (!strcmp(words[1], "waiting")) waiting(room, rounds, seed, false);
    else if (!strcmp(words[1], "lent")) waiting(room, rounds, seed, true);
    else crowds(room, rounds, seed);
    printf("%llu %llu %llu %llu\n", (unsigned long long)first.taken, (unsigned long long)second.taken, (unsigned long long)third.taken, (unsigned long long)sum);
}
