// Lists the connected sets of counties from each place that suit some seats, as masks of 128 bits, sorted: what `groups_over`
// does, for the Senate (50), the House (120) and counties of one person each. It reads graph.txt (bench/county_graph.py).
//
//     g++ -O2 -o grow bench/grow.cpp && ./grow LIMIT
#include <algorithm>
#include <cstdint>
#include <cstdio>
#include <cstdlib>
#include <ctime>
#include <vector>

typedef unsigned __int128 Mask;

struct Group {
    Mask set;
    uint32_t size;
};

static int places, limit;
static uint32_t people[128], most;
static Mask near_by[128];
static uint64_t total, chamber, least, steps;
static std::vector<Group> groups;

static int first(Mask mask) {
    uint64_t low = (uint64_t)mask;
    return low ? __builtin_ctzll(low) : 64 + __builtin_ctzll((uint64_t)(mask >> 64));
}

static bool suits(uint64_t count) {
    uint64_t share = 20 * chamber * count;
    uint64_t low = std::max<uint64_t>((share + 21 * total - 1) / (21 * total), 1);
    return low <= share / (19 * total);
}

static void grow(Mask set, int size, uint64_t count, Mask front, Mask free_places) {
    if (count + (uint64_t)(limit - size) * most < least) return;
    steps++;
    if (suits(count)) groups.push_back({set, (uint32_t)size});
    if (size == limit) return;
    while (front) {
        int place = first(front);
        Mask bit = (Mask)1 << place;
        front &= ~bit;
        free_places &= ~bit;
        grow(set | bit, size + 1, count + people[place], (front | near_by[place]) & free_places, free_places);
    }
}

static bool before(const Group &a, const Group &b) {
    if (a.size != b.size) return a.size < b.size;
    Mask differ = a.set ^ b.set;
    return differ && (a.set & (differ & -differ)) != 0;
}

static void run(const char *name, uint64_t seats) {
    chamber = seats;
    total = 0;
    for (int i = 0; i < places; i++) total += people[i];
    least = (19 * total + 20 * chamber - 1) / (20 * chamber);
    steps = 0;
    uint64_t found = 0;
    clock_t growing = 0, sorting = 0;
    for (int place = 0; place < places; place++) {
        clock_t start = clock();
        groups.clear();
        most = 0;
        Mask later = 0;
        for (int other = place + 1; other < places; other++) {
            later |= (Mask)1 << other;
            most = std::max(most, people[other]);
        }
        grow((Mask)1 << place, 1, people[place], near_by[place] & later, later);
        clock_t grown = clock();
        std::sort(groups.begin(), groups.end(), before);
        growing += grown - start;
        sorting += clock() - grown;
        found += groups.size();
    }
    double seconds = double(growing) / CLOCKS_PER_SEC, all = seconds + double(sorting) / CLOCKS_PER_SEC;
    printf("%s, at most %d: %lu groups, %lu steps, %.1f million a second grown, %.1f with the sort\n", name, limit,
           (unsigned long)found, (unsigned long)steps, steps / seconds / 1e6, steps / all / 1e6);
}

int main(int count, char **words) {
    FILE *file = fopen("graph.txt", "r");
    int pairs;
    if (count != 2 || !file || fscanf(file, "%d %d", &places, &pairs) != 2) {
        fprintf(stderr, "usage: grow LIMIT, with graph.txt in this folder\n");
        return 2;
    }
    limit = atoi(words[1]);
    for (int i = 0; i < places; i++)
        if (fscanf(file, "%u", &people[i]) != 1) return 1;
    for (int i = 0; i < pairs; i++) {
        int a, b;
        if (fscanf(file, "%d %d", &a, &b) != 2) return 1;
        near_by[a] |= (Mask)1 << b;
        near_by[b] |= (Mask)1 << a;
    }
    run("Senate", 50);
    run("House", 120);
    for (int i = 0; i < places; i++) people[i] = 1;
    run("one person each", 100);
}
