// A plain tree of rectangles in memory, to measure the index against.
//
//     g++ -std=c++17 -O3 -march=x86-64 -o rtree bench/rtree.cpp
//     ./rtree              one round: ns per insert, ns per search, what was found
//     ./rtree rounds 9     that many rounds, each with a new tree, and the medians
//     ./rtree check        every search against a look at all rectangles, and the rules of the tree
//
// The rules are those of the index: nodes of 4 to 12 entries, down by the least growth of the area, quadratic split.
#include <algorithm>
#include <chrono>
#include <cinttypes>
#include <cstdint>
#include <cstdio>
#include <cstdlib>
#include <cstring>
#include <deque>
#include <vector>

struct Rect {
    int32_t left, bottom, right, top;  // edges belong to it
};

static bool operator==(const Rect &a, const Rect &b) {
    return a.left == b.left && a.bottom == b.bottom && a.right == b.right && a.top == b.top;
}

static inline uint64_t area(const Rect &a) {
    return uint64_t(int64_t(a.right) - a.left) * uint64_t(int64_t(a.top) - a.bottom);
}

static inline Rect join(const Rect &a, const Rect &b) {
    return {std::min(a.left, b.left), std::min(a.bottom, b.bottom), std::max(a.right, b.right), std::max(a.top, b.top)};
}

static inline uint64_t growth(const Rect &a, const Rect &b) { return area(join(a, b)) - area(a); }

// All four comparisons are made, so that there is one branch and not four.
static inline bool meets(const Rect &a, const Rect &b) {
    return (a.left <= b.right) & (b.left <= a.right) & (a.bottom <= b.top) & (b.bottom <= a.top);
}

class RTree {
public:
    static constexpr int most = 12, least = 4;

    // Adds a rectangle; the nth has number n.
    uint32_t insert(const Rect &key) {
        ++records_;
        Entry entry{key, {}};
        entry.link.record = records_;
        if (!root_) {
            root_ = make(1);
            root_->put(entry);
            return records_;
        }
        if (Node *other = insert_under(root_, entry)) {
            Node *top = make(root_->level + 1);
            top->put(entry_for(root_));
            top->put(entry_for(other));
            root_ = top;
        }
        return records_;
    }

    // Calls found with the number of each record that meets the rectangle.
    template <class Found> void search(const Rect &asked, Found found) const {
        if (root_) search_under(root_, asked, found);
    }

    int levels() const { return root_ ? root_->level : 0; }
    size_t nodes() const { return nodes_.size(); }

    // Whether counts, levels and keys are right, and every record is there once.
    bool sound() const {
        std::vector<bool> seen(records_ + 1);
        uint32_t count = 0;
        return (!root_ || sound_under(root_, root_->level == 1 ? 1 : 2, seen, count)) && count == records_;
    }

private:
    struct Node;

    union Link {
        Node *child;
        uint32_t record;
    };

    struct Entry {
        Rect key;
        Link link;
    };

    struct Node {
        int level;  // 1 for a leaf
        int count = 0;
        Rect keys[most];
        Link links[most];

        explicit Node(int l) : level(l) {}

        void put(const Entry &entry) {
            keys[count] = entry.key;
            links[count] = entry.link;
            ++count;
        }

        Rect key() const {
            Rect all = keys[0];
            for (int i = 1; i < count; ++i) all = join(all, keys[i]);
            return all;
        }
    };

    std::deque<Node> nodes_;  // nodes do not move
    Node *root_ = nullptr;
    uint32_t records_ = 0;

    Node *make(int level) { return &nodes_.emplace_back(level); }

    static Entry entry_for(Node *node) {
        Entry entry{node->key(), {}};
        entry.link.child = node;
        return entry;
    }

    // The entry whose key grows least, the first of equals.
    static int least_growth(const Node *node, const Rect &key) {
        int best = 0;
        uint64_t cost = growth(node->keys[0], key);
        for (int i = 1; i < node->count; ++i) {
            uint64_t here = growth(node->keys[i], key);
            if (here < cost) {
                cost = here;
                best = i;
            }
        }
        return best;
    }

    // The node that was split off, if one was.
    Node *insert_under(Node *node, const Entry &entry) {
        if (node->level == 1) return add(node, entry);
        int at = least_growth(node, entry.key);
        Node *child = node->links[at].child;
        Node *other = insert_under(child, entry);
        if (!other) {
            node->keys[at] = join(node->keys[at], entry.key);
            return nullptr;
        }
        node->keys[at] = child->key();
        return add(node, entry_for(other));
    }

    Node *add(Node *node, const Entry &entry) {
        if (node->count < most) {
            node->put(entry);
            return nullptr;
        }
        Entry all[most + 1];
        for (int i = 0; i < most; ++i) all[i] = {node->keys[i], node->links[i]};
        all[most] = entry;
        bool goes[most + 1];
        split(all, goes);
        Node *other = make(node->level);
        node->count = 0;
        for (int i = 0; i <= most; ++i) (goes[i] ? other : node)->put(all[i]);
        return other;
    }

    // The pair that fits together worst begins two groups. The others follow in order, each to the group that grows
    // less, then to the smaller, then to the one that stays; a group that needs all that are left gets them.
    static void split(const Entry (&all)[most + 1], bool (&goes)[most + 1]) {
        constexpr int n = most + 1;
        uint64_t areas[n];
        for (int i = 0; i < n; ++i) areas[i] = area(all[i].key);
        int first = 0, second = 1;
        uint64_t worst = 0;
        for (int i = 0; i < n; ++i) {
            for (int j = i + 1; j < n; ++j) {
                // The larger growth is that of the smaller one.
                uint64_t cost = area(join(all[i].key, all[j].key)) - std::min(areas[i], areas[j]);
                if (cost > worst) {
                    worst = cost;
                    first = i;
                    second = j;
                }
            }
        }
        Rect unions[2] = {all[first].key, all[second].key};
        int counts[2] = {1, 1};
        goes[first] = false;
        goes[second] = true;
        int waiting = n - 2;
        for (int i = 0; i < n; ++i) {
            if (i == first || i == second) continue;
            bool go;
            if (counts[0] + waiting == least) {
                go = false;
            } else if (counts[1] + waiting == least) {
                go = true;
            } else {
                uint64_t stay_cost = growth(unions[0], all[i].key), go_cost = growth(unions[1], all[i].key);
                go = go_cost < stay_cost || (go_cost == stay_cost && counts[1] < counts[0]);
            }
            goes[i] = go;
            unions[go] = join(unions[go], all[i].key);
            ++counts[go];
            --waiting;
        }
    }

    template <class Found> static void search_under(const Node *node, const Rect &asked, Found &found) {
        if (node->level == 1) {
            for (int i = 0; i < node->count; ++i)
                if (meets(node->keys[i], asked)) found(node->links[i].record);
        } else {
            for (int i = 0; i < node->count; ++i)
                if (meets(node->keys[i], asked)) search_under(node->links[i].child, asked, found);
        }
    }

    static bool sound_under(const Node *node, int fewest, std::vector<bool> &seen, uint32_t &count) {
        if (node->count < fewest || node->count > most) return false;
        for (int i = 0; i < node->count; ++i) {
            if (node->level == 1) {
                uint32_t record = node->links[i].record;
                if (record == 0 || record >= seen.size() || seen[record]) return false;
                seen[record] = true;
                ++count;
            } else {
                const Node *child = node->links[i].child;
                if (child->level != node->level - 1 || !(child->key() == node->keys[i])) return false;
                if (!sound_under(child, least, seen, count)) return false;
            }
        }
        return true;
    }
};

// ---- the data

struct Generator {
    uint32_t x = 2463534242u;

    uint32_t next() {
        x ^= x << 13;
        x ^= x >> 17;
        x ^= x << 5;
        return x;
    }

    // left, bottom, width and height are drawn in this order.
    Rect rect(uint32_t length) {
        int32_t left = int32_t(next() % 100000);
        int32_t bottom = int32_t(next() % 100000);
        int32_t width = int32_t(next() % length);
        int32_t height = int32_t(next() % length);
        return {left, bottom, left + width, bottom + height};
    }
};

static constexpr int inserts = 20000, searches = 20000;

struct Data {
    std::vector<Rect> keys, asked;

    Data() {
        Generator generator;
        for (int i = 0; i < inserts; ++i) keys.push_back(generator.rect(200));
        for (int i = 0; i < searches; ++i) asked.push_back(generator.rect(2000));
    }
};

// ---- one round

struct Round {
    double insert_ns, search_ns;
    uint64_t hits = 0, checksum = 0, numbers = 0;
    int levels;
    size_t nodes;
};

static Round measure(const Data &data) {
    using clock = std::chrono::steady_clock;
    auto ns = [](clock::duration d) { return double(std::chrono::duration_cast<std::chrono::nanoseconds>(d).count()); };
    Round round;
    RTree tree;
    auto start = clock::now();
    for (const Rect &key : data.keys) tree.insert(key);
    auto between = clock::now();
    for (int i = 0; i < searches; ++i) {
        uint64_t hits = 0, numbers = 0;
        tree.search(data.asked[i], [&](uint32_t record) {
            ++hits;
            numbers += record;
        });
        round.hits += hits;
        round.checksum += hits * uint64_t(i % 97 + 1);
        round.numbers += numbers;
    }
    auto end = clock::now();
    round.insert_ns = ns(between - start) / inserts;
    round.search_ns = ns(end - between) / searches;
    round.levels = tree.levels();
    round.nodes = tree.nodes();
    return round;
}

static void times(const char *what, double insert_ns, double search_ns) {
    std::printf("%s: %.1f ns per insert, %.1f ns per search\n", what, insert_ns, search_ns);
}

static int run(int rounds) {
    Data data;
    std::vector<double> insert_ns, search_ns;
    Round round;
    for (int i = 0; i < rounds; ++i) {
        round = measure(data);
        insert_ns.push_back(round.insert_ns);
        search_ns.push_back(round.search_ns);
        times("round", round.insert_ns, round.search_ns);
    }
    if (rounds > 1) {
        std::sort(insert_ns.begin(), insert_ns.end());
        std::sort(search_ns.begin(), search_ns.end());
        times("median", insert_ns[rounds / 2], search_ns[rounds / 2]);
    }
    std::printf("levels %d, nodes %zu\n", round.levels, round.nodes);
    std::printf("hits %" PRIu64 "\n", round.hits);
    std::printf("checksum %" PRIu64 "\n", round.checksum);
    std::printf("sum of record numbers %" PRIu64 "\n", round.numbers);
    return 0;
}

// ---- against a look at all rectangles

static int check() {
    Data data;
    RTree tree;
    for (int n = 1; n <= inserts; ++n) {
        if (tree.insert(data.keys[n - 1]) != uint32_t(n)) return std::puts("wrong number"), 1;
        if ((n < 2000 || n % 1000 == 0) && !tree.sound()) return std::printf("not sound after %d inserts\n", n), 1;
    }
    uint64_t hits = 0, checksum = 0, numbers = 0;
    for (int i = 0; i < searches; ++i) {
        std::vector<uint32_t> found, expected;
        tree.search(data.asked[i], [&](uint32_t record) { found.push_back(record); });
        const Rect &q = data.asked[i];
        for (int n = 1; n <= inserts; ++n) {
            const Rect &k = data.keys[n - 1];
            bool apart = k.right < q.left || q.right < k.left || k.top < q.bottom || q.top < k.bottom;
            if (!apart) expected.push_back(uint32_t(n));
        }
        std::sort(found.begin(), found.end());
        if (found != expected)
            return std::printf("search %d: %zu found, not %zu\n", i, found.size(), expected.size()), 1;
        hits += expected.size();
        checksum += expected.size() * uint64_t(i % 97 + 1);
        for (uint32_t n : expected) numbers += n;
    }
    std::printf("%d searches, each the same as a look at all %d rectangles\n", searches, inserts);
    std::printf("hits %" PRIu64 "\nchecksum %" PRIu64 "\nsum of record numbers %" PRIu64 "\n", hits, checksum, numbers);
    return 0;
}

int main(int argc, char **argv) {
    if (argc == 1) return run(1);
    if (argc == 2 && !std::strcmp(argv[1], "check")) return check();
    int rounds = argc == 3 && !std::strcmp(argv[1], "rounds") ? std::atoi(argv[2]) : 0;
    if (rounds > 0) return run(rounds);
    std::fputs("rtree | rtree rounds N | rtree check\n", stderr);
    return 2;
}
