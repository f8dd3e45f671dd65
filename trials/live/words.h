// What masters say: bodies, frames, rows of summaries, plans. Signatures are left out: a frame is its signer and its
// body. Bodies and rows are kept once each (interned), so that two are the same where their pointers are.
#pragma once
#include <algorithm>
#include <cstdint>
#include <cstdio>
#include <cstdlib>
#include <cstring>
#include <functional>
#include <map>
#include <memory>
#include <set>
#include <string>
#include <tuple>
#include <unordered_map>
#include <unordered_set>
#include <vector>

using u32 = uint32_t;
using u64 = uint64_t;
using i64 = int64_t;
using std::vector;
using Reach = vector<u64>; // a number for each master

// The group: n = 3f + 2k + 1 masters, quorums of q = 2f + k + 1, and clients with f + k + 1 doors each.
struct Sizes {
    u32 f = 1, k = 0, n = 4, q = 3, clients = 4;
};
static Sizes group;
static const u64 MOST_NUMBER = 4096, WINDOW = 16, MOST_VIEW = 255;

static void set_group(u32 f, u32 k) {
    group.f = f;
    group.k = k;
    group.n = 3 * f + 2 * k + 1;
    group.q = 2 * f + k + 1;
}

static bool is_door(u32 master, u32 client) {
    return (master + group.n - client % group.n) % group.n <= group.f + group.k;
}

// The kinds of words, as the program numbers them; x, y, z are the numbers that each has.
enum Kind {
    UPDATE = 1,   // client, its number
    REQUEST,      // number k; the update's frame
    ACK,          // master j, number k; of which update
    SUMMARY,      // a number for each master
    PREPREPARE,   // view, number; summaries
    PREPARE,      // view, number; of which rows
    COMMIT,       // view, number; of which rows
    PING,         // number
    PONG,         // to whom, number
    ROUND_TRIP,   // to whom, number, ticks
    TAT_REPORT,   // view, ticks
    TAT_BOUND,    // view, ticks
    SUSPECT,      // view
    REPORT,       // view, base; marks and certificates
    NEW_VIEW,     // view; reports
    ASK_UPDATE,   // master j, number k
    GIVE,         // the request's frame, then a quorum's acknowledgements
    ASK_ORDER,    // number
    GIVE_ORDERED, // number, view; rows, a quorum's commits
    VOUCHER,      // (not in the model)
    MARK,         // number
    KINDS
};

struct Body;
struct Frame {
    u32 signer = 0;
    const Body *body = nullptr;
};
// Rows of a proposal: what each master's summary tells, empty where there is none. `id` stands for their digest.
struct Rows {
    vector<Reach> rows;
    u64 id = 0;
    Reach eligible;
};
struct Certificate {
    u64 s = 0, v = 0;
    const Rows *rows = nullptr;
    vector<Frame> prepares;
};
struct Plan {
    u64 base = 0;
    vector<const Rows *> rows;
    u64 end() const { return base + rows.size(); }
};
struct Body {
    u64 id = 0;
    int kind = 0;
    u64 x = 0, y = 0, z = 0;
    u64 digest = 0; // what an acknowledgement, a prepare or a commit is of: the id of an update or of rows
    Reach numbers;
    vector<Frame> frames;
    vector<Certificate> certificates;
    const Rows *rows = nullptr;
    std::shared_ptr<Plan> plan;
};

static std::map<vector<Reach>, Rows *> all_rows;
static std::unordered_map<std::string, Body *> all_bodies;

// What q rows reach, by master.
static Reach eligible(const vector<const Reach *> &rows) {
    Reach result(group.n), column;
    for (u32 j = 0; j < group.n; j++) {
        column.assign(group.n, 0);
        for (size_t i = 0; i < rows.size() && i < group.n; i++)
            column[i] = rows[i] && j < rows[i]->size() ? (*rows[i])[j] : 0;
        std::sort(column.begin(), column.end(), std::greater<u64>());
        result[j] = column[group.q - 1];
    }
    return result;
}

static const Rows *intern_rows(const vector<Reach> &rows) {
    Rows *&known = all_rows[rows];
    if (!known) {
        vector<const Reach *> list;
        for (const Reach &row : rows)
            list.push_back(&row);
        known = new Rows{rows, all_rows.size(), eligible(list)};
    }
    return known;
}

static void raise_to(Reach &reach, const Reach &other) {
    for (size_t i = 0; i < reach.size(); i++)
        reach[i] = std::max(reach[i], other[i]);
}

static bool exceeds(const Reach &a, const Reach &b) {
    for (size_t i = 0; i < a.size(); i++)
        if (a[i] > b[i])
            return true;
    return false;
}

// From the greatest base on, for each number the certificate of the highest view, empty rows where there is none.
static Plan plan_of(const vector<Frame> &reports) {
    Plan plan;
    for (const Frame &r : reports)
        plan.base = std::max(plan.base, r.body->y);
    std::map<u64, const Certificate *> best;
    for (const Frame &r : reports)
        for (const Certificate &c : r.body->certificates) {
            if (c.s <= plan.base)
                continue;
            const Certificate *&b = best[c.s];
            if (!b || c.v > b->v || (c.v == b->v && c.rows->id < b->rows->id))
                b = &c;
        }
    const Rows *nothing = intern_rows(vector<Reach>(group.n));
    for (u64 s = plan.base + 1; !best.empty() && s <= best.rbegin()->first; s++)
        plan.rows.push_back(best.count(s) ? best[s]->rows : nothing);
    return plan;
}

static std::string key_of(const Body &b) {
    std::string key;
    auto put = [&](u64 number) { key.append((const char *)&number, sizeof number); };
    auto put_frames = [&](const vector<Frame> &frames) {
        put(frames.size());
        for (const Frame &f : frames)
            put(f.signer), put(f.body->id);
    };
    for (u64 number : {(u64)b.kind, b.x, b.y, b.z, b.digest, b.rows && b.kind == GIVE_ORDERED ? b.rows->id : 0})
        put(number);
    put(b.numbers.size());
    for (u64 number : b.numbers)
        put(number);
    put_frames(b.frames);
    for (const Certificate &c : b.certificates)
        put(c.s), put(c.v), put(c.rows->id), put_frames(c.prepares);
    return key;
}

static const Body *intern(Body &&b) {
    auto known = all_bodies.emplace(key_of(b), nullptr);
    if (!known.second)
        return known.first->second;
    Body *body = known.first->second = new Body(std::move(b));
    body->id = all_bodies.size();
    if (body->kind == UPDATE)
        body->digest = body->id;
    if (body->kind == PREPREPARE) {
        vector<Reach> rows(group.n);
        for (const Frame &f : body->frames)
            if (f.signer < group.n)
                rows[f.signer] = f.body->numbers;
        body->rows = intern_rows(rows);
    }
    if (body->kind == NEW_VIEW)
        body->plan = std::make_shared<Plan>(plan_of(body->frames));
    return body;
}

static const Body *word(int kind, u64 x = 0, u64 y = 0, u64 z = 0) {
    Body b;
    b.kind = kind;
    b.x = x;
    b.y = y;
    b.z = z;
    return intern(std::move(b));
}

static const Body *word_of(int kind, u64 x, u64 y, u64 digest) {
    Body b;
    b.kind = kind;
    b.x = x;
    b.y = y;
    b.digest = digest;
    return intern(std::move(b));
}

static const Body *summary_of(const Reach &numbers) {
    Body b;
    b.kind = SUMMARY;
    b.numbers = numbers;
    return intern(std::move(b));
}

static const Body *word_with(int kind, u64 x, u64 y, const vector<Frame> &frames) {
    Body b;
    b.kind = kind;
    b.x = x;
    b.y = y;
    b.frames = frames;
    return intern(std::move(b));
}

// The frames that stand inside a body.
template <class Each> static void each_inside(const Body &b, Each each) {
    for (const Frame &f : b.frames)
        each(f);
    for (const Certificate &c : b.certificates)
        for (const Frame &f : c.prepares)
            each(f);
}

// A frame that a correct master would take: its numbers are in their ranges, and its parts are of what they stand for.
static bool is_in_place(const Frame &f) {
    const Body &b = *f.body;
    auto is_number = [](u64 s) { return s >= 1 && s <= MOST_NUMBER; };
    auto is_view = [](u64 v) { return v >= 1 && v <= MOST_VIEW; };
    if (f.signer >= group.n)
        return b.kind == UPDATE;
    switch (b.kind) {
    case REQUEST:
    case ASK_ORDER: return is_number(b.x);
    case ACK:
    case ASK_UPDATE: return b.x < group.n && is_number(b.y);
    case SUMMARY:
        return b.numbers.size() == group.n &&
               std::all_of(b.numbers.begin(), b.numbers.end(), [](u64 number) { return number <= MOST_NUMBER; });
    case PREPREPARE: return b.x <= MOST_VIEW && is_number(b.y) && f.signer == b.x % group.n;
    case PREPARE:
    case COMMIT: return b.x <= MOST_VIEW && is_number(b.y);
    case PONG:
    case ROUND_TRIP: return b.x < group.n;
    case TAT_REPORT:
    case TAT_BOUND: return b.x <= MOST_VIEW;
    case SUSPECT: return b.x < MOST_VIEW;
    case REPORT:
        return is_view(b.x) && b.frames.size() == (b.y ? group.q : 0) &&
               std::all_of(b.certificates.begin(), b.certificates.end(), [&](const Certificate &c) {
                   return c.s > b.y && c.s <= b.y + WINDOW && c.v < b.x && c.prepares.size() == group.q;
               });
    case NEW_VIEW: return is_view(b.x) && f.signer == b.x % group.n && b.frames.size() == group.q;
    case MARK: return is_number(b.x) && b.x % 8 == 0;
    default: return true;
    }
}
