// One master: what it knows, and what it says at an event, by the first rules or by those that stay alive. The rules
// are those of crates/protocol_rules/specs; what is kept here is worked out as frames come, where the definitions look
// through lists.
#pragma once
#include "words.h"

using Request = std::pair<u64, u64>;  // master, number
using Proposal = std::pair<u64, u64>; // view, number
static bool is_live = true;           // the rules that stay alive, else the first rules

struct Votes {
    u32 mask = 0;
    int count() const { return __builtin_popcount(mask); }
};

struct Master {
    u32 me;
    // the frames known
    std::set<std::pair<u32, u64>> known;
    vector<Frame> pending; // said at the last event: they are known from the next one on
    std::unordered_map<u64, Votes> votes;
    struct Slot {
        vector<Frame> requests;
        vector<u64> quorums; // the digests that q masters acknowledged
        const Body *certified = nullptr;
        bool acknowledged = false;
    };
    std::map<Request, Slot> slots;
    std::map<Request, u64> acks_due;
    Reach vector_now, last_summary;
    struct Latest {
        bool is_there = false;
        u64 sum = 0;
        Frame frame;
    };
    vector<Latest> latest;
    Reach eligible_now;
    bool is_eligible_stale = true;
    u64 view = 0;
    std::set<u64> suspected;
    std::map<u64, Frame> new_views;
    std::map<Proposal, Frame> proposals;
    std::unordered_map<u64, const Rows *> rows_known;
    std::map<u64, vector<Proposal>> prepared_without, committed_without; // quorums whose rows aren't known
    std::map<u64, std::map<u64, vector<const Rows *>>> certificates;     // by number and view, as they became known
    std::map<u64, std::set<u64>> commits_open;                           // by view: numbers prepared and not committed
    std::map<u64, vector<std::pair<u64, u64>>> committed;                // by number: view and digest
    std::map<u64, const Rows *> ordered;
    u64 gapless = 0;
    Reach ordered_reach;
    u64 run_to = 0;
    Reach executed_to, may_execute_to;
    bool is_stopped = false;
    Request stopped_at;
    vector<u64> last_of; // by client, the greatest update executed
    vector<const Body *> executed;
    u64 ticks = 0, waited = 0, waited_in = 0;
    bool is_waiting = false;
    std::map<u64, std::map<u32, Frame>> reports;
    u64 stable = 0;
    vector<u64> voted_to, committed_to; // by master: one more than the greatest view voted against, the greatest number
    // what was said
    std::unordered_set<u64> said;
    std::map<Request, Frame> updates_taken;
    vector<u64> introduced;
    u64 requests_said = 0, own_mark = 0;
    std::map<u64, u64> offered_to; // by view
    std::set<Proposal> prepares_said;
    std::set<u64> reports_said, new_views_said, votes_said, orders_asked;
    std::set<Request> updates_asked;
    std::map<u64, const Body *> own_requests;
    std::map<Request, u64> own_acks;
    // measures of the first rules
    std::set<Request> pings, pongs;
    std::set<u64> pings_said, bounds_said;
    struct RoundTrip {
        bool is_there = false;
        u64 number = 0, ticks = 0;
    };
    vector<RoundTrip> round_trips;
    std::map<u64, vector<u64>> tat_reports;
    std::map<u64, vector<i64>> tat_bounds;
    std::set<Request> asked_updates, given_updates;
    std::set<u64> asked_orders, given_orders;
    // the rules that stay alive
    struct Moment {
        u64 ticks_before;
        Reach eligible;
    };
    vector<Moment> moments; // of this view, from the first on that wants what isn't ordered
    u64 moments_in = 0;
    Reach shown_before;
    vector<u64> answered; // by asker
    struct Lane {
        u64 next = 1;
        std::map<u64, u64> top; // by client
    };
    vector<Lane> lanes;

    explicit Master(u32 number)
        : me(number), vector_now(group.n), last_summary(group.n), latest(group.n), eligible_now(group.n),
          ordered_reach(group.n), executed_to(group.n), may_execute_to(group.n), last_of(group.clients),
          voted_to(group.n), committed_to(group.n), introduced(group.clients), round_trips(group.n),
          shown_before(group.n), answered(group.n), lanes(group.n) {}

    // ---- what is known grows

    void join(const Frame &f) {
        if (!known.insert({f.signer, f.body->id}).second)
            return;
        take(f);
        each_inside(*f.body, [&](const Frame &part) { join(part); });
    }

    // Counts the vote; answers whether it makes the quorum.
    bool vote(const Frame &f) {
        Votes &v = votes[f.body->id];
        v.mask |= 1u << f.signer;
        return v.count() == (int)group.q;
    }

    // The frames of the q lowest masters that said this.
    vector<Frame> quorum_of(const Body *b) {
        vector<Frame> frames;
        u32 mask = votes[b->id].mask;
        for (u32 i = 0; i < group.n && frames.size() < group.q; i++)
            if (mask >> i & 1)
                frames.push_back(Frame{i, b});
        return frames;
    }

    void certify(u64 j, Slot &slot, const Frame &request) {
        if (slot.certified)
            return;
        slot.certified = request.body->frames[0].body;
        for (auto next = slots.find({j, vector_now[j] + 1}); next != slots.end() && next->second.certified;
             next = slots.find({j, vector_now[j] + 1}))
            vector_now[j]++;
    }

    void certificate(u64 v, u64 s, const Rows *rows) {
        auto &known_ones = certificates[s][v];
        if (std::find(known_ones.begin(), known_ones.end(), rows) != known_ones.end())
            return;
        if (known_ones.empty())
            commits_open[v].insert(s);
        known_ones.push_back(rows);
    }

    void know(const Rows *rows) {
        if (!rows_known.emplace(rows->id, rows).second)
            return;
        for (const Proposal &p : prepared_without[rows->id])
            certificate(p.first, p.second, rows);
        for (const Proposal &p : committed_without[rows->id])
            ordered.emplace(p.second, rows);
        prepared_without.erase(rows->id);
        committed_without.erase(rows->id);
    }

    // A door's requests are acknowledged in turn, those alone that are above its client's earlier ones.
    void take_turns(u32 j) {
        Lane &lane = lanes[j];
        for (auto slot = slots.find({j, lane.next}); slot != slots.end() && !slot->second.requests.empty();
             slot = slots.find({j, lane.next})) {
            const Body &update = *slot->second.requests[0].body->frames[0].body;
            u64 &top = lane.top[update.x];
            if (update.x < group.clients && is_door(j, update.x) && update.y > top) {
                top = update.y;
                acks_due[{j, lane.next}] = update.digest;
            }
            lane.next++;
        }
    }

    void take_request(const Frame &f) {
        Slot &slot = slots[{f.signer, f.body->x}];
        slot.requests.push_back(f);
        u64 digest = f.body->frames[0].body->digest;
        if (slot.requests.size() == 1) {
            if (is_live)
                take_turns(f.signer);
            else
                acks_due[{f.signer, f.body->x}] = digest;
        }
        if (std::find(slot.quorums.begin(), slot.quorums.end(), digest) != slot.quorums.end())
            certify(f.signer, slot, f);
    }

    void take_ack(const Frame &f) {
        if (!vote(f))
            return;
        Slot &slot = slots[{f.body->x, f.body->y}];
        slot.quorums.push_back(f.body->digest);
        for (const Frame &request : slot.requests)
            if (request.body->frames[0].body->digest == f.body->digest)
                certify(f.body->x, slot, request);
    }

    void take_summary(const Frame &f) {
        u64 sum = 0;
        for (u64 number : f.body->numbers)
            sum += number;
        Latest &l = latest[f.signer];
        if (!l.is_there || sum > l.sum) {
            l = Latest{true, sum, f};
            is_eligible_stale = true;
        }
    }

    void take_prepare(const Frame &f) {
        const Body &b = *f.body;
        if (!vote(f))
            return;
        if (rows_known.count(b.digest))
            certificate(b.x, b.y, rows_known[b.digest]);
        else
            prepared_without[b.digest].push_back({b.x, b.y});
    }

    void take_commit(const Frame &f) {
        const Body &b = *f.body;
        committed_to[f.signer] = std::max(committed_to[f.signer], b.y);
        if (!vote(f))
            return;
        committed[b.y].push_back({b.x, b.digest});
        if (rows_known.count(b.digest))
            ordered.emplace(b.y, rows_known[b.digest]);
        else
            committed_without[b.digest].push_back({b.x, b.y});
    }

    void take(const Frame &f) {
        const Body &b = *f.body;
        if (b.kind == UPDATE || f.signer >= group.n)
            return;
        switch (b.kind) {
        case REQUEST: return take_request(f);
        case ACK: return take_ack(f);
        case SUMMARY: return take_summary(f);
        case PREPREPARE:
            know(b.rows);
            proposals.emplace(Proposal(b.x, b.y), f);
            break;
        case PREPARE: return take_prepare(f);
        case COMMIT: return take_commit(f);
        case SUSPECT:
            voted_to[f.signer] = std::max(voted_to[f.signer], b.x + 1);
            if (vote(f)) {
                suspected.insert(b.x);
                view = std::max(view, b.x + 1);
            }
            break;
        case REPORT:
            for (const Certificate &c : b.certificates)
                know(c.rows);
            reports[b.x].emplace(f.signer, f);
            break;
        case NEW_VIEW:
            for (const Rows *rows : b.plan->rows)
                know(rows);
            new_views.emplace(b.x, f);
            view = std::max(view, b.x);
            break;
        case GIVE_ORDERED: know(b.rows); break;
        case MARK:
            committed_to[f.signer] = std::max(committed_to[f.signer], b.x);
            if (vote(f))
                stable = std::max(stable, b.x);
            break;
        default: take_measure(f);
        }
    }

    // What the first rules alone take.
    void take_measure(const Frame &f) {
        const Body &b = *f.body;
        switch (b.kind) {
        case PING:
            if (f.signer != me)
                pings.insert({f.signer, b.x});
            break;
        case PONG:
            if (b.x == me)
                pongs.insert({f.signer, b.y});
            break;
        case ROUND_TRIP:
            if (b.x == me && f.signer != me && (!round_trips[f.signer].is_there || b.y > round_trips[f.signer].number))
                round_trips[f.signer] = RoundTrip{true, b.y, b.z};
            break;
        case TAT_REPORT:
            tat_reports[b.x].resize(group.n);
            tat_reports[b.x][f.signer] = std::max(tat_reports[b.x][f.signer], b.y);
            break;
        case TAT_BOUND:
            tat_bounds[b.x].resize(group.n, -1);
            if (tat_bounds[b.x][f.signer] < 0)
                tat_bounds[b.x][f.signer] = b.y;
            break;
        case ASK_UPDATE:
            if (f.signer != me && !given_updates.count({b.x, b.y}))
                asked_updates.insert({b.x, b.y});
            break;
        case ASK_ORDER:
            if (f.signer != me && !given_orders.count(b.x))
                asked_orders.insert(b.x);
            break;
        }
    }

    // ---- what follows from it

    bool is_open() const { return view == 0 || new_views.count(view); }

    // Of the present view, which is open.
    const Plan &plan() {
        static const Plan first;
        return view == 0 ? first : *new_views[view].body->plan;
    }

    const Reach &eligible_latest() {
        if (is_eligible_stale) {
            vector<const Reach *> rows;
            for (const Latest &l : latest)
                rows.push_back(l.is_there ? &l.frame.body->numbers : nullptr);
            eligible_now = eligible(rows);
            is_eligible_stale = false;
        }
        return eligible_now;
    }

    vector<Frame> latest_frames() const {
        vector<Frame> frames;
        for (const Latest &l : latest)
            if (l.is_there)
                frames.push_back(l.frame);
        return frames;
    }

    // By master, how far f + 1 latest summaries have its requests certified.
    Reach shown() const {
        Reach result(group.n);
        for (u32 j = 0; j < group.n; j++) {
            vector<u64> column(group.n);
            for (u32 m = 0; m < group.n; m++)
                column[m] = latest[m].is_there ? latest[m].frame.body->numbers[j] : 0;
            result[j] = nth_highest(column, group.f);
        }
        return result;
    }

    static u64 nth_highest(vector<u64> values, size_t place) {
        std::sort(values.begin(), values.end(), std::greater<u64>());
        return values[place];
    }

    const Rows *offered(u64 s) {
        if (!is_open() || s <= plan().base)
            return nullptr;
        if (s <= plan().end())
            return plan().rows[s - plan().base - 1];
        auto proposal = proposals.find({view, s});
        return proposal == proposals.end() ? nullptr : proposal->second.body->rows;
    }

    void execute_on() {
        for (auto next = ordered.find(gapless + 1); next != ordered.end(); next = ordered.find(gapless + 1)) {
            gapless++;
            raise_to(ordered_reach, next->second->eligible);
        }
        for (;;) {
            is_stopped = false;
            for (u32 j = 0; j < group.n && !is_stopped; j++)
                while (executed_to[j] < may_execute_to[j] && !is_stopped) {
                    auto slot = slots.find({j, executed_to[j] + 1});
                    is_stopped = slot == slots.end() || !slot->second.certified;
                    stopped_at = {j, executed_to[j] + 1};
                    if (!is_stopped) {
                        executed_to[j]++;
                        execute(slot->second.certified);
                    }
                }
            if (is_stopped || run_to == gapless)
                return;
            raise_to(may_execute_to, ordered[++run_to]->eligible);
        }
    }

    void execute(const Body *update) {
        if (update->y == last_of[update->x] + 1) {
            last_of[update->x]++;
            executed.push_back(update);
        }
    }

    const Body *give(u64 j, u64 k) {
        auto slot = slots.find({j, k});
        if (slot == slots.end() || !slot->second.certified)
            return nullptr;
        vector<Frame> frames;
        for (const Frame &request : slot->second.requests)
            if (frames.empty() && request.body->frames[0].body == slot->second.certified)
                frames.push_back(request);
        for (const Frame &ack : quorum_of(word_of(ACK, j, k, slot->second.certified->digest)))
            frames.push_back(ack);
        return word_with(GIVE, 0, 0, frames);
    }

    const Body *give_ordered(u64 s) {
        auto found = ordered.find(s);
        if (found == ordered.end())
            return nullptr;
        u64 v = 0;
        for (auto &quorum : committed[s])
            if (quorum.second == found->second->id)
                v = std::max(v, quorum.first);
        Body b;
        b.kind = GIVE_ORDERED;
        b.x = s;
        b.y = v;
        b.rows = found->second;
        b.frames = quorum_of(word_of(COMMIT, v, s, found->second->id));
        return intern(std::move(b));
    }

    // The wait by the first rules: ticks since the master waits in this view.
    void measure_first(bool is_tick) {
        if (is_open() && !exceeds(eligible_latest(), ordered_reach)) {
            is_waiting = false;
            waited = 0;
            return;
        }
        if (!is_waiting || waited_in != view)
            waited = 0;
        is_waiting = true;
        waited_in = view;
        waited += is_tick;
    }

    // The wait by those that stay alive: ticks since the first event of this view at which something was eligible that
    // still isn't ordered.
    void measure_live(bool is_tick) {
        if (moments_in != view) {
            moments_in = view;
            moments.clear();
        }
        const Reach &now = eligible_latest();
        if (moments.empty() || moments.back().eligible != now)
            moments.push_back(Moment{ticks - is_tick, now});
        auto first = std::find_if(moments.begin(), moments.end(),
                                  [&](const Moment &m) { return exceeds(m.eligible, ordered_reach); });
        waited = first == moments.end() ? 0 : ticks - first->ticks_before;
        moments.erase(moments.begin(), first == moments.end() ? first - 1 : first);
    }

    // The wait above which a master votes against the present leader.
    u64 patience() const {
        u64 forgiven = std::min(view, ticks / 1024);
        return 32ull << std::min<u64>((view - forgiven) / group.n, 16);
    }

    // By the first rules: the bound that counts, and one's own, 0 where too few round trips are known.
    u64 acceptable() {
        vector<u64> bounds(group.n, 16);
        for (u32 i = 0; i < group.n && tat_bounds.count(view); i++)
            if (tat_bounds[view][i] >= 0)
                bounds[i] = tat_bounds[view][i];
        return nth_highest(bounds, group.f);
    }

    u64 own_bound() const {
        vector<u64> bounds;
        for (u32 i = 0; i < group.n; i++)
            if (i != me && round_trips[i].is_there)
                bounds.push_back(2 * round_trips[i].ticks + 4);
        return bounds.size() + 1 < group.q ? 0 : nth_highest(bounds, group.f);
    }

    // ---- one event: the bodies that the master says

    vector<const Body *> out;

    void say(const Body *b) {
        if (said.insert(b->id).second)
            out.push_back(b);
    }

    void say_again(const Body *b) {
        said.insert(b->id);
        out.push_back(b);
    }

    void hear(bool is_tick, const Frame *took) {
        for (const Frame &f : pending)
            join(f);
        pending.clear();
        if (took) {
            join(*took);
            if (took->body->kind == UPDATE)
                updates_taken.emplace(Request(took->body->x, took->body->y), *took);
        }
        ticks += is_tick;
        execute_on();
        if (is_live)
            measure_live(is_tick);
        else
            measure_first(is_tick);
    }

    vector<const Body *> event(bool is_tick, const Frame *took) {
        hear(is_tick, took);
        out.clear();
        u64 limit = std::min(MOST_NUMBER, stable + WINDOW);
        say_requests(is_tick);
        say_summaries(is_tick);
        if (is_tick)
            offer(limit);
        if (is_open()) {
            if (is_live)
                prepare_worthy(limit);
            else
                prepare_all(limit);
        }
        commit(limit);
        if (is_live)
            say_votes(is_tick);
        else
            say_measures(is_tick);
        change_view();
        if (is_live) {
            if (is_tick)
                ask();
            if (took)
                answer(*took);
        } else {
            reconcile_first(is_tick);
        }
        for (; own_mark + 8 <= gapless; own_mark += 8)
            say(word(MARK, own_mark + 8));
        return out;
    }

    bool is_slow_beat(bool is_tick) const { return is_live && is_tick && ticks % 32 == 0; }

    void say_requests(bool is_tick) {
        u64 before = requests_said;
        for (u32 c = 0; c < group.clients; c++) {
            u64 next = (is_live ? std::max(introduced[c], last_of[c]) : introduced[c]) + 1;
            auto update = updates_taken.find({c, next});
            if (!is_door(me, c) || update == updates_taken.end() || requests_said >= MOST_NUMBER)
                continue;
            introduced[c] = next;
            requests_said++;
            own_requests[requests_said] = word_with(REQUEST, requests_said, 0, {update->second});
            say(own_requests[requests_said]);
        }
        u64 first = vector_now[me] + 1;
        if (is_slow_beat(is_tick) && first <= before)
            say_again(own_requests[first]);
        std::map<Request, u64> acks;
        acks.swap(acks_due);
        for (auto &ack : acks)
            say(word_of(ACK, ack.first.first, ack.first.second, ack.second));
        for (u32 j = 0; j < group.n && is_slow_beat(is_tick); j++) {
            auto ack = own_acks.find({j, vector_now[j] + 1});
            if (ack != own_acks.end())
                say_again(word_of(ACK, j, vector_now[j] + 1, ack->second));
        }
        own_acks.insert(acks.begin(), acks.end());
    }

    void say_summaries(bool is_tick) {
        if (!is_tick)
            return;
        if (is_slow_beat(is_tick) && exceeds(last_summary, ordered_reach))
            say_again(summary_of(last_summary));
        if (vector_now != last_summary) {
            last_summary = vector_now;
            say(summary_of(vector_now));
        }
    }

    void offer(u64 limit) {
        if (!is_open() || view % group.n != me || (is_live && gapless < plan().base))
            return;
        u64 s = std::max(plan().end(), offered_to[view]) + 1;
        if (s > limit)
            return;
        Reach reach(group.n);
        for (auto &number : ordered)
            if (number.first <= plan().base)
                raise_to(reach, number.second->eligible);
        for (u64 t = plan().base + 1; t < s; t++)
            if (const Rows *rows = offered(t))
                raise_to(reach, rows->eligible);
        if (exceeds(eligible_latest(), reach)) {
            offered_to[view] = s;
            say(word_with(PREPREPARE, view, s, latest_frames()));
        }
    }

    void prepare(u64 to) {
        for (u64 s = plan().base + 1; s <= to; s++) {
            const Rows *rows = offered(s);
            if (rows && prepares_said.insert({view, s}).second)
                say(word_of(PREPARE, view, s, rows->id));
        }
    }

    void prepare_all(u64 limit) { prepare(limit); }

    // What is offered up to the plan's end or the last number without a gap, and above as long as each number adds
    // something.
    void prepare_worthy(u64 limit) {
        u64 worth = std::max(plan().end(), gapless);
        Reach reach = ordered_reach;
        for (u64 s = gapless + 1; s <= limit; s++) {
            const Rows *rows = offered(s);
            if (!rows && ordered.count(s))
                rows = ordered[s];
            if (!rows || (s > plan().end() && !exceeds(rows->eligible, reach)))
                break;
            raise_to(reach, rows->eligible);
            worth = std::max(worth, s);
        }
        prepare(std::min(worth, limit));
    }

    void commit(u64 limit) {
        std::set<u64> &open = commits_open[view];
        while (!open.empty() && *open.begin() <= limit) {
            u64 s = *open.begin();
            open.erase(open.begin());
            say(word_of(COMMIT, view, s, certificates[s][view][0]->id));
        }
    }

    // Against each view that was left, and on to what f + k + 1 masters voted against; out of patience against the
    // present one, and at each 16th tick against the last two again.
    void say_votes(bool is_tick) {
        bool is_impatient = is_tick && waited > patience();
        u64 to = std::max(nth_highest(voted_to, group.f + group.k), is_impatient ? view + 1 : view);
        for (u64 w = 0; w < std::min(to, MOST_VIEW); w++) {
            if (votes_said.insert(w).second)
                say(word(SUSPECT, w));
            else if (is_impatient && ticks % 16 == 0 && (w == view || w + 1 == view))
                say_again(word(SUSPECT, w));
        }
    }

    void say_measures(bool is_tick) {
        if (is_tick && ticks % 16 == 0)
            say(word(PING, ticks / 16));
        for (const Request &ping : pings)
            say(word(PONG, ping.first, ping.second));
        pings.clear();
        for (auto pong = pongs.begin(); pong != pongs.end();) {
            if (pings_said.count(pong->second)) {
                say(word(ROUND_TRIP, pong->first, pong->second, ticks - 16 * pong->second));
                pong = pongs.erase(pong);
            } else {
                ++pong;
            }
        }
        if (is_tick && ticks % 16 == 0)
            pings_said.insert(ticks / 16);
        if (!is_tick)
            return;
        if (waited > 0 && waited % 8 == 0)
            say(word(TAT_REPORT, view, waited));
        u64 bound = own_bound();
        if (bound && bounds_said.insert(view).second)
            say(word(TAT_BOUND, view, bound));
        vector<u64> reported = tat_reports[view];
        reported.resize(group.n);
        if (view < MOST_VIEW && nth_highest(reported, group.n - 1 - group.f) > acceptable())
            say(word(SUSPECT, view));
    }

    void change_view() {
        if (view >= 1 && suspected.count(view - 1) && reports_said.insert(view).second) {
            Body b;
            b.kind = REPORT;
            b.x = view;
            b.y = stable;
            if (stable)
                b.frames = quorum_of(word(MARK, stable));
            for (auto number = certificates.upper_bound(stable);
                 number != certificates.end() && number->first <= stable + WINDOW; ++number) {
                auto last = number->second.lower_bound(view);
                if (last == number->second.begin())
                    continue;
                --last;
                const Rows *best = *std::min_element(last->second.begin(), last->second.end(),
                                                     [](const Rows *a, const Rows *c) { return a->id < c->id; });
                b.certificates.push_back(
                    Certificate{number->first, last->first, best,
                                quorum_of(word_of(PREPARE, last->first, number->first, best->id))});
            }
            say(intern(std::move(b)));
        }
        if (view >= 1 && view % group.n == me && !new_views_said.count(view) && reports[view].size() >= group.q) {
            new_views_said.insert(view);
            vector<Frame> frames;
            for (auto &report : reports[view])
                if (frames.size() < group.q)
                    frames.push_back(report.second);
            say(word_with(NEW_VIEW, view, 0, frames));
        }
    }

    // Asks are said at once, and again at each 16th tick while what they ask for is lacking.
    void ask() {
        bool is_beat = ticks % 16 == 0;
        int room = 16;
        for (u32 j = 0; j < group.n; j++) {
            u64 to = std::max(ordered_reach[j], ticks % 4 == 0 ? shown_before[j] : 0);
            for (u64 k = vector_now[j] + 1; k <= std::min(to, MOST_NUMBER) && room > 0; k++) {
                auto slot = slots.find({j, k});
                if (slot != slots.end() && slot->second.certified)
                    continue;
                if (updates_asked.insert({j, k}).second || is_beat) {
                    say_again(word(ASK_UPDATE, j, k));
                    room--;
                }
            }
        }
        if (ticks % 4 == 0)
            shown_before = shown();
        u64 base = is_open() ? plan().base : 0, to = 0;
        if (waited > 16 || gapless < base)
            to = std::max(nth_highest(committed_to, group.f), base);
        bool had_to_ask = orders_asked.count(gapless) && !orders_asked.count(gapless + 1);
        if (waited > 16 || had_to_ask || ticks % 128 == 0)
            to = std::max(to, gapless + 1);
        for (u64 s = gapless + 1; s <= std::min({to, gapless + 64, MOST_NUMBER}); s++)
            if (!ordered.count(s) && (orders_asked.insert(s).second || is_beat))
                say_again(word(ASK_ORDER, s));
    }

    // The ask just taken is answered within its asker's share.
    void answer(const Frame &asked) {
        const Body &b = *asked.body;
        if ((b.kind != ASK_UPDATE && b.kind != ASK_ORDER) || asked.signer == me || asked.signer >= group.n)
            return;
        u64 things = gapless;
        for (u64 number : vector_now)
            things += number;
        if (answered[asked.signer] >= 64 + ticks / 4 + 4 * things)
            return;
        if (const Body *gift = b.kind == ASK_UPDATE ? give(b.x, b.y) : give_ordered(b.x)) {
            answered[asked.signer]++;
            say_again(gift);
        }
    }

    // By the first rules each thing is asked for once, and given once.
    void reconcile_first(bool is_tick) {
        if (is_tick && is_stopped)
            say(word(ASK_UPDATE, stopped_at.first, stopped_at.second));
        for (auto asked = asked_updates.begin(); asked != asked_updates.end();) {
            const Body *gift = give(asked->first, asked->second);
            if (gift) {
                given_updates.insert(*asked);
                say(gift);
            }
            asked = gift ? asked_updates.erase(asked) : std::next(asked);
        }
        if (is_tick && !ordered.empty() && ordered.rbegin()->first > gapless + 1)
            say(word(ASK_ORDER, gapless + 1));
        for (auto asked = asked_orders.begin(); asked != asked_orders.end();) {
            const Body *gift = give_ordered(*asked);
            if (gift) {
                given_orders.insert(*asked);
                say(gift);
            }
            asked = gift ? asked_orders.erase(asked) : std::next(asked);
        }
    }
};
