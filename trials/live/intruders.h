// What the intruded masters do. Each runs the rules on the side (its shadow), and its strategy chooses which of the
// words that the shadow would say go to whom; some say words of their own, too. They know all, and act together.
#pragma once
#include "network.h"

enum Strategy {
    HONEST,
    SILENT,
    SLOW,                // as a leader, offers just before patience ends
    PARTIAL,             // each word to a part of the masters
    PARTIAL_KIND,        // one kind of word to a part
    SERVES_ONE,          // lets one correct master alone order
    STARVES_ONE,         // says nothing to one
    STARVES_SOME,        // nor to f + k
    TWO_FACED,           // two proposals of one number
    FUZZ,                // words made at random
    PINGS,               // floods of pings
    HIDES,               // requests, acknowledgements and summaries from the leader
    JUNK,                // empty proposals
    SPLIT,               // words of view changes to one
    ASKS,                // floods of asks
    REPEATS,             // one update introduced again and again
    MIX,                 // another strategy each 60 rounds
    RUNAWAY,             // votes to f + 1, all else to the others
    VOTES,               // always against the leader
    STARVES_THEN_SILENT, // as told, then silent
    BURN,                // the same proposal twice
    CHASE,               // views change as soon as a late master has caught up
    PUSH,                // drives patience up while delays are long, then is slow
    BOOT,                // honest, then silent
    FEED,                // serves f + k + 1 just before patience ends, feeds the others numbers
    HOLE,                // its requests to all but some, late
    MOODY,               // strategies, victims and the network's delays change at random
    LEADERS,             // slow one after another, then silent
    VICTIM,              // hides from the leader what another waits for, and votes at once
    SPLITS_NEW_VIEWS,    // a new view and what follows to f + k + 1 alone
    HIDES_WITH_VOTES,    // hides from the leader, votes; then slow
    LEAVES_HOLES,        // each second request to one alone
    MARKS                // withholds marks and commits
};
static const vector<std::string> STRATEGIES = {"honest",
                                               "silent",
                                               "slow",
                                               "partial",
                                               "partial_kind",
                                               "serves_one",
                                               "starves_one",
                                               "starves_some",
                                               "two_faced",
                                               "fuzz",
                                               "pings",
                                               "hides",
                                               "junk",
                                               "split",
                                               "asks",
                                               "repeats",
                                               "mix",
                                               "runaway",
                                               "votes",
                                               "starves_then_silent",
                                               "burn",
                                               "chase",
                                               "push",
                                               "boot",
                                               "feed",
                                               "hole",
                                               "moody",
                                               "leaders",
                                               "victim",
                                               "splits_new_views",
                                               "hides_with_votes",
                                               "leaves_holes",
                                               "marks"};

struct Intruders {
    struct Policy {
        int strategy = HONEST, kind = PREPREPARE, percent = 50;
        std::set<u32> victims;
    };
    struct Mood {
        Policy policy;
        int until = 0;
    };
    struct Held {
        int at;
        u32 from;
        Frame frame;
        vector<u32> to;
    };
    Network &net;
    Policy policy;
    std::map<u32, Mood> moods;
    int mood_of_network_until = 0;
    vector<Held> held;
    vector<Frame> withheld;           // FEED: proposals
    std::map<u32, std::set<u64>> fed; // FEED: numbers given, by master
    std::map<u64, int> first_seen;    // LEADERS: the round of each view
    std::map<u32, std::map<u64, u64>> own_offers;
    std::map<u32, u64> counts;
    u64 pings = 0;

    explicit Intruders(Network &network) : net(network) {}

    // ---- whom

    vector<u32> all_but(const std::set<u32> &victims) const {
        vector<u32> to;
        for (u32 t = 0; t < group.n; t++)
            if (!victims.count(t) || net.is_intruded[t])
                to.push_back(t);
        return to;
    }

    vector<u32> with_ours(vector<u32> to) const {
        for (u32 t = 0; t < group.n; t++)
            if (net.is_intruded[t])
                to.push_back(t);
        return to;
    }

    vector<u32> part(int percent) {
        vector<u32> to;
        for (u32 t = 0; t < group.n; t++)
            if ((int)net.draw(100) < percent)
                to.push_back(t);
        return to;
    }

    static vector<u32> first(const vector<u32> &all, size_t count) {
        return vector<u32>(all.begin(), all.begin() + std::min(all.size(), count));
    }

    static vector<u32> others(const vector<u32> &of) {
        vector<u32> to;
        for (u32 t = 0; t < group.n; t++)
            if (std::find(of.begin(), of.end(), t) == of.end())
                to.push_back(t);
        return to;
    }

    u32 one_of(const vector<u32> &all) { return all[net.draw(all.size())]; }

    static bool is_any(int kind, std::initializer_list<int> kinds) {
        return std::find(kinds.begin(), kinds.end(), kind) != kinds.end();
    }

    static bool is_offer(int kind) { return kind == PREPREPARE || kind == NEW_VIEW; }

    // ---- SLOW and its like

    void hold(u32 from, const Frame &frame, u64 ticks) {
        i64 slack = setting("slack", 3 * net.most + 2);
        int rounds = (int)std::max<i64>(1, (i64)std::min<u64>(ticks, 100000) - slack);
        held.push_back(Held{net.round + rounds, from, frame, others({})});
    }

    // Until the least patience that the core has left is nearly over.
    void keep_waiting(u32 from, const Frame &frame) {
        u64 left = ~0ull;
        for (u32 c : net.core()) {
            Master &m = *net.masters[c];
            if (m.view == net.masters[from]->view)
                left = std::min(left, m.patience() > m.waited ? m.patience() - m.waited : 0);
        }
        hold(from, frame, left);
    }

    void offer_late(u32 from, const Frame &frame) {
        u64 limit = ~0ull;
        for (u32 c : net.core())
            if (net.masters[c]->view == net.masters[from]->view)
                limit = std::min(limit, is_live ? net.masters[c]->patience() : net.masters[c]->acceptable() + 8);
        hold(from, frame, limit);
    }

    // ---- FEED

    vector<u32> fed_ones() const { return first(net.core(), group.f + group.k + 1); }

    void feed(u32 from, const Frame &frame) {
        int kind = frame.body->kind;
        if (kind == PREPREPARE)
            withheld.push_back(frame);
        else if (kind == PREPARE)
            net.say_to(from, frame, with_ours(fed_ones()));
        else if (is_any(kind, {COMMIT, REPORT, MARK, SUSPECT}))
            net.say_to(from, frame, with_ours({}));
        else
            net.say_to_all(from, frame);
    }

    void feed_on(u32 from) {
        auto some = fed_ones();
        Master &shadow = *net.masters[from];
        u64 least = ~0ull, top = 0;
        for (u32 c : some) {
            Master &m = *net.masters[c];
            top = std::max(top, m.view);
            if (m.view == shadow.view)
                least = std::min(least, m.patience() > m.waited ? m.patience() - m.waited : 0);
        }
        vector<Frame> of_view;
        for (const Frame &f : withheld)
            if (f.body->x == shadow.view)
                of_view.push_back(f);
        withheld.swap(of_view);
        if (!withheld.empty() && least <= (u64)setting("last_moment", 4)) {
            // (whoever of them acts: it is the word of the one who leads)
            net.say_to(withheld[0].signer, withheld[0], with_ours(some));
            withheld.erase(withheld.begin());
        }
        for (u32 c : some)
            if (net.masters[c]->votes_said.count(net.masters[c]->view))
                net.say_to(from, Frame{from, word(SUSPECT, net.masters[c]->view)}, some);
        for (u32 late : net.core())
            if (std::find(some.begin(), some.end(), late) == some.end() && net.masters[late]->view < top)
                give_numbers(from, late);
    }

    void give_numbers(u32 from, u32 to) {
        for (auto &number : net.masters[from]->ordered) {
            if (number.first <= net.masters[to]->gapless || !fed[to].insert(number.first).second)
                continue;
            if (const Body *gift = net.masters[from]->give_ordered(number.first))
                net.say_to(from, Frame{from, gift}, {to});
            else
                fed[to].erase(number.first);
        }
    }

    // ---- MOODY

    void change_moods() {
        if (net.round >= mood_of_network_until) {
            mood_of_network_until = net.round + 20 + net.draw(setting("network_length", 100));
            static const int KINDS_OF_DELAY[] = {UNIFORM, BY_LINK, ONE_FAR, MOSTLY_FAST, FAR_ONES};
            net.delays = KINDS_OF_DELAY[net.draw(5)];
            net.draw_links();
            net.far_one = net.draw(group.n);
            net.far_ones = net.draw(1u << group.n);
        }
        static const int CHOICES[] = {
            HONEST,      SILENT,           SLOW,      PARTIAL, PARTIAL_KIND, PARTIAL_KIND, SERVES_ONE,
            STARVES_ONE, STARVES_SOME,     TWO_FACED, HIDES,   SPLIT,        RUNAWAY,      VOTES,
            VICTIM,      SPLITS_NEW_VIEWS, FEED,      LEADERS, SLOW,         LEAVES_HOLES, PUSH};
        static const int SAID[] = {REQUEST, ACK,    SUMMARY,  PREPREPARE, PREPARE, COMMIT,
                                   SUSPECT, REPORT, NEW_VIEW, PONG,       MARK};
        bool is_together = net.draw(2);
        Mood last;
        for (u32 a = 0; a < group.n; a++) {
            if (!net.is_intruded[a] || net.round < moods[a].until)
                continue;
            Mood mood;
            mood.policy.strategy = CHOICES[net.draw(21)];
            mood.policy.kind = SAID[net.draw(11)];
            mood.policy.percent = net.draw(80);
            mood.until = net.round + 10 + net.draw(setting("mood_length", 80));
            u32 count = 1 + net.draw(group.f + group.k);
            while (mood.policy.victims.size() < count)
                mood.policy.victims.insert(one_of(net.correct()));
            last = moods[a] = is_together && last.until ? last : mood;
        }
    }

    // ---- the words of a shadow

    void would_say(u32 from, const Frame &frame) {
        say(policy.strategy == MOODY ? moods[from].policy : policy, from, frame);
    }

    void say(const Policy &p, u32 from, const Frame &frame) {
        int kind = frame.body->kind, strategy = p.strategy;
        if (strategy == MIX) {
            static const int CHOICES[] = {HONEST,      SILENT,       SLOW,      PARTIAL, SERVES_ONE,
                                          STARVES_ONE, STARVES_SOME, TWO_FACED, HIDES,   SPLIT};
            strategy = CHOICES[(from * 7 + net.round / 60) % 10];
        }
        switch (strategy) {
        case SILENT: return;
        case FEED: return feed(from, frame);
        case HOLE: return say_around_holes(p, from, frame);
        case SLOW:
        case PUSH:
        case LEADERS: return say_slowly(strategy, from, frame);
        case SERVES_ONE:
        case TWO_FACED:
        case SPLIT:
        case RUNAWAY:
        case SPLITS_NEW_VIEWS:
        case CHASE: return say_apart(strategy, from, frame);
        case HIDES:
        case LEAVES_HOLES:
        case MARKS: return hide(strategy, from, frame);
        case VICTIM:
        case HIDES_WITH_VOTES: return hide_from_leader(strategy, from, frame);
        case PARTIAL:
        case PARTIAL_KIND:
        case FUZZ: return say_in_part(p, strategy, from, frame);
        case STARVES_ONE:
        case STARVES_SOME:
        case STARVES_THEN_SILENT:
            if (kind != SUSPECT && kind != TAT_REPORT && !is_silent_by_now(strategy))
                net.say_to(from, frame, all_but(p.victims));
            return;
        default:
            if (!is_silent_by_now(strategy) && !is_kept(strategy, kind))
                net.say_to_all(from, frame);
        }
    }

    bool is_silent_by_now(int strategy) const {
        return (strategy == STARVES_THEN_SILENT && net.round > setting("silent_from", 110)) ||
               (strategy == BOOT && net.round > setting("silent_from", 1 << 30));
    }

    static bool is_kept(int strategy, int kind) {
        if (strategy == VOTES)
            return is_any(kind, {TAT_BOUND, ROUND_TRIP});
        return (strategy == BURN || strategy == JUNK) && is_any(kind, {PREPREPARE, SUSPECT});
    }

    void say_in_part(const Policy &p, int strategy, u32 from, const Frame &frame) {
        if (strategy == FUZZ) {
            if (net.draw(100) < 60)
                net.say_to(from, frame, part(net.draw(2) ? 100 : 60));
        } else if (strategy == PARTIAL || frame.body->kind == p.kind) {
            net.say_to(from, frame, part(p.percent));
        } else {
            net.say_to_all(from, frame);
        }
    }

    void say_around_holes(const Policy &p, u32 from, const Frame &frame) {
        int kind = frame.body->kind, till = setting("held_till", 1000);
        if (kind == REQUEST && net.round < till)
            held.push_back(Held{till, from, frame, all_but(p.victims)});
        else
            net.say_to(from, frame, kind == REQUEST || kind == ACK ? all_but(p.victims) : others({}));
    }

    void say_slowly(int strategy, u32 from, const Frame &frame) {
        int kind = frame.body->kind;
        if (strategy == SLOW) {
            if (is_offer(kind))
                offer_late(from, frame);
            else if (kind != SUSPECT)
                net.say_to_all(from, frame);
            return;
        }
        if (strategy == PUSH) {
            if (kind == TAT_BOUND || kind == ROUND_TRIP)
                return;
            if (net.round < setting("before", 0))
                return net.say_to_all(from, frame);
            if (kind == PONG) {
                held.push_back(Held{net.round + (int)setting("slow_pong", 40), from, frame, others({})});
                return;
            }
        }
        if (kind == SUSPECT)
            return;
        u64 view = net.masters[from]->view;
        if (is_offer(kind)) {
            bool is_tired = strategy == LEADERS && view % group.n == from &&
                            net.round - first_seen.emplace(view, net.round).first->second > setting("tires", 150);
            if (!is_tired)
                keep_waiting(from, frame);
            return;
        }
        if (strategy == LEADERS && is_any(kind, {COMMIT, PREPARE, MARK}) && net.draw(2))
            return;
        net.say_to_all(from, frame);
    }

    void say_apart(int strategy, u32 from, const Frame &frame) {
        int kind = frame.body->kind;
        auto correct = net.correct();
        auto some = first(correct, group.f + group.k + 1), few = first(correct, group.f + 1);
        if (strategy == SERVES_ONE) {
            if (is_any(kind, {PREPREPARE, PREPARE}))
                net.say_to(from, frame, some);
            else if (kind == COMMIT)
                net.say_to(from, frame, {correct[0]});
            else if (!is_any(kind, {SUSPECT, TAT_REPORT, MARK}))
                net.say_to_all(from, frame);
        } else if (strategy == TWO_FACED) {
            say_two_things(from, frame);
        } else if (strategy == SPLIT) {
            if (!is_any(kind, {SUSPECT, REPORT, NEW_VIEW, TAT_BOUND, TAT_REPORT}))
                return net.say_to_all(from, frame);
            u32 one = one_of(correct);
            net.say_to(from, frame, kind == NEW_VIEW ? part(50) : vector<u32>{one});
        } else if (strategy == RUNAWAY) {
            net.say_to(from, frame, kind == SUSPECT ? few : others(few));
        } else if (strategy == SPLITS_NEW_VIEWS) {
            if (kind == SUSPECT)
                net.say_to(from, frame, {one_of(correct)});
            else if (is_offer(kind) || is_any(kind, {PREPARE, COMMIT, REPORT, MARK}))
                net.say_to(from, frame, with_ours(some));
            else
                net.say_to_all(from, frame);
        } else if (is_offer(kind) || is_any(kind, {PREPARE, COMMIT})) {
            net.say_to(from, frame, chased());
        } else if (kind != SUSPECT && kind != REPORT) {
            net.say_to_all(from, frame);
        }
    }

    // CHASE: the masters outside, and the core but its first f + 1.
    vector<u32> chased() const {
        vector<u32> to;
        auto few = first(net.core(), group.f + 1);
        for (u32 t = 0; t < group.n; t++)
            if (net.is_outside[t] || std::find(few.begin(), few.end(), t) == few.end())
                to.push_back(t);
        return to;
    }

    void say_two_things(u32 from, const Frame &frame) {
        const Body &b = *frame.body;
        if (b.kind == PREPREPARE && b.frames.size() >= group.q) {
            auto frames = b.frames;
            frames.erase(frames.begin() + net.draw(frames.size()));
            auto some = part(50);
            net.say_to(from, frame, some);
            net.say_to(from, Frame{from, word_with(PREPREPARE, b.x, b.y, frames)}, others(some));
        } else if (b.kind == SUSPECT) {
            net.say_to(from, frame, part(50));
        } else {
            net.say_to_all(from, frame);
        }
    }

    // Whether t is among the first f + k + 1 correct masters besides the leader.
    bool is_near(u32 t, u32 leader) const {
        auto near = net.correct();
        near.erase(std::remove(near.begin(), near.end(), leader), near.end());
        near = first(near, group.f + group.k + 1);
        return std::find(near.begin(), near.end(), t) != near.end();
    }

    vector<u32> behind_leader(int strategy, int kind) {
        vector<u32> to;
        u32 leader = net.top_view() % group.n;
        for (u32 t = 0; t < group.n; t++) {
            if (t == leader)
                continue;
            if (kind == SUMMARY || strategy == HIDES_WITH_VOTES ||
                (strategy == HIDES ? net.draw(100) < 60 : net.is_intruded[t] || is_near(t, leader)))
                to.push_back(t);
        }
        return to;
    }

    void hide(int strategy, u32 from, const Frame &frame) {
        int kind = frame.body->kind;
        auto correct = net.correct();
        if (strategy == HIDES && kind == REQUEST)
            net.say_to(from, frame, part(70));
        else if (strategy == HIDES && is_any(kind, {ACK, SUMMARY}))
            net.say_to(from, frame, behind_leader(strategy, kind));
        else if (strategy == LEAVES_HOLES && kind == REQUEST && frame.body->x % 2)
            net.say_to(from, frame, {one_of(correct)});
        else if (strategy == LEAVES_HOLES && kind == ACK)
            net.say_to(from, frame, first(correct, group.f + 1));
        else if (strategy == MARKS && kind == COMMIT)
            net.say_to(from, frame, {correct[(net.round / 40) % correct.size()]});
        else if (kind != SUSPECT && !(strategy == MARKS && is_any(kind, {MARK, REPORT})))
            net.say_to_all(from, frame);
    }

    void hide_from_leader(int strategy, u32 from, const Frame &frame) {
        int kind = frame.body->kind;
        bool is_hiding = strategy == HIDES_WITH_VOTES ? net.round < setting("before", 0)
                                                      : !net.is_intruded[net.top_view() % group.n];
        bool is_kept = strategy == VICTIM
                           ? is_any(kind, {PREPARE, COMMIT, REPORT, MARK})
                           : is_any(kind, {PREPREPARE, NEW_VIEW, PREPARE, COMMIT, TAT_BOUND, ROUND_TRIP});
        if (is_hiding && is_any(kind, {REQUEST, ACK, SUMMARY}))
            net.say_to(from, frame, behind_leader(strategy, kind));
        else if (!is_hiding && is_offer(kind))
            keep_waiting(from, frame);
        else if (is_hiding ? !is_kept : kind != SUSPECT)
            net.say_to_all(from, frame);
    }

    // ---- words of their own, each round

    void act() {
        if (policy.strategy == MOODY)
            change_moods();
        for (u32 a = 0; a < group.n; a++)
            if (net.is_intruded[a])
                act_alone(policy.strategy, policy.strategy == MOODY ? moods[a].policy.strategy : policy.strategy, a);
        vector<Held> kept;
        for (const Held &h : held) {
            if (h.at <= net.round)
                net.say_to(h.from, h.frame, h.to);
            else
                kept.push_back(h);
        }
        held.swap(kept);
    }

    void vote(u32 from, u64 view) { net.say_to_all(from, Frame{from, word(SUSPECT, view)}); }

    // `group_strategy` is that of all, `own` the one of this master's mood.
    void act_alone(int group_strategy, int own, u32 a) {
        u64 top = net.top_view();
        bool is_before = net.round < setting("before", 0);
        if (own == FEED)
            feed_on(a);
        if ((own == VICTIM || (group_strategy == HIDES_WITH_VOTES && is_before)) && top < MOST_VIEW &&
            !net.is_intruded[top % group.n])
            vote(a, top);
        bool is_often = net.round % setting("often", 1) == 0;
        if ((own == VOTES && is_often) || (group_strategy == PUSH && is_before && net.round > 10)) {
            for (u64 w = top; w < std::min(top + 2, MOST_VIEW); w++)
                vote(a, w);
            tell_measures(a, top, 0, 0);
        }
        if (group_strategy == PUSH && !is_before && net.round % 4 == 0)
            tell_measures(a, top, 8000000000, 4000000000);
        switch (group_strategy) {
        case FUZZ:
            for (u64 count = net.draw(4); count > 0; count--)
                fuzz(a);
            break;
        case BURN:
        case JUNK: return offer_own(group_strategy == BURN, a);
        case CHASE: return chase(a, top);
        case PINGS:
            for (i64 i = 0; i < setting("flood", 3) && is_often; i++)
                net.say_to_all(a, Frame{a, word(PING, 10000 + pings++)});
            break;
        case ASKS: return is_often ? ask(a) : void();
        case REPEATS: return repeat(a);
        }
    }

    // False bounds and round trips, which the first rules alone take.
    void tell_measures(u32 a, u64 view, u64 bound, u64 trip) {
        net.say_to_all(a, Frame{a, word(TAT_BOUND, view, bound)});
        for (u32 c : net.correct())
            net.say_to_all(a, Frame{a, word(ROUND_TRIP, c, net.round, trip)});
    }

    // The leader's proposals: with what is new, twice; or as many empty ones as the window lets it offer.
    void offer_own(bool is_full, u32 a) {
        Master &shadow = *net.masters[a];
        if (shadow.view % group.n != a || !shadow.is_open())
            return;
        u64 &last = own_offers[a][shadow.view];
        last = std::max(last, shadow.plan().end());
        for (int i = 0; (!is_full || i < 2) && last < std::min(shadow.stable + WINDOW, MOST_NUMBER); i++) {
            last++;
            Frame frame{a,
                        word_with(PREPREPARE, shadow.view, last, is_full ? shadow.latest_frames() : vector<Frame>())};
            shadow.pending.push_back(frame);
            net.say_to_all(a, frame);
        }
    }

    void chase(u32 a, u64 top) {
        auto to = first(net.core(), group.f + 1);
        for (u32 c : net.correct())
            if (net.is_outside[c])
                to.push_back(c);
        for (u64 w = top > 3 ? top - 2 : 1; w <= top && w < MOST_VIEW; w++)
            net.say_to(a, Frame{a, word(SUSPECT, w)}, to);
    }

    // Six at random, or for what exists, `asks` each round.
    void ask(u32 a) {
        Master &shadow = *net.masters[a];
        i64 asks = setting("asks", 0);
        for (i64 i = 0; i < (asks ? asks : 6); i++) {
            const Body *asked = nullptr;
            if (asks) {
                u64 count = ++counts[a], j = (count / 2) % group.n;
                if (count % 2)
                    asked = word(ASK_ORDER, 1 + count % std::max<u64>(1, shadow.gapless));
                else if (shadow.vector_now[j])
                    asked = word(ASK_UPDATE, j, 1 + (count / 8) % shadow.vector_now[j]);
            } else if (net.draw(2)) {
                asked = word(ASK_ORDER, 1 + net.draw(shadow.gapless + 8));
            } else {
                u64 j = net.draw(group.n);
                asked = word(ASK_UPDATE, j, 1 + net.draw(shadow.vector_now[j] + 3));
            }
            if (asked)
                net.say_to_all(a, Frame{a, asked});
        }
    }

    // The first update of all, introduced under the next number.
    void repeat(u32 a) {
        Master &shadow = *net.masters[a];
        u64 &number = counts[a];
        number = std::max(number, shadow.requests_said);
        if (shadow.updates_taken.empty() || number >= MOST_NUMBER)
            return;
        Frame frame{a, word_with(REQUEST, ++number, 0, {shadow.updates_taken.begin()->second})};
        shadow.pending.push_back(frame);
        net.say_to_all(a, frame);
    }

    // ---- FUZZ: a word of any kind, about what exists or nearly

    template <class Map> auto some_of(Map &map) {
        auto found = map.begin();
        std::advance(found, net.draw(map.size()));
        return found;
    }

    void fuzz(u32 a) {
        static const int CHOICES[] = {REQUEST,    ACK,        ACK,       SUMMARY,    SUMMARY,   PREPREPARE, PREPREPARE,
                                      PREPREPARE, PREPARE,    PREPARE,   COMMIT,     COMMIT,    PING,       PONG,
                                      ROUND_TRIP, TAT_REPORT, TAT_BOUND, SUSPECT,    SUSPECT,   SUSPECT,    REPORT,
                                      REPORT,     NEW_VIEW,   NEW_VIEW,  ASK_UPDATE, ASK_ORDER, MARK};
        Body b;
        b.kind = CHOICES[net.draw(27)];
        Master &shadow = *net.masters[a];
        bool is_made = b.kind <= COMMIT ? fuzz_order(shadow, b) : fuzz_other(shadow, b);
        if (!is_made)
            return;
        Frame frame{a, intern(std::move(b))};
        if (!is_in_place(frame))
            return;
        shadow.pending.push_back(frame);
        net.say_to(a, frame, part(net.draw(3) ? 50 : 100));
    }

    u64 some_view(const Master &shadow) { return std::max<i64>(0, (i64)shadow.view + (i64)net.draw(5) - 2); }

    u64 some_led_view(const Master &shadow, u64 least) {
        u64 view = std::max(least, some_view(shadow));
        while (view % group.n != shadow.me)
            view++;
        return view;
    }

    bool fuzz_order(Master &shadow, Body &b) {
        switch (b.kind) {
        case REQUEST:
        case ACK: return fuzz_request(shadow, b);
        case SUMMARY:
            b.numbers = shadow.vector_now;
            for (u64 &number : b.numbers)
                number = std::min(MOST_NUMBER, number + net.draw(3) * net.draw(5));
            if (net.draw(4) == 0)
                for (u64 &number : b.numbers)
                    number = net.draw(MOST_NUMBER + 1);
            return true;
        case PREPREPARE:
            b.x = some_led_view(shadow, 0);
            b.y = 1 + shadow.stable + net.draw(WINDOW);
            for (const Frame &f : shadow.latest_frames())
                if (net.draw(8))
                    b.frames.push_back(f);
            return true;
        default: return fuzz_vote(shadow, b);
        }
    }

    bool fuzz_request(Master &shadow, Body &b) {
        if (shadow.slots.empty())
            return false;
        auto slot = some_of(shadow.slots), other = b.kind == ACK ? some_of(shadow.slots) : slot;
        if (other->second.requests.empty())
            return false;
        const Body &request = *other->second.requests[0].body;
        if (b.kind == ACK) {
            b.x = slot->first.first;
            b.y = slot->first.second;
            b.digest = request.frames[0].body->digest;
        } else {
            b.x = 1 + net.draw(shadow.requests_said + 4);
            b.frames = request.frames;
        }
        return true;
    }

    bool fuzz_vote(Master &shadow, Body &b) {
        if (shadow.rows_known.empty())
            return false;
        b.digest = some_of(shadow.rows_known)->first;
        b.x = some_view(shadow);
        b.y = 1 + shadow.stable + net.draw(WINDOW);
        if (net.draw(2) && !shadow.proposals.empty()) {
            auto proposal = some_of(shadow.proposals);
            b.x = proposal->first.first;
            b.y = proposal->first.second;
            b.digest = proposal->second.body->rows->id;
        }
        return true;
    }

    bool fuzz_other(Master &shadow, Body &b) {
        switch (b.kind) {
        case PING: b.x = net.draw(1000); return true;
        case PONG:
        case ROUND_TRIP:
            b.x = net.draw(group.n);
            b.y = net.draw(shadow.ticks / 16 + 9);
            b.z = b.kind == ROUND_TRIP && net.draw(2) ? net.draw(100000) : 0;
            return true;
        case TAT_REPORT:
        case TAT_BOUND:
            b.x = some_view(shadow);
            b.y = b.kind == TAT_REPORT ? 8 * net.draw(100) : net.draw(2) ? net.draw(10) : 1000000000;
            return true;
        case SUSPECT: b.x = some_view(shadow); return true;
        case ASK_UPDATE:
            b.x = net.draw(group.n);
            b.y = 1 + net.draw(shadow.vector_now[b.x] + 4);
            return true;
        case ASK_ORDER: b.x = 1 + net.draw(shadow.gapless + 20); return true;
        case MARK: b.x = 8 * (1 + net.draw(shadow.gapless / 8 + 3)); return true;
        default: return fuzz_view(shadow, b);
        }
    }

    bool fuzz_view(Master &shadow, Body &b) {
        b.x = b.kind == NEW_VIEW ? some_led_view(shadow, 1) : std::max<u64>(1, some_view(shadow));
        auto known = shadow.reports.find(b.x);
        size_t count = known == shadow.reports.end() ? 0 : known->second.size();
        if (b.kind == NEW_VIEW) {
            if (count < group.q)
                return false;
            for (auto &report : known->second)
                b.frames.push_back(report.second);
            while (b.frames.size() > group.q)
                b.frames.erase(b.frames.begin() + net.draw(b.frames.size()));
        } else if (count > 0) {
            const Body &report = *some_of(known->second)->second.body;
            b.y = report.y;
            b.frames = report.frames;
            for (const Certificate &c : report.certificates)
                if (net.draw(3))
                    b.certificates.push_back(c);
        }
        return true;
    }
};
