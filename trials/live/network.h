// The masters of one run, what is on its way between them, and who is away. Rounds are counted from 1; in each, what
// arrives and a tick of each master come in a random order. In a run of flows all that was said in a round arrives in
// the next one, as it was said, and then all masters tick.
#pragma once
#include "master.h"
#include "play.h"
#include <random>

// The settings of a run, NAME=VALUE on the command line; README.md tells them.
static std::map<std::string, i64> settings;
static i64 setting(const char *name, i64 otherwise) {
    auto found = settings.find(name);
    return found == settings.end() ? otherwise : found->second;
}

enum Absence { NOBODY, AWAY, LATE, IN_TURN, IN_TURN_LOST, HALF };
static const vector<std::string> ABSENCES = {"nobody", "away", "late", "in_turn", "in_turn_lost", "half"};
enum Delays { UNIFORM, BY_LINK, ONE_FAR, MOSTLY_FAST, FAR_ONES, INTRUDED_NEAR, LEADER_FAR };
static const vector<std::string> DELAYS = {"uniform",  "by_link",       "one_far",   "mostly_fast",
                                           "far_ones", "intruded_near", "leader_far"};

struct Network {
    struct Message {
        u32 to;
        Frame frame;
        u32 from;   // NO_ONE: a tick
        u64 number; // in a play, of its signer's words of its kind
    };
    static const u32 NO_ONE = ~0u;
    struct Command {
        u32 client;
        u64 number;
        int said, done;
    };
    std::mt19937_64 random;
    vector<std::unique_ptr<Master>> masters;
    vector<bool> is_intruded, is_connected, is_outside; // outside: away, late or half, for the whole run
    int round = 0, most = 2, least = 1;                 // delays in rounds
    int delays = UNIFORM, absence = NOBODY;
    bool is_chase = false; // the network takes an intruder's side: see CHASE
    vector<vector<int>> links;
    u32 far_one = 0, leader = 0;
    u64 far_ones = 0; // bits
    std::map<int, vector<Message>> arriving;
    vector<vector<Message>> backlog; // of a master that is away
    vector<Command> commands;
    vector<u64> updates_said;
    u64 words = 0;
    std::map<u32, int> away_until;
    int next_away = 0, last_away = 0;
    u32 booted = 0;
    int boots_at = 0;
    vector<int> rates, parts; // ticks of each master in 100 rounds, and what is left of them
    std::function<void(u32, const Frame &)> intruder_would_say;
    std::function<void()> intruders_act;
    Play *play = nullptr; // where the run is written down as a play
    bool is_flow = false;

    Network(u64 seed, const std::set<u32> &intruded) : random(seed) {
        for (auto &body : all_bodies)
            delete body.second;
        for (auto &rows : all_rows)
            delete rows.second;
        all_bodies.clear();
        all_rows.clear();
        for (u32 i = 0; i < group.n; i++) {
            masters.emplace_back(new Master(i));
            is_intruded.push_back(intruded.count(i));
        }
        is_connected.assign(group.n, true);
        is_outside.assign(group.n, false);
        backlog.resize(group.n);
        updates_said.assign(group.clients, 0);
        links.assign(group.n + 8, vector<int>(group.n, 1));
    }

    u64 draw(u64 below) { return random() % below; }

    int draw_delay() { return least + (int)draw(most - least + 1); }

    void draw_links() {
        for (auto &row : links)
            for (int &link : row)
                link = draw_delay();
    }

    bool is_one_of_us(u32 actor) const { return actor < group.n && is_intruded[actor]; }

    bool is_correct(u32 actor) const { return actor < group.n && !is_intruded[actor]; }

    vector<u32> correct() const {
        vector<u32> all;
        for (u32 i = 0; i < group.n; i++)
            if (!is_intruded[i])
                all.push_back(i);
        return all;
    }

    // The correct masters that are there all the time.
    vector<u32> core() const {
        vector<u32> all;
        for (u32 i : correct())
            if (!is_outside[i])
                all.push_back(i);
        return all;
    }

    u64 top_view() const {
        u64 top = 0;
        for (u32 i : correct())
            top = std::max(top, masters[i]->view);
        return top;
    }

    u64 top_number() const {
        u64 top = 0;
        for (u32 i : correct())
            top = std::max(top, masters[i]->gapless);
        return top;
    }

    // ---- messages

    int delay(u32 from, u32 to) {
        if (round < setting("before", 0)) {
            if (setting("before_fast", 0) && (is_one_of_us(from) || is_intruded[to]))
                return 1;
            i64 low = setting("before_least", 1);
            return low + draw(setting("before_most", 1) - low + 1);
        }
        int rounds = delay_of_link(from, to);
        if (absence == LATE && ((from < group.n && is_outside[from]) || is_outside[to]))
            rounds = 1 + draw(60);
        if (absence == HALF && is_outside[to])
            rounds = 1 + draw(200);
        return rounds;
    }

    int delay_of_link(u32 from, u32 to) {
        auto is_far = [&](u32 actor) { return actor < 64 && (far_ones >> actor & 1); };
        switch (delays) {
        case BY_LINK: return links[from < group.n ? from : group.n + (from - group.n) % 8][to];
        case ONE_FAR: return to == far_one || from == far_one ? most : least;
        case MOSTLY_FAST: return draw(8) ? least : most;
        case FAR_ONES: return (is_far(from) || is_far(to)) && !is_one_of_us(from) ? most : least;
        case INTRUDED_NEAR: return is_one_of_us(from) || is_intruded[to] ? least : most;
        case LEADER_FAR: return (from == leader || to == leader) && !is_one_of_us(from) ? most : least;
        default: return draw_delay();
        }
    }

    void post(u32 from, u32 to, const Frame &frame, u64 number) {
        bool is_from_outside = from < group.n && is_outside[from];
        if (is_chase && is_from_outside) {
            auto all = core();
            bool is_rest = !is_outside[to] && !is_intruded[to] &&
                           std::find(all.begin(), all.begin() + group.f + 1, to) == all.begin() + group.f + 1;
            if (frame.body->kind == PREPREPARE || (is_rest && frame.body->kind == SUSPECT))
                return;
        }
        if (absence == HALF && is_from_outside && !is_intruded[to] && to % 2 == 0)
            return;
        Message message{to, frame, from, number};
        if (is_flow) {
            arriving[round + 1].push_back(message);
            return;
        }
        if (!is_connected[to] || (from < group.n && !is_connected[from])) {
            if (absence == IN_TURN || boots_at)
                backlog[is_connected[to] ? from : to].push_back(message);
            return;
        }
        arriving[round + (is_chase ? 1 : delay(from, to))].push_back(message);
    }

    // The words of intruders.
    void say_to(u32 from, const Frame &word, vector<u32> to) {
        to.erase(std::remove(to.begin(), to.end(), from), to.end());
        u64 number = 0;
        Frame frame = word;
        if (play && !to.empty()) {
            std::sort(to.begin(), to.end());
            frame = play->as_made(word);
            number = play->cry(from, frame, to);
            take_own(from);
        }
        for (u32 t : to)
            post(from, t, frame, number);
    }

    // In a flow what an intruder said to itself comes to it.
    void take_own(u32 from) {
        for (auto &own : play->said_to_self)
            if (is_flow && is_in_place(own.first))
                arriving[round + 1].push_back(Message{from, own.first, from, own.second});
        play->said_to_self.clear();
    }

    void say_to_all(u32 from, const Frame &frame) { say_to(from, frame, all_but_one(from)); }

    static vector<u32> all_but_one(u32 master) {
        vector<u32> to;
        for (u32 t = 0; t < group.n; t++)
            if (t != master)
                to.push_back(t);
        return to;
    }

    // One event of a master; what an intruded one would say goes to its intruder.
    void act(u32 master, bool is_tick, const Frame *took, u64 number = 0) {
        Master &m = *masters[master];
        size_t executed = m.executed.size();
        if (is_intruded[master]) {
            for (const Body *body : m.event(is_tick, took)) {
                Frame frame{master, body};
                m.pending.push_back(frame);
                if (play)
                    play->note(frame);
                intruder_would_say(master, frame);
            }
            return;
        }
        if (play && is_tick)
            play->tick(master);
        else if (play)
            play->take(master, *took, number);
        vector<const Body *> bodies = m.event(is_tick, took);
        for (const Body *body : bodies)
            m.pending.push_back(Frame{master, body});
        words += bodies.size();
        if (play)
            add_vouchers(m, executed, bodies);
        vector<u64> numbers = play ? play->say(master, bodies) : vector<u64>(bodies.size());
        for (size_t i = 0; i < bodies.size(); i++)
            send(master, bodies[i], numbers[i]);
    }

    void send(u32 master, const Body *body, u64 number) {
        if (body->kind != VOUCHER)
            for (u32 t : all_but_one(master))
                post(master, t, Frame{master, body}, number);
        else if (is_flow)
            arriving[round + 1].push_back(Message{group.n + (u32)body->x, Frame{master, body}, master, number});
    }

    // A voucher for each update executed since, by client, before the marks.
    static void add_vouchers(const Master &m, size_t executed, vector<const Body *> &bodies) {
        vector<u64> counts(group.clients);
        vector<std::pair<u64, u64>> vouchers;
        for (size_t i = 0; i < m.executed.size(); i++) {
            u64 number = ++counts[m.executed[i]->x];
            if (i >= executed)
                vouchers.push_back({m.executed[i]->x, number});
        }
        std::sort(vouchers.begin(), vouchers.end());
        auto at =
            std::find_if(bodies.begin(), bodies.end(), [](const Body *b) { return b->kind == MARK; }) - bodies.begin();
        for (auto &voucher : vouchers)
            bodies.insert(bodies.begin() + at++, word(VOUCHER, voucher.first, voucher.second));
    }

    void command(u32 client) {
        u64 update = ++updates_said[client];
        Frame frame{group.n + client, word(UPDATE, client, update)};
        u64 number = play ? play->command(frame) : 0;
        for (u32 i = 0; i < group.n; i++) {
            if (!is_door(i, client))
                continue;
            if (absence != IN_TURN_LOST || is_flow)
                post(group.n + client, i, frame, number);
            else if (is_connected[i])
                act(i, false, &frame, number);
        }
        commands.push_back(Command{client, update, round, -1});
    }

    // ---- who is away

    void hand_over(u32 master, u64 within) {
        vector<Message> missed;
        missed.swap(backlog[master]);
        for (const Message &m : missed) {
            if (m.from < group.n && !is_connected[m.from])
                backlog[m.from].push_back(m);
            else if (!is_connected[m.to])
                backlog[m.to].push_back(m);
            else
                arriving[round + 1 + draw(within)].push_back(m);
        }
    }

    void connect(u32 master, bool is_there) {
        is_connected[master] = is_there;
        if (!play)
            return;
        if (is_flow)
            play->line((is_there ? "heal " : "lose ") + name_of(master));
        if (!is_there)
            play->absences.push_back(Play::Absence{master, round, -1});
        for (Play::Absence &absence : play->absences)
            if (is_there && absence.master == master && absence.until < 0)
                absence.until = round;
    }

    // Those that are away in the whole run, where flows would bring them all.
    void lose_those_away() {
        for (u32 i = 0; i < group.n && is_flow; i++)
            if (!is_connected[i])
                play->line("lose " + name_of(i));
    }

    void take_away() {
        if (absence != IN_TURN && absence != IN_TURN_LOST)
            return;
        for (auto away = away_until.begin(); away != away_until.end();) {
            u32 master = away->first;
            if (away->second > round) {
                ++away;
                continue;
            }
            connect(master, true);
            away = away_until.erase(away);
            hand_over(master, most);
        }
        if (round < next_away || round >= last_away || away_until.size() >= group.k)
            return;
        auto all = correct();
        u32 next = all[draw(all.size())];
        if (setting("leader_away", 0) && !is_intruded[top_view() % group.n] && draw(4))
            next = top_view() % group.n;
        if (is_connected[next]) {
            connect(next, false);
            away_until[next] = round + 5 + draw(setting("longest", 120));
        }
        next_away = round + draw(setting("gap", 40));
    }

    void boot() {
        if (boots_at && round == 1)
            connect(booted, false);
        if (boots_at && round == boots_at) {
            connect(booted, true);
            hand_over(booted, 2);
        }
    }

    // ---- rounds

    int ticks_of(u32 master) {
        if (boots_at && master == booted && round < boots_at)
            return 0;
        if (rates.empty())
            return 1;
        parts[master] += rates[master];
        int ticks = parts[master] / 100;
        parts[master] %= 100;
        return ticks;
    }

    void step() {
        round++;
        if (play)
            play->begin_round(standings());
        leader = top_view() % group.n;
        boot();
        take_away();
        if (is_flow)
            flow();
        intruders_act();
        vector<Message> now;
        now.swap(arriving[round]);
        arriving.erase(round);
        if (is_flow || (play && now.empty() && rates.empty()))
            tick_together();
        else
            mix(now);
        for (Command &c : commands)
            if (c.done < 0 && is_executed(c))
                c.done = round;
    }

    void mix(vector<Message> &now) {
        for (u32 i = 0; i < group.n; i++)
            for (int tick = ticks_of(i); tick > 0; tick--)
                now.push_back(Message{i, Frame(), NO_ONE, 0});
        std::shuffle(now.begin(), now.end(), random);
        for (const Message &m : now) {
            if (m.from == NO_ONE) {
                act(m.to, true, nullptr);
            } else if (!is_connected[m.to] || (m.from < group.n && !is_connected[m.from] && absence == IN_TURN_LOST)) {
                if (absence == IN_TURN || boots_at)
                    backlog[m.to].push_back(m);
            } else {
                act(m.to, false, &m.frame, m.number);
            }
        }
    }

    // All that was said in the round before arrives, as it was said. Intruders answer after it.
    void flow() {
        vector<Message> now;
        now.swap(arriving[round]);
        arriving.erase(round);
        if (now.empty())
            return;
        vector<const Message *> ours;
        play->line("flow");
        play->is_together = true;
        for (const Message &m : now) {
            bool is_lost = (m.to < group.n && !is_connected[m.to]) || (m.from < group.n && !is_connected[m.from]);
            if (is_lost)
                continue;
            if (is_correct(m.to)) {
                act(m.to, false, &m.frame, m.number);
                continue;
            }
            play->take(m.to, m.frame, m.number);
            if (m.to < group.n)
                ours.push_back(&m);
        }
        play->is_together = false;
        for (const Message *m : ours)
            act(m->to, false, &m->frame);
    }

    // In a play, one line for all.
    void tick_together() {
        play->line("tick masters");
        play->is_together = true;
        for (u32 i = 0; i < group.n; i++) {
            if (is_intruded[i])
                play->tick(i);
            else
                act(i, true, nullptr);
        }
        play->is_together = false;
        for (u32 i = 0; i < group.n; i++)
            if (is_intruded[i])
                act(i, true, nullptr);
    }

    vector<Play::Standing> standings() const {
        vector<Play::Standing> all;
        for (auto &master : masters)
            all.push_back(Play::Standing{master->view, master->executed.size()});
        return all;
    }

    // Executed by all correct masters that are there.
    bool is_executed(const Command &c) const {
        for (u32 i : core())
            if (is_connected[i] && masters[i]->last_of[c.client] < c.number)
                return false;
        return true;
    }

    // No two correct masters executed or ordered different things.
    bool agrees() const {
        for (u32 a : correct())
            for (u32 b : correct()) {
                auto &some = masters[a]->executed, &others = masters[b]->executed;
                if (!std::equal(some.begin(), some.begin() + std::min(some.size(), others.size()), others.begin()))
                    return false;
                for (auto &number : masters[a]->ordered) {
                    auto other = masters[b]->ordered.find(number.first);
                    if (other != masters[b]->ordered.end() && other->second != number.second)
                        return false;
                }
            }
        return true;
    }
};
