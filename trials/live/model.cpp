// A model of the masters under both sets of rules, and runs of it against intruders: README.md tells the settings.
#include "intruders.h"
#include "play_files.h"

static std::string play_files; // where the run is written as a play, without the ending

static int place_of(const vector<std::string> &names, const std::string &name) {
    return std::find(names.begin(), names.end(), name) - names.begin();
}

// NAME=VALUE; strategies, absences and kinds of delay are given by name.
static bool read_setting(const std::string &argument) {
    size_t at = argument.find('=');
    if (at == std::string::npos)
        return false;
    std::string name = argument.substr(0, at), value = argument.substr(at + 1);
    if (name == "play") {
        play_files = value;
        return true;
    }
    const vector<std::string> *names = name == "strategy"  ? &STRATEGIES
                                       : name == "absence" ? &ABSENCES
                                       : name == "delays"  ? &DELAYS
                                                           : nullptr;
    if (!names || value == "any") {
        settings[name] = value == "any" ? -1 : atoll(value.c_str());
        return true;
    }
    settings[name] = place_of(*names, value);
    return settings[name] < (i64)names->size();
}

struct Totals {
    u64 runs = 0, stalled = 0, commands = 0, open = 0, disagreements = 0, views = 0, top_view = 0, words = 0, top = 0;
    double idle_words = 0;
    vector<int> delays;
};

static std::set<u32> choose_intruded(std::mt19937_64 &choices) {
    std::set<u32> intruded;
    i64 given = setting("intruded", 0), where = setting("where", 0);
    for (u32 i = 0; i < group.n && given; i++)
        if (given >> i & 1)
            intruded.insert(i);
    if (given || setting("strategy", HONEST) == HONEST)
        return intruded;
    while (where == 1 && intruded.size() < group.f)
        intruded.insert(choices() % group.n);
    for (u32 i = 0; i < group.f && where != 1; i++)
        intruded.insert(where == 0 ? i : group.n - 1 - i);
    return intruded;
}

static void choose_network(Network &net, std::mt19937_64 &choices) {
    net.most = setting("D", 2);
    net.least = setting("Dmin", 1);
    net.absence = setting("absence", NOBODY);
    net.is_chase = setting("strategy", HONEST) == CHASE;
    net.delays = setting("delays", UNIFORM);
    if (net.delays < 0)
        net.delays = choices() % 4;
    net.far_ones = setting("far", 0);
    net.boots_at = setting("boot", 0);
    net.booted = group.n - 1;
    net.last_away = setting("rounds", 500) - setting("drain", 250);
    if (setting("clocks", 0)) {
        static const int RATES[] = {50, 70, 100, 140, 200};
        net.parts.assign(group.n, 0);
        for (u32 i = 0; i < group.n; i++)
            net.rates.push_back(setting("clocks", 0) == 1 ? RATES[choices() % 5] : 50 + choices() % 151);
    }
    net.draw_links();
    auto correct = net.correct();
    net.far_one = correct[choices() % correct.size()];
    if (net.absence != AWAY && net.absence != LATE && net.absence != HALF)
        return;
    std::shuffle(correct.begin(), correct.end(), choices);
    if (setting("outside_last", 0)) {
        correct = net.correct();
        std::reverse(correct.begin(), correct.end());
    }
    for (u32 i = 0; i < group.k; i++) {
        net.is_outside[correct[i]] = true;
        net.is_connected[correct[i]] = net.absence != AWAY;
    }
}

static void choose_policy(Intruders &intruders, Network &net, std::mt19937_64 &choices) {
    Intruders::Policy &p = intruders.policy;
    p.strategy = setting("strategy", HONEST);
    p.percent = setting("percent", 50);
    static const int SAID[] = {REQUEST,   ACK,     SUMMARY, PREPREPARE, PREPARE,   COMMIT,
                               TAT_BOUND, SUSPECT, REPORT,  NEW_VIEW,   TAT_REPORT};
    p.kind = SAID[choices() % 11];
    auto core = net.core();
    if (!setting("victims_first", 0))
        std::shuffle(core.begin(), core.end(), choices);
    size_t most = group.f + group.k;
    size_t count = p.strategy == STARVES_ONE                                         ? 1
                   : p.strategy == STARVES_SOME || p.strategy == STARVES_THEN_SILENT ? most
                   : p.strategy == MIX                                               ? 1 + choices() % most
                                                                                     : 0;
    count = setting("victims", count);
    p.victims.insert(core.begin(), core.begin() + std::min(count, core.size()));
}

// The rounds; answers the words said before the last hundred. A play ends once all is executed, or it is too long.
static u64 go(Network &net) {
    i64 rounds = setting("rounds", 500), last = rounds - setting("drain", 250), every = setting("every", 15);
    i64 first = setting("first", 30);
    u64 before_idle = 0;
    for (i64 round = 0; round < rounds; round++) {
        if (round >= first && round < last && (round - first) % every == 0)
            net.command(net.draw(4));
        net.step();
        if (round == rounds - 101)
            before_idle = net.words;
        if (!net.play)
            continue;
        if (net.play->is_too_long()) {
            net.play->cut();
            break;
        }
        bool is_done = std::all_of(net.commands.begin(), net.commands.end(),
                                   [&](const Network::Command &c) { return c.done >= 0 && c.done < net.round - 20; });
        if (round >= last && is_done)
            break;
    }
    return before_idle;
}

static void run(u64 seed, Totals &totals) {
    std::mt19937_64 choices(seed * 7919 + 13);
    Network net(seed, choose_intruded(choices));
    choose_network(net, choices);
    Intruders intruders(net);
    choose_policy(intruders, net, choices);
    net.intruder_would_say = [&](u32 from, const Frame &frame) { intruders.would_say(from, frame); };
    net.intruders_act = [&] { intruders.act(); };
    std::unique_ptr<Play> play;
    if (!play_files.empty())
        play.reset(new Play(setting("frames", 1) == 2));
    net.play = play.get();
    net.is_flow = play && setting("flow", 0);
    net.lose_those_away();
    u64 before_idle = go(net);
    if (play)
        write_play(play_files, *play, net);
    u64 open = 0;
    for (const Network::Command &c : net.commands) {
        open += c.done < 0;
        if (c.done >= 0)
            totals.delays.push_back(c.done - c.said);
    }
    totals.runs++;
    totals.stalled += open > 0;
    totals.open += open;
    totals.commands += net.commands.size();
    totals.disagreements += !net.agrees();
    totals.views += net.top_view();
    totals.top_view = std::max(totals.top_view, net.top_view());
    totals.top = std::max(totals.top, net.top_number());
    totals.words += net.words / net.correct().size();
    totals.idle_words += (net.words - before_idle) / 100.0 / net.correct().size();
}

int main(int count, char **arguments) {
    for (int i = 1; i < count; i++)
        if (!read_setting(arguments[i])) {
            fprintf(stderr, "%s: no setting\n", arguments[i]);
            return 2;
        }
    is_live = setting("rules", 2) == 2;
    set_group(setting("f", 1), setting("k", 0));
    Totals t;
    u64 seeds = setting("seeds", 10), first = setting("seed", 1);
    for (u64 seed = first; seed < first + seeds; seed++)
        run(seed, t);
    std::sort(t.delays.begin(), t.delays.end());
    auto at = [&](size_t percent) { return t.delays.empty() ? -1 : t.delays[(t.delays.size() - 1) * percent / 100]; };
    printf(
        "stalled %lu/%lu open %lu/%lu disagree %lu | median %d p99 %d worst %d | view %.1f %lu | words a command %.1f "
        "an idle tick %.2f | numbers %lu\n",
        t.stalled, t.runs, t.open, t.commands, t.disagreements, at(50), at(99), at(100), (double)t.views / t.runs,
        t.top_view, t.commands ? (double)t.words / t.commands : 0.0, t.idle_words / t.runs, t.top);
    return t.disagreements > 0;
}
