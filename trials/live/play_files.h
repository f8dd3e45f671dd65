// The files of a play: NAME.toml, NAME.script and NAME.words for the program; NAME.printed, what it has to print of the
// masters and of the history, without the bytes of cries; and NAME.json, what the model knows besides.
#pragma once
#include "network.h"
#include <fstream>

// Keys of as few levels as hold all that was signed.
static std::string levels_for(const vector<u64> &keys) {
    return *std::max_element(keys.begin(), keys.end()) <= 1024 ? "[5, 5]" : "[5, 5, 5]";
}

static void write_scenario(const std::string &name, const Play &play, const Network &net) {
    std::ofstream out(name + ".toml");
    std::string ours;
    for (u32 i = 0; i < group.n; i++)
        if (net.is_intruded[i])
            ours += (ours.empty() ? "" : ", ") + std::to_string(i);
    char seed[65];
    snprintf(seed, sizeof seed, "%064lx", (u64)setting("seed", 1));
    out << "f = " << group.f << "\nk = " << group.k << "\nseed = \"" << seed << "\"\nlevels = " << levels_for(play.keys)
        << "\nframes = " << (play.is_in_groups ? 2 : 1) << "\nintruded = [" << ours << "]\nscreens = " << group.clients
        << "\nrules = " << (is_live ? 2 : 1) << "\n";
}

static void write_script(const std::string &name, const Play &play) {
    std::ofstream out(name + ".script");
    for (const Play::Line &line : play.script) {
        out << line.text;
        if (line.times > 1)
            out << " " << line.times;
        out << "\n";
    }
}

static void write_lines(const std::string &name, const vector<std::string> &lines) {
    std::ofstream out(name);
    for (const std::string &line : lines)
        out << line << "\n";
}

static void write_printed(const std::string &name, const Play &play, const Network &net,
                          const vector<Play::Standing> &standings) {
    vector<std::string> lines = {"spire 1"};
    for (u32 i = 0; i < group.n; i++) {
        if (net.is_intruded[i]) {
            lines.push_back("master " + name_of(i) + " intruded");
            continue;
        }
        u64 executed = standings[i].executed;
        lines.push_back("master " + name_of(i) + " view " + std::to_string(standings[i].view) + " executed " +
                        std::to_string(executed));
        for (u64 x = 0; x < executed; x++) {
            const Body &update = *net.masters[i]->executed[x];
            lines.push_back(std::to_string(x + 1) + " " + name_of(group.n + update.x) + " " + std::to_string(update.y) +
                            " ack 0");
        }
    }
    lines.push_back("history " + std::to_string(play.entries.size()));
    lines.insert(lines.end(), play.entries.begin(), play.entries.end());
    write_lines(name + ".printed", lines);
}

// Rounds by their first entries; the correct masters that are there, but for absences (of rounds); the greatest number.
static void write_figures(const std::string &name, const Play &play, const Network &net, bool is_cut) {
    std::ofstream out(name + ".json");
    out << "{\"cut\": " << (is_cut ? "true" : "false") << ", \"numbers\": " << net.top_number() << ", \"rounds\": [0";
    for (size_t i = 0; i + is_cut < play.marks.size(); i++)
        out << ", " << play.marks[i].entries;
    out << "], \"core\": [";
    auto core = net.core();
    for (size_t i = 0; i < core.size(); i++)
        out << (i ? ", " : "") << core[i];
    out << "], \"absences\": [";
    for (size_t i = 0; i < play.absences.size(); i++)
        out << (i ? ", " : "") << "[" << play.absences[i].master << ", " << play.absences[i].from << ", "
            << play.absences[i].until << "]";
    out << "]}\n";
}

static void write_play(const std::string &name, const Play &play, const Network &net) {
    bool is_cut = play.is_cut;
    write_scenario(name, play, net);
    write_script(name, play);
    write_lines(name + ".words", play.words);
    write_printed(name, play, net, is_cut ? play.marks.back().standings : net.standings());
    write_figures(name, play, net, is_cut);
}
