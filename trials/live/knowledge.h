// What an intruded master of the program knows in a play. A word in a file of words names the frames in it by their
// place in what its speaker knows (docs/FORMATS.md), and that is less than what its shadow in the model knows.
#pragma once
#include "words.h"

static const char *const KIND_NAMES[KINDS] = {
    "",          "update", "porequest", "poack",       "posummary", "preprepare", "prepare", "commit",
    "ping",      "pong",   "rtt",       "tatreport",   "tatbound",  "suspect",    "report",  "newview",
    "askupdate", "give",   "askorder",  "giveordered", "voucher",   "mark"};

// Masters are m0 and so on; all clients of a play are screens.
static std::string name_of(u32 actor) {
    return actor < group.n ? "m" + std::to_string(actor) : "s" + std::to_string(actor - group.n);
}

struct Knowledge {
    std::map<std::pair<u32, int>, u64> counts; // by signer and kind, how many bodies
    std::map<std::pair<u32, u64>, u64> places; // by signer and body, its place among those, from 1

    bool knows(const Frame &f) const { return places.count({f.signer, f.body->id}); }

    // Takes in the frame and, after it, those inside.
    void learn(const Frame &f) {
        if (knows(f))
            return;
        places[{f.signer, f.body->id}] = ++counts[{f.signer, f.body->kind}];
        each_inside(*f.body, [&](const Frame &part) { learn(part); });
    }

    std::string reference(const Frame &f) const {
        return name_of(f.signer) + "." + KIND_NAMES[f.body->kind] + "." +
               std::to_string(places.at({f.signer, f.body->id}));
    }
};
