// A run of the model, written down as a play of the program: a scenario, a script and a file of words, and what the
// program has to print if its masters say what the model's say. Intruded masters take in a play only what their words
// name, or what a flow brings them.
#pragma once
#include "knowledge.h"

struct Play {
    static const size_t MOST_LINES = 10000, MOST_WORDS = 1000, MOST_ENTRIES = 50000;
    struct Line {
        std::string text;
        u64 times;
    };
    struct Place {
        u64 stamp, body;
    };
    struct Standing {
        u64 view, executed;
    };
    // Where a round begins, and how the masters stand then.
    struct Mark {
        size_t lines, words, entries;
        u64 times;
        vector<Standing> standings;
    };
    struct Absence {
        u32 master;
        int from, until; // rounds
    };
    vector<Line> script;
    vector<std::string> words, entries;
    vector<Mark> marks;
    vector<Absence> absences;
    vector<Knowledge> knowledge;
    vector<u64> keys;                                       // by actor, how many signatures
    std::map<std::pair<u32, int>, vector<Place>> said;      // by signer and kind
    std::map<std::pair<u32, u64>, u64> first_said;          // by signer and body, its first place in `said`, from 1
    std::map<u64, vector<Frame>> requests_of, proposals_of; // by update; by rows
    vector<std::pair<Frame, u64>> said_to_self;             // that its words could name them, with their numbers
    bool is_in_groups = false;                              // the bodies of an entry share a signature
    bool is_cut = false;                                    // it ended because it was too long
    bool is_together = false;                               // one line of the script stands for the entries that come

    explicit Play(bool in_groups) : knowledge(group.n), keys(group.n + group.clients), is_in_groups(in_groups) {}

    // ---- lines

    void line(const std::string &text) {
        bool is_again = (text == "tick masters" || text.compare(0, 4, "cry ") == 0) && !script.empty() &&
                        script.back().text == text && script.back().times < 1000;
        if (is_again)
            script.back().times++;
        else
            script.push_back(Line{text, 1});
    }

    void entry(u32 actor, const std::string &event) {
        entries.push_back(std::to_string(entries.size()) + " " + name_of(actor) + " " + event);
    }

    void tick(u32 master) {
        if (!is_together)
            line("tick " + name_of(master));
        entry(master, "tick");
    }

    void take(u32 actor, const Frame &f, u64 number) {
        const Place &place = said.at({f.signer, f.body->kind}).at(number - 1);
        if (!is_together)
            line("take " + name_of(actor) + " " + name_of(f.signer) + "." + KIND_NAMES[f.body->kind] + "." +
                 std::to_string(number));
        entry(actor, "took " + std::to_string(place.stamp) + "." + std::to_string(place.body));
        if (actor < group.n)
            knowledge[actor].learn(f);
    }

    // What the entry just made says; answers the number of each body among those of its kind.
    vector<u64> say(u32 actor, const vector<const Body *> &bodies) {
        vector<u64> numbers;
        std::string &told = entries.back();
        told += bodies.empty() ? "" : " says";
        for (const Body *body : bodies) {
            told += std::string(" ") + KIND_NAMES[body->kind];
            numbers.push_back(post(Frame{actor, body}, numbers.size()));
        }
        keys[actor] += is_in_groups ? (bodies.size() + 31) / 32 : bodies.size();
        return numbers;
    }

    u64 post(const Frame &f, u64 body) {
        note(f);
        auto &all = said[{f.signer, f.body->kind}];
        all.push_back(Place{entries.size() - 1, body});
        first_said.emplace(std::make_pair(f.signer, f.body->id), all.size());
        return all.size();
    }

    // Of a word that is made, whether it is said or not.
    void note(const Frame &f) {
        if (f.body->kind == REQUEST)
            requests_of[f.body->frames[0].body->digest].push_back(f);
        if (f.body->kind == PREPREPARE)
            proposals_of[f.body->rows->id].push_back(f);
    }

    u64 command(const Frame &f) {
        line("command " + name_of(f.signer) + " ack 0");
        entry(f.signer, "command ack 0");
        return say(f.signer, {f.body})[0];
    }

    // ---- the words of intruded masters

    u64 cry(u32 from, const Frame &f, const vector<u32> &to) {
        note(f);
        std::string word = spell(from, *f.body), names;
        for (u32 actor : to)
            names += (names.empty() ? "" : ",") + name_of(actor);
        words.push_back(name_of(from) + " " + names + " " + word);
        line("cry " + name_of(from));
        entry(from, "cry");
        knowledge[from].learn(f);
        keys[from]++;
        return post(f, 0);
    }

    // The master comes to know the frame: it says it to itself where it is its own, else it takes it.
    void provide(u32 master, const Frame &f) {
        if (knowledge[master].knows(f))
            return;
        if (f.signer != master)
            return take(master, f, first_said.at({f.signer, f.body->id}));
        provide_parts(f);
        said_to_self.push_back({f, cry(master, f, {master})});
    }

    // Whether the program makes the word of what its speaker knows.
    static bool is_made(const Body &b) { return b.kind == REPORT || b.kind == GIVE || b.kind == GIVE_ORDERED; }

    // What the program makes a word of: its speaker comes to know that first.
    void provide_parts(const Frame &f) {
        if (!is_made(*f.body))
            return;
        each_inside(*f.body, [&](const Frame &part) { provide(f.signer, part); });
        if (f.body->kind == GIVE_ORDERED)
            rows_digest(f.signer, f.body->rows->id);
        for (const Certificate &c : f.body->certificates)
            rows_digest(f.signer, c.rows->id);
    }

    // The first of these frames that the master knows, or else that it can come to know.
    std::string digest_of(u32 master, const vector<Frame> &frames) {
        auto known =
            std::find_if(frames.begin(), frames.end(), [&](const Frame &f) { return knowledge[master].knows(f); });
        if (known == frames.end())
            known = std::find_if(frames.begin(), frames.end(), [&](const Frame &f) {
                return f.signer == master || (is_in_place(f) && first_said.count({f.signer, f.body->id}));
            });
        Frame f = known != frames.end() ? *known : Frame{master, word_with(PREPREPARE, 0, 0, {})};
        provide(master, f);
        return "@" + knowledge[master].reference(f);
    }

    // Of rows; where no proposal has them they are those of an empty one, which stands nowhere: nobody else can take it.
    std::string rows_digest(u32 master, u64 rows) { return digest_of(master, proposals_of[rows]); }

    std::string references(u32 master, const vector<Frame> &frames) {
        std::string all;
        for (const Frame &f : frames)
            provide(master, f);
        for (const Frame &f : frames)
            all += " " + knowledge[master].reference(f);
        return all;
    }

    std::string spell(u32 master, const Body &b) {
        std::string kind = KIND_NAMES[b.kind], x = " " + std::to_string(b.x), y = " " + std::to_string(b.y);
        switch (b.kind) {
        case REQUEST: return kind + x + references(master, b.frames);
        case ACK: return kind + x + y + " " + digest_of(master, requests_of[b.digest]);
        case SUMMARY:
            for (u64 number : b.numbers)
                kind += " " + std::to_string(number);
            return kind;
        case PREPREPARE: return kind + x + y + references(master, b.frames);
        case PREPARE:
        case COMMIT: return kind + x + y + " " + rows_digest(master, b.digest);
        case PONG:
        case TAT_REPORT:
        case TAT_BOUND:
        case ASK_UPDATE: return kind + x + y;
        case ROUND_TRIP: return kind + x + y + " " + std::to_string(b.z);
        case NEW_VIEW: return kind + x + references(master, b.frames);
        case REPORT:
        case GIVE:
        case GIVE_ORDERED: return spell_made(b);
        default: return kind + x;
        }
    }

    // Words that the program makes of what their speaker knows.
    static std::string spell_made(const Body &b) {
        std::string kind = KIND_NAMES[b.kind], x = " " + std::to_string(b.x);
        if (b.kind == GIVE)
            return kind + " " + std::to_string(b.frames[0].signer) + " " + std::to_string(b.frames[0].body->x);
        if (b.kind == GIVE_ORDERED)
            return kind + x;
        std::string all = kind + x + " base " + std::to_string(b.y);
        for (const Certificate &c : b.certificates)
            all += " " + std::to_string(c.s) + ":" + std::to_string(c.v);
        return all;
    }

    // The frame as the program makes it: with the votes of the lowest signers that the master knows.
    Frame as_made(const Frame &f) {
        if (!is_made(*f.body))
            return f;
        provide_parts(f);
        Body b = *f.body;
        size_t request = b.kind == GIVE;
        if (b.frames.size() > request) {
            b.frames.resize(request);
            for (const Frame &vote : quorum_known(f.signer, f.body->frames[request].body))
                b.frames.push_back(vote);
        }
        for (Certificate &c : b.certificates)
            c.prepares = quorum_known(f.signer, c.prepares[0].body);
        return Frame{f.signer, intern(std::move(b))};
    }

    vector<Frame> quorum_known(u32 master, const Body *vote) const {
        vector<Frame> frames;
        for (u32 i = 0; i < group.n && frames.size() < group.q; i++)
            if (knowledge[master].knows(Frame{i, vote}))
                frames.push_back(Frame{i, vote});
        return frames;
    }

    // ---- rounds, and the end

    void begin_round(const vector<Standing> &standings) {
        marks.push_back(
            Mark{script.size(), words.size(), entries.size(), script.empty() ? 0 : script.back().times, standings});
    }

    bool is_too_long() const {
        return script.size() > MOST_LINES || words.size() > MOST_WORDS || entries.size() > MOST_ENTRIES;
    }

    // Back to where the present round began.
    void cut() {
        is_cut = true;
        const Mark &mark = marks.back();
        script.resize(mark.lines);
        if (!script.empty())
            script.back().times = mark.times;
        words.resize(mark.words);
        entries.resize(mark.entries);
    }
};
