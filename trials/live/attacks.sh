#!/usr/bin/env bash
# Attacks on the model, a line each: what was tried, then what the model prints. Settings after the name go to each run.
#   trials/live/attacks.sh [NAME=VALUE...]    ONLY: a pattern of labels; SEEDS: runs a line, 4; LIMIT: seconds a line, 600
#   trials/live/attacks.sh battery [..]       groups, absences and strategies, one with another, in place of the attacks
set -u
cd "$(dirname "${BASH_SOURCE[0]}")" || exit 1
room=$(mktemp -d)
trap 'rm -rf "$room"' EXIT
g++ -O2 -std=c++17 -Wall -Wextra -o "$room/model" model.cpp || exit 1
failed=0

run() {
    local label=$1
    shift
    [[ -n ${ONLY:-} && ! $label =~ $ONLY ]] && return
    printf '%-46s ' "$label"
    timeout "${LIMIT:-600}" "$room/model" seeds="${SEEDS:-4}" "$@" "${given[@]}" || {
        echo "no agreement, or no end"
        failed=1
    }
}

battery() {
    local group absence strategy seeds
    local all="silent slow partial partial_kind serves_one starves_one starves_some two_faced fuzz hides junk split mix runaway"
    for group in "1 0 6" "1 1 6" "1 2 6" "2 0 2" "2 1 2" "2 2 2" "3 0 1" "3 1 1" "3 2 1"; do
        read -r f k seeds <<<"$group"
        for absence in nobody away late in_turn in_turn_lost half; do
            [[ $k = 0 && $absence != nobody ]] && continue
            length="rounds=330 drain=200"
            [[ $absence = in_turn_lost ]] && length="rounds=900 drain=600"
            for strategy in $all moody splits_new_views leaves_holes; do
                # shellcheck disable=SC2086  # two settings
                run "f=$f k=$k $absence $strategy" f="$f" k="$k" strategy="$strategy" absence="$absence" delays=any D=3 \
                    every=12 $length seeds="$seeds"
            done
        done
    done
}

if [ "${1:-}" = battery ]; then
    shift
    given=("$@")
    battery
    exit $failed
fi
given=("$@")
# votes and numbers shown to some, just before patience ends
run "feed f=1 k=0 D=5 each 5" f=1 k=0 strategy=feed intruded=1 every=5 D=5 Dmin=1 delays=far_ones far=8 \
    last_moment=4 rounds=3500 drain=1000
run "feed f=1 k=0 D=4 each 5" f=1 k=0 strategy=feed intruded=1 every=5 D=4 Dmin=1 delays=far_ones far=8 \
    last_moment=3 rounds=5000 drain=1000
run "feed f=1 k=1 D=5 away" f=1 k=1 strategy=feed intruded=1 every=5 D=5 Dmin=1 delays=far_ones far=8 last_moment=4 \
    rounds=3000 drain=1000 absence=away outside_last=1
run "feed f=2 k=0 D=8" f=2 k=0 strategy=feed intruded=3 every=5 D=8 Dmin=1 delays=far_ones far=96 last_moment=4 \
    rounds=3000 drain=1000
# shares of asks
for every in 1 2 4; do
    run "starves one, each $every" strategy=starves_one intruded=1 every=$every D=2 rounds=2000 drain=500
done
run "starves f+k, f=1 k=1 each 2" f=1 k=1 strategy=starves_some intruded=1 every=2 D=2 rounds=2000 drain=500
run "starves f+k, f=2 k=0 each 8" f=2 k=0 strategy=starves_some intruded=3 every=8 D=2 rounds=2000 drain=500
run "starves f+k, silent from 800 f=1 k=1 each 2" f=1 k=1 strategy=starves_then_silent silent_from=800 intruded=1 \
    every=2 D=2 rounds=3000 drain=1000
run "starves f+k, silent from 800 f=1 k=1 each 4" f=1 k=1 strategy=starves_then_silent silent_from=800 intruded=1 \
    every=4 D=2 rounds=3000 drain=1000
run "starves f+k, silent from 800 f=2 k=0 each 8" f=2 k=0 strategy=starves_then_silent silent_from=800 intruded=3 \
    every=8 D=2 rounds=3000 drain=1000
run "away 1..1000 loss each 2" f=1 k=1 strategy=honest absence=in_turn_lost gap=1000 longest=900 every=2 D=2 \
    rounds=4000 drain=1500
run "away 1..1000 loss each 4" f=1 k=1 strategy=honest absence=in_turn_lost gap=1000 longest=900 every=4 D=2 \
    rounds=4000 drain=1500
run "hole f=1 k=0 each 1" f=1 k=0 strategy=hole intruded=2 every=1 D=2 rounds=2000 drain=500 victims=1
run "hole f=1 k=1 each 2" f=1 k=1 strategy=hole intruded=2 every=2 D=2 rounds=2000 drain=500 victims=1
# long delays, and masters that come late
run "booted at 500" f=1 k=0 strategy=boot intruded=1 boot=500 silent_from=600 every=6 D=2 rounds=3000 drain=500
run "booted at 700" f=1 k=0 strategy=boot intruded=1 boot=700 silent_from=900 every=6 D=2 rounds=3000 drain=500
run "slow start 500-1000" f=1 k=0 strategy=boot intruded=1 before=2000 before_least=500 before_most=1000 \
    silent_from=2200 every=50 D=2 rounds=9000 drain=5000
run "slow start 100-200" f=1 k=0 strategy=boot intruded=1 before=400 before_least=100 before_most=200 \
    silent_from=600 every=10 D=2 rounds=4000 drain=2000
# far masters
run "far victim D=12 each 1" f=1 k=0 strategy=starves_one intruded=1 every=1 victims_first=1 delays=far_ones far=2 \
    D=12 rounds=1500 drain=500
run "far victim D=20 each 1" f=1 k=0 strategy=starves_one intruded=1 every=1 victims_first=1 delays=far_ones far=2 \
    D=20 rounds=1500 drain=500
# patience as a weapon
run "push D=8 then D=8 slow" f=1 k=0 strategy=push intruded=1 before=600 before_fast=1 before_least=8 before_most=8 \
    D=8 delays=intruded_near every=10 rounds=3000 drain=500
run "push D=5 slow" f=1 k=0 strategy=push intruded=1 before=600 before_fast=1 before_least=5 before_most=5 D=5 \
    delays=intruded_near every=10 rounds=3000 drain=500
run "push D=8 then D=2 slow" f=1 k=0 strategy=push intruded=1 before=600 before_fast=1 before_least=8 before_most=8 \
    D=2 every=10 rounds=4000 drain=500
run "push f=2 k=1" f=2 k=1 strategy=push intruded=3 before=600 before_fast=1 before_least=8 before_most=8 D=3 \
    every=10 rounds=3000 drain=500
# floods
run "asks random" f=1 k=0 strategy=asks intruded=8 every=8 D=2 rounds=1500 drain=400
run "asks for what exists, 1/tick" f=1 k=0 strategy=asks asks=1 intruded=8 every=2 D=2 rounds=1500 drain=400
run "asks for what exists, 6/tick" f=1 k=0 strategy=asks asks=6 intruded=8 every=2 D=2 rounds=1500 drain=400
run "pings" f=1 k=0 strategy=pings intruded=8 every=8 D=2 rounds=1500 drain=400
run "repeats" f=1 k=0 strategy=repeats intruded=8 every=8 D=2 rounds=600 drain=300
run "burn" f=1 k=0 strategy=burn intruded=1 every=8 D=2 rounds=600 drain=300
# the leader, views, holes
for group in "1 0 1" "1 1 1" "2 0 3"; do
    read -r f k ours <<<"$group"
    run "leaders f=$f k=$k" f="$f" k="$k" strategy=leaders intruded="$ours" every=8 D=3 rounds=2500 drain=700
    run "victim f=$f k=$k" f="$f" k="$k" strategy=victim intruded="$ours" every=8 D=5 delays=by_link rounds=2500 \
        drain=700
    run "new views split f=$f k=$k" f="$f" k="$k" strategy=splits_new_views intruded="$ours" every=8 D=3 \
        rounds=2500 drain=700
    run "hides, votes f=$f k=$k" f="$f" k="$k" strategy=hides_with_votes intruded="$ours" every=8 D=6 \
        delays=by_link before=1000 rounds=2500 drain=700
    run "leaves holes f=$f k=$k" f="$f" k="$k" strategy=leaves_holes intruded="$ours" every=8 D=3 rounds=2500 \
        drain=700
done
run "moody f=1 k=0" f=1 k=0 strategy=moody where=1 every=8 D=4 rounds=2000 drain=600
run "moody f=1 k=1 away" f=1 k=1 strategy=moody where=1 absence=away every=8 D=4 rounds=2000 drain=600
run "moody f=1 k=1 late" f=1 k=1 strategy=moody where=1 absence=late every=8 D=4 rounds=2000 drain=600
run "moody f=2 k=0" f=2 k=0 strategy=moody where=1 every=8 D=4 rounds=1500 drain=600
run "moody f=1 k=1 in turn" f=1 k=1 strategy=moody where=1 absence=in_turn every=8 D=4 rounds=2000 drain=700
run "moody f=1 k=1 loss" f=1 k=1 strategy=moody where=1 absence=in_turn_lost every=8 D=4 rounds=2500 drain=1200
run "moody f=2 k=1 loss" f=2 k=1 strategy=moody where=1 absence=in_turn_lost every=8 D=4 rounds=2000 drain=1200
# clocks of unequal speed
run "clocks: none f=1 k=1" f=1 k=1 strategy=honest clocks=1 every=3 D=3 rounds=1500 drain=500
run "clocks: silent f=1 k=1" f=1 k=1 strategy=silent intruded=1 clocks=1 every=6 D=3 rounds=1500 drain=500
run "clocks: slow f=1 k=1" f=1 k=1 strategy=slow intruded=1 clocks=1 every=6 D=3 rounds=1500 drain=500
run "clocks: feed f=1 k=0" f=1 k=0 strategy=feed intruded=1 clocks=1 every=5 D=5 Dmin=1 delays=far_ones far=8 \
    last_moment=4 rounds=3500 drain=1000
run "clocks: moody f=1 k=1 late" f=1 k=1 strategy=moody where=1 absence=late clocks=2 every=8 D=4 rounds=2000 \
    drain=600
run "clocks: moody f=2 k=0" f=2 k=0 strategy=moody where=1 clocks=2 every=8 D=4 rounds=1500 drain=600
run "the leader away in turn, loss" k=1 strategy=honest absence=in_turn_lost leader_away=1 gap=60 longest=80 every=20 \
    rounds=7500 drain=1500
run "no fault, a command a round" strategy=honest every=1 D=2 rounds=1500 drain=300
exit $failed
