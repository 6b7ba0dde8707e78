#!/bin/sh
# Times `vg_bench solve FILE LIMIT PROOF` and `vg_bench check FILE PROOF` on made CNF files, beside minisat where that is
# installed: random 3-SAT at 4.26 clauses a variable, pigeons without holes enough, and an 8 by 8 multiplier against its
# commuted form. VARIABLES is the highest number of variables of the random files (default 200), LIMIT the most clauses
# learned (default 200000). One line a file: its name, the answer, seconds of user time to solve, to check, and of minisat, and
# how many times minisat's time solving took; what takes less than 0.2 seconds is run twenty times. The last line has the median
# of these ratios, where a file that wasn't solved counts as the worst. The goals: a median of at most 5, and checking takes no
# longer than solving. Where solving ends without an answer, the check doesn't accept a refutation, or minisat answers
# otherwise, the script says so and ends with status 1. The kit's command rt is needed where the program is missing or not
# current.
. "$(dirname -- "$0")/vg_bench.sh"
. "$(dirname -- "$0")/cnf.sh"
variables=${VARIABLES:-200}
limit=${LIMIT:-200000}

for seed in 1 2 3; do
    for n in 100 150 200; do
        [ "$n" -le "$variables" ] && random "$n" "$seed" >"$work/random-$n-$seed.cnf"
    done
done
for holes in 5 6 7; do pigeons "$holes" >"$work/pigeons-$holes.cnf"; done
multiplier 8 >"$work/multiplier-8.cnf"

# The user time of so many runs of a command, for each run in seconds; its output goes to a file.
user_time() {
    count=$1
    shift
    (
        run=0
        while [ "$run" -lt "$count" ]; do
            "$@" >"$work/out" 2>&1
            run=$((run + 1))
        done
        times
    ) | awk -v count="$count" 'NR == 2 { split($1, part, /[ms]/); printf "%.3f", (60 * part[1] + part[2]) / count }'
}

seconds() {
    once=$(user_time 1 "$@")
    if awk -v once="$once" 'BEGIN { exit once >= 0.2 }'; then user_time 20 "$@"; else printf '%s' "$once"; fi
}

# Says what is wrong with the current file, and ends.
fail() {
    echo "${0##*/}: $(basename "$file" .cnf): $1" >&2
    exit 1
}

for file in "$work"/*.cnf; do
    rm -f "$work/proof"
    solving=$(seconds "$program" solve "$file" "$limit" "$work/proof")
    said=$(head -n 1 "$work/out")
    case $said in
        's SATISFIABLE') answer=SATISFIABLE ;;
        's UNSATISFIABLE '*) answer=UNSATISFIABLE ;;
        's UNKNOWN '*) answer=UNKNOWN ;;
        *) fail "solving ends without an answer: $said" ;;
    esac
    checking=-
    if [ "$answer" = UNSATISFIABLE ]; then
        checking=$(seconds "$program" check "$file" "$work/proof")
        grep -qx 's UNSATISFIABLE [0-9]* checked' "$work/out" || fail "the refutation isn't accepted: $(head -n 1 "$work/out")"
    fi
    other=-
    if command -v minisat >/dev/null; then
        other=$(seconds minisat "$file")
        said=$(tail -n 1 "$work/out")
        [ "$answer" = UNKNOWN ] || [ "$said" = "$answer" ] || fail "solving answers $answer, and minisat $said"
    fi
    ratio=$(awk -v a="$solving" -v b="$other" -v answer="$answer" 'BEGIN {
        if (b == "-") print "-"; else if (answer !~ /SATISFIABLE$/) print 999999; else printf "%.1f", a / (b > 0.0005 ? b : 0.0005)
    }')
    echo "$ratio" >>"$work/ratios"
    echo "$(basename "$file" .cnf) $answer solve $solving check $checking minisat $other ratio $ratio"
done
sort -n "$work/ratios" | awk '{ ratio[NR] = $1 } END { print "median ratio", ratio[int((NR + 1) / 2)] }'
