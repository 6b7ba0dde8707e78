#!/bin/sh
# Prints what minisat answers on twenty random files of 40 variables, with the seeds 1 to 20: s for satisfiable and u for
# unsatisfiable. The tests of vg_bench have this line.
. "$(dirname -- "$0")/cnf.sh"
work=$(mktemp -d) || exit 1
trap 'rm -rf "$work"' EXIT
trap 'exit 1' HUP INT TERM

seed=1
while [ "$seed" -le 20 ]; do
    random 40 "$seed" >"$work/random.cnf"
    minisat "$work/random.cnf" >/dev/null 2>&1
    case $? in
        10) printf s ;;
        20) printf u ;;
        *) exit 1 ;;
    esac
    seed=$((seed + 1))
done
echo
