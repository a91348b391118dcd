#!/bin/sh
# Shows the programs before anything is proved: `rt try` builds each with checks in place of proofs, and runs it.
# With four processors both are built at once, else one after the other.
cd "$(dirname "$0")/.." || exit 1
examples=$PWD/examples
work=$(mktemp -d) || exit 1
trap 'rm -rf "$work"' EXIT
trap 'exit 130' INT TERM

# case PROGRAM NAME WORD..: a run of the program, shown under its name
case_of() {
	mkdir -p "$work/$1"
	: >"$work/$1/$2"
	file=$work/$1/$2.args
	shift 2
	printf '%s\n' "$@" >"$file"
}

# show PROGRAM FILE..: builds a program and runs its cases with these files of examples; what it says beside their texts comes out only
# where it fails
show() {
	name=$1
	shift
	for file; do
		set -- "$@" --data "${file##*/}=$examples/$file"
		shift
	done
	cd "crates/$name" || exit 1
	rt try --cases "$work/$name" "$@" 2>"$work/$name.said" || {
		cat "$work/$name.said" >&2
		exit 1
	}
}

sweeps="first/first.fd sweep/sweep.fd sweep/x.csv sweep/m.csv sweep/e1.csv sweep/e2.csv"
case_of chaosplay "first.fd on two nodes, in turns" first.fd --nodes 2
case_of chaosplay "sweep.fd on four nodes, in turns, with its report" sweep.fd --nodes 4 --report
case_of chaosrun "sweep.fd on four nodes, by threads, with its report" sweep.fd --nodes 4 --report
case_of chaosbisect "the eight points of sweep.fd in four parts by their values, on two nodes by threads" 4 8 2 x.csv
case_of chaosappend "particles on a ring of twelve cells, on four nodes by threads" 12 25 30 4 cells.csv velocities.csv
echo "Building chaosplay without proofs, to be seen running: about two minutes."
later=
if [ "$(nproc)" -ge 4 ]; then
	(show chaosrun $sweeps) >"$work/later" &
	later=$!
fi
(show chaosplay $sweeps) || exit 1
echo "Building chaosrun likewise."
if [ "$later" ]; then
	wait "$later" || exit 1
	cat "$work/later"
else
	(show chaosrun $sweeps) || exit 1
fi
echo "Building chaosbisect likewise."
(show chaosbisect sweep/x.csv) || exit 1
echo "Building chaosappend likewise."
(show chaosappend cells/cells.csv cells/velocities.csv) || exit 1
echo "What ran here isn't proved yet: make programs proves all programs and builds them."
