#!/usr/bin/env bash
# Runs mss_cli with these words and this standard input, and ends with its status. Where there is no program, or a
# source is newer than it, it is proved and built first. If that fails the status is 125, which mss_cli has no use for.
# No words, or --help, print the usage and build nothing; then the status is 1, as mss_cli's of refused words, or 0.

top=$(dirname "$(readlink -f "${BASH_SOURCE[0]}")")
crate=$top/crates/mss_cli
program=$crate/out/mss_cli
log=$crate/out/build.log

# All crates count. For the few that the program doesn't stand on, `tools/build` finds that nothing has to be proved.
is_built() {
    [[ -x $program ]] &&
        [[ -z $(find "$top/crates.txt" "$top"/crates/*/{src,specs,proofs} -newer "$program" -print -quit) ]]
}

# The program then gets the time at which the build began, so that later edits are newer.
build() { # TIME
    "$top/tools/build" </dev/null && touch --date="@$1" "$program"
}

if (($# == 0)) || [[ $1 == --help ]]; then
    echo "usage: mss serial <JOB         runs a job, and prints its report; docs/JOBS.md tells how to write one
       mss policy RULES <JOB   the same, by rules of replacement; docs/POLICIES.md tells which there are
       mss compare <JOB        what four such choices bring about, on devices in memory
       mss threads <JOB        the same, with a thread for each host and each recorder
       mss show                lists the volumes that the jobs so far left in mss.site
       mss audit               lists all that is wrong with mss.site; docs/SITES.md tells what to do" >&2
    exit $(($# == 0))
fi

if ! is_built; then
    if ! command -v rt >/dev/null; then
        echo "mss: there is no rt on the PATH, which has to prove and build mss_cli first" >&2
        exit 125
    fi
    mkdir -p "$crate/out"
    if ! build "$(date +%s.%N)" >"$log"; then
        echo "mss: the build failed; $log says why" >&2
        exit 125
    fi
fi
exec "$program" "$@"
