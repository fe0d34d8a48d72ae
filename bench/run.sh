#!/usr/bin/env bash
# Times a plan's run in threads: `run_plan` alone beside `step_plan` alone, over the same captures (crates/slnf_run_bench), and the
# commands `slnf run` and `slnf step` whole. A million packets of 1,000 flows over 64 shards, in batches of 32, on 1, 2 and 4 lanes, each
# with an instance. The words: how many runs each, 3 where none is given. SLNF and RUN_BENCH name other programs than the built ones. It
# prints the best of the runs in seconds; over step, the time of `run_plan` by that of `step_plan`; and over one, the time of `run_plan`
# and of the whole command by that of one instance.
set -eu
runs=${1:-3}
top=$(cd "$(dirname "$0")/.." && pwd)
alone=${RUN_BENCH:-$top/crates/slnf_run_bench/out/slnf_run_bench}
whole=${SLNF:-$top/crates/slnf/out/slnf}
folder=$(mktemp -d)
trap 'rm -rf "$folder"' EXIT
for program in "$alone" "$whole"; do
    if [ ! -x "$program" ]; then
        echo "run.sh: $program isn't there: 'rt ci' builds it" >&2
        exit 1
    fi
done
for program in step_input measure; do
    "${CXX:-c++}" -std=c++17 -O2 -o "$folder/$program" "$top/bench/$program.cpp"
done

# The least seconds of the calls of this kind.
call() {
    for ((run = 0; run < runs; run++)); do
        "$alone" "$1" "$folder/in/plan.toml" "${captures[@]}" 2>&1 >"$folder/$1"
    done | awk '{ if (least == "" || $2 < least) least = $2 } END { print least / 1e9 }'
}

# The clock seconds of this command.
command_time() {
    "$folder/measure" "$runs" "$whole" "$1" "$folder/in/plan.toml" "$folder/out" "${captures[@]}" | awk '{ print $1 }'
}

printf '%-9s %4s %9s  %8s %8s %6s %6s  %8s %8s %6s\n' load inst entries run_plan step_plan over over run step over
printf '%-9s %4s %9s  %8s %8s %6s %6s  %8s %8s %6s\n' '' '' '' '' '' step one '' '' one
for function in balancer nat firewall; do
    for instances in 1 2 4; do
        rm -rf "$folder/in" && mkdir "$folder/in"
        "$folder/step_input" "$function" 1000000 1000 64 "$instances" 32 1 "$folder/in"
        captures=()
        for ((lane = 0; lane < instances; lane++)); do captures+=("$folder/in/in.$lane.pcap"); done
        threads=$(call run)
        schedule=$(call step)
        whole_threads=$(command_time run)
        whole_schedule=$(command_time step)
        "$whole" check "$folder/in/plan.toml" "$folder/out" "${captures[@]}" >/dev/null
        if [ "$instances" = 1 ]; then one=$threads whole_one=$whole_threads; fi
        awk -v function_name="$function" -v instances="$instances" -v entries="$(awk '{ print $2 }' "$folder/run")" -v threads="$threads" \
            -v schedule="$schedule" -v one="$one" -v whole_threads="$whole_threads" -v whole_schedule="$whole_schedule" -v whole_one="$whole_one" \
            'BEGIN { printf "%-9s %4d %9d  %8.3f %8.3f %6.2f %6.2f  %8.3f %8.3f %6.2f\n", function_name, instances, entries, threads, schedule,
                threads / schedule, threads / one, whole_threads, whole_schedule, whole_threads / whole_one }'
    done
done
