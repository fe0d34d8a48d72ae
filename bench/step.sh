#!/usr/bin/env bash
# Times `slnf step` (crates/slnf, as `rt ci` builds it) beside bench/step_plain.cpp, which does the same job on std's hash map and
# has to write the same bytes. The words: how many runs each, 3 where none is given, then a text that the rows to be run begin
# with, and a file for the rows. SLNF names another program than the built one. For each row it prints clock and processor
# seconds, how often the proved program's clock time is the plain one's, its nanoseconds of clock time a packet, both peaks of
# memory, and of the proved program's peak the bytes an entry, all and beside input, outputs and texts; and last how often the clock
# time of `slnf check` on what was written is that of the run, with its peak of memory. Then it prints the bars, and `slnf load` at
# three sizes: lanes, packets a lane, entries, clock seconds, nanoseconds a packet and the peak of memory. A fourth word is a file for
# a plot of time over packets, which bench/plot draws.
set -eu
runs=${1:-3}
only=${2:-}
top=$(cd "$(dirname "$0")/.." && pwd)
proved=${SLNF:-$top/crates/slnf/out/slnf}
folder=$(mktemp -d)
rows=${3:-$folder/rows}
trap 'rm -rf "$folder"' EXIT
if [ ! -x "$proved" ]; then
    echo "step.sh: crates/slnf isn't built: 'rt ci' builds it, and so does './slnf'" >&2
    exit 1
fi
for program in step_plain step_input measure; do
    "${CXX:-c++}" -std=c++17 -O2 -o "$folder/$program" "$top/bench/$program.cpp"
done
mkdir "$folder/in" "$folder/proved" "$folder/plain"
: >"$rows"

bytes_in() { stat -c %s "$@" | awk '{ all += $1 } END { print all }'; }

# One row: load, packets, flows, shards, instances, batch, epochs.
row() {
    case "$*" in "$only"*) ;; *) return ;; esac
    rm -f "$folder"/in/* "$folder"/proved/* "$folder"/plain/*
    "$folder/step_input" "$@" "$folder/in"
    captures=()
    for ((lane = 0; lane < $5; lane++)); do captures+=("$folder/in/in.$lane.pcap"); done
    read -r clock processor memory < <("$folder/measure" "$runs" "$proved" step "$folder/in/plan.toml" "$folder/proved/o" "${captures[@]}")
    read -r plain_clock plain_processor plain_memory < <("$folder/measure" "$runs" "$folder/step_plain" step "$folder/in/plan.toml" "$folder/plain/o" "${captures[@]}")
    if ! diff -r "$folder/proved" "$folder/plain" >/dev/null; then
        echo "step.sh: row $* differs" >&2
        exit 1
    fi
    read -r check_clock _ check_memory < <("$folder/measure" "$runs" "$proved" check "$folder/in/plan.toml" "$folder/proved/o" "${captures[@]}")
    entries=$(($(wc -l <"$folder/proved/o.journal") - 1))
    files=$(bytes_in "$folder"/in/* "$folder"/proved/*)
    echo "$@" "$entries" "$clock" "$plain_clock" "$processor" "$plain_processor" "$memory" "$plain_memory" "$files" "$check_clock" "$check_memory" |
        awk '{
            printf "%-9s %8d %6d %3d %3d %3d %5d %9d  %7.3f %7.3f  %7.3f %7.3f  %5.2f %6.0f  %7d %7d  %5d %5d  %5.2f %7d\n", $1, $2, $3, $4, $5, $6,
                $7, $8, $9, $10, $11, $12, $9 / $10, $9 * 1e9 / $2, $13, $14, $13 * 1024 / ($8 + 1), ($13 * 1024 - $15) / ($8 + 1), $16 / $9, $17
        }' | tee -a "$rows"
}

# The bars, over the rows that were run.
bars() {
    awk '
        function most(old, new) { return old == "" || new > old ? new : old }
        { setting = $1 " " $3 " " $4 " " $5 " " $6 " " $7; packet[setting " " $2] = $14 }
        $2 >= 1000000 {
            ratio = most(ratio, $13)
            beside = most(beside, $18)
            check = most(check, $19)
            before = packet[setting " " 100000]
            if (before) growth = most(growth, $14 / before)
        }
        END {
            if (ratio != "") printf "clock at 1000000 packets or more, over the plain program, at most: %.2f (bar 1.60)\n", ratio
            if (growth != "") printf "clock a packet at 1000000 packets over that at 100000, at most:     %.2f (bar 1.30)\n", growth
            if (beside != "") printf "bytes of the peak an entry beside files, at most:                  %d (bar 400)\n", beside
            if (check != "") printf "clock of check at 1000000 packets or more, over the run, at most:   %.2f (bar 1.50)\n", check
            others = packet["balancer 2048 1 1 1 1 1000000"]
            meets = packet["colliding 2048 1 1 1 1 1000000"]
            if (others && meets) printf "clock of clients that collide, over others:                        %.2f\n", meets / others
        }' "$rows"
}

# One load: lanes, packets a lane.
load() {
    case "load" in "$only"*) ;; *) return ;; esac
    read -r clock _ memory < <("$folder/measure" "$runs" "$proved" load 1 "$1" "$2")
    entries=$("$proved" load 1 "$1" "$2" | awk '{ print $NF }')
    echo "load $(($1 * $2)) $entries $clock $1 $2 $memory" >>"$rows"
    echo "$1 $2 $entries $clock $memory" |
        awk '{ printf "load %5d %6d %9d  %7.3f %6.0f  %7d\n", $1, $2, $3, $4, $4 * 1e9 / ($1 * $2), $5 }'
}

printf '%-9s %8s %6s %3s %3s %3s %5s %9s  %15s  %15s  %5s %6s  %15s  %11s  %13s\n' load packets flows '' '' '' '' '' clock processor over ns/pkt 'memory, kB' 'bytes/entry' check
printf '%-9s %8s %6s %3s %3s %3s %5s %9s  %7s %7s  %7s %7s  %5s %6s  %7s %7s  %5s %5s  %5s %7s\n' '' '' '' shs ins bat epoch entries \
    proved plain proved plain plain '' proved plain all beside over kB
for function in balancer nat firewall; do
    for packets in 10000 100000 1000000; do
        row "$function" "$packets" 1000 1 1 1 1
        row "$function" "$packets" 1000 8 8 32 1
    done
    row "$function" 1000000 16384 64 8 32 1
    row "$function" 1000000 16384 64 1 1 1
    row "$function" 100000 1000 8 32 1 1000
done
# Packets that come back, one hot flow, a nearly full pool, 32 instances and wide frames.
row returns 1000000 1000 8 8 32 1
row firewall 1000000 1 64 32 32 1
row full 1000000 1020 64 8 32 1
row nat 1000000 16384 64 32 32 1
row wide 160000 1000 64 4 32 1
# Clients that meet in one group of a map with the fixed seed, and others as many.
row balancer 1000000 2048 1 1 1 1
row colliding 1000000 2048 1 1 1 1
bars

# Loads: lanes, packets a lane, entries, clock, nanoseconds a packet, memory in kB.
load 1 10000
load 4 25000
load 32 32768

[ -z "${4:-}" ] || "$top/bench/plot" "$rows" >"$4"
