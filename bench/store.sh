#!/usr/bin/env bash
# Times the proved store beside plain C++ programs that do the same work on std's hash map, and have to print the same line: its
# parts alone (crates/slnf_store_bench and bench/store_plain.cpp), and the shared store under threads
# (crates/slnf_store_threads and bench/threads_plain.cpp, which has a mutex a shard). The words: how many runs each, 5 where none
# is given. It prints the best of the runs in seconds, as the clock has it, and of the first table as processor time too.
set -eu
runs=${1:-5}
top=$(cd "$(dirname "$0")/.." && pwd)
folder=$(mktemp -d)
trap 'rm -rf "$folder"' EXIT

# The program of this name that `rt ci` built.
built() {
    if [ ! -x "$top/crates/$1/out/$1" ]; then
        echo "store.sh: crates/$1 isn't built: 'rt ci' builds it, and so does 'rt run' in its folder" >&2
        exit 1
    fi
    echo "$top/crates/$1/out/$1"
}

parts=$(built slnf_store_bench)
threads=$(built slnf_store_threads)
for program in store_plain threads_plain; do
    "${CXX:-c++}" -std=c++17 -O3 -march=x86-64-v2 -pthread -o "$folder/$program" "$top/bench/$program.cpp"
done

# The runs of both programs on these words in turn, so that both meet the same load: a line for each, with its program's name
# and its three times.
timed() {
    local proved=$1 plain=$2
    shift 2
    TIMEFORMAT='%R %U %S'
    for ((run = 0; run < runs; run++)); do
        echo "proved $({ time "$proved" "$@" >/dev/null; } 2>&1)"
        echo "plain $({ time "$plain" "$@" >/dev/null; } 2>&1)"
    done
}

# The least clock time and the least processor time of each program.
best() {
    awk '
        function least(old, new) { return old == "" || new < old ? new : old }
        { clock[$1] = least(clock[$1], $2); processor[$1] = least(processor[$1], $3 + $4) }
        END { print clock["proved"], clock["plain"], processor["proved"], processor["plain"] }'
}

# What both programs print on these words; their times are left out.
same() {
    local said expected
    said=$("$1" "${@:3}" 2> >(grep -v '^nanoseconds ' >&2))
    expected=$("$2" "${@:3}" 2> >(grep -v '^nanoseconds ' >&2))
    if [ "$said" != "$expected" ]; then
        echo "store.sh: '$said' and '$expected' differ" >&2
        exit 1
    fi
    echo "$said"
}

printf '%10s  %17s  %17s\n' '' 'clock' 'processor'
printf '%10s  %8s %8s  %8s %8s  %s\n' accesses proved plain proved plain checksum
for accesses in 10000 100000 1000000; do
    said=$(same "$parts" "$folder/store_plain" "$accesses")
    read -r clock plain_clock processor plain_processor < <(timed "$parts" "$folder/store_plain" "$accesses" | best)
    printf '%10d  %8.3f %8.3f  %8.3f %8.3f  %s\n' "$accesses" "$clock" "$plain_clock" "$processor" "$plain_processor" "${said##* }"
done

# The runs of both programs on these words in turn: the least of the times that each says of its accesses alone, in seconds.
counted() {
    local proved=$1 plain=$2
    shift 2
    for ((run = 0; run < runs; run++)); do
        echo "proved $("$proved" "$@" 2>&1 >/dev/null)"
        echo "plain $("$plain" "$@" 2>&1 >/dev/null)"
    done | awk '{ if (!($1 in least) || $3 < least[$1]) least[$1] = $3 } END { print least["proved"] / 1e9, least["plain"] / 1e9 }'
}

# As many rounds in all, whatever the threads. A turn is of one access, or of as many looks, and then writes, of one shard's keys.
# The time is that of the accesses, from the first thread's start to the last one's end: what one thread does before and behind them
# isn't in it. The last columns say how often the time of one thread goes into that of these.
rounds=2000000
printf '\n%8s %6s %5s %7s %9s  %17s  %17s\n' '' '' '' '' '' 'accesses alone' 'one thread over it'
printf '%8s %6s %5s %7s %9s  %8s %8s  %8s %8s\n' keys shards turn threads accesses proved mutexes proved mutexes
for load in '16384 1 1' '16384 64 1' '16384 64 8' '16384 64 32' '1048576 1 1' '1048576 64 1' '1048576 64 8' '1048576 64 32'; do
    read -r keys shards turn <<<"$load"
    for count in 1 2 4; do
        words=("$count" "$shards" $((rounds / count)) "$turn" "$keys")
        said=$(same "$threads" "$folder/threads_plain" "${words[@]}")
        read -r accesses < <(awk '{ print $2 }' <<<"$said")
        read -r clock plain_clock < <(counted "$threads" "$folder/threads_plain" "${words[@]}")
        if [ "$count" = 1 ]; then one=$clock plain_one=$plain_clock; fi
        awk -v keys="$keys" -v shards="$shards" -v turn="$turn" -v threads="$count" -v accesses="$accesses" -v clock="$clock" \
            -v plain="$plain_clock" -v one="$one" -v plain_one="$plain_one" \
            'BEGIN { printf "%8d %6d %5d %7d %9d  %8.3f %8.3f  %8.2f %8.2f\n", keys, shards, turn, threads, accesses, clock, plain,
                one / clock, plain_one / plain }'
    done
done
