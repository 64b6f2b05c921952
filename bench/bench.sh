#!/bin/bash
# Benchmarks the proved slot core (libbench.a, libemptying.a) and the program slots against the plain ones, in time and instructions.
#   bench.sh [--stub] [--calls | --lto] [--emptying | --scripts] [FOLDER]
# Run it in the repository's root. Everything is built into FOLDER (default: target/bench). Both cores are inlined into their sequences.
#   --stub      links stub.c in place of the two libraries, to try the benchmark itself; no scripts
#   --emptying  only the emptying and opening
#   --scripts   only the scripts
#   --calls     leaves the plain core behind calls (a milder yardstick, since the proved one stays inlined)
#   --lto       inlines the plain core, which is the default
set -euo pipefail
shopt -s inherit_errexit

here=$(cd "$(dirname "$0")" && pwd)
out=target/bench stub= lto=-flto only=
for word in "$@"; do
    case $word in
    --stub) stub=1 ;;
    --calls) lto= ;;
    --lto) lto=-flto ;;
    --emptying) only=emptying ;;
    --scripts) only=scripts ;;
    -*) echo "usage: bench.sh [--stub] [--calls | --lto] [--emptying | --scripts] [FOLDER]" >&2; exit 2 ;;
    *) out=$word ;;
    esac
done
flags="-std=c11 -O3 -march=x86-64 -Wall -Wextra"
declare -A few=([calls]=2000 [emptying]=100) many=([calls]=12000 [emptying]=300) # rounds under callgrind; only the difference counts
# callgrind counts each byte of a 'rep stosb' or 'rep movsb' as an instruction, so the C library is told to go by stores
by_stores=glibc.cpu.x86_rep_stosb_threshold=100000000 and_moves=glibc.cpu.x86_rep_movsb_threshold=100000000

mkdir -p "$out"
temporary=$(mktemp -d)
trap 'rm -rf "$temporary"' EXIT

# Sets 'proved': the files that have what begins with bench_, for gcc.
find_proved() {
    proved=("$here/stub.c")
    [ -z "$stub" ] || return 0
    local name said=$temporary/library
    proved=()
    for name in bench emptying; do
        (cd "crates/${name}_c" && rt lib) >"$said" 2>&1 || { cat "$said" >&2; exit 1; }
        cat "$said" >&2
        cp "crates/${name}_c/out/lib${name}_c.a" "$out/lib$name.a"
        proved+=("$out/lib$name.a")
    done
}

# The plain core and its script program are held to the second program, on scripts (tests/README.md).
check_plain() {
    local rust="rustc -O --edition 2021" second=$out/libsecond.rlib
    gcc $flags $lto "$here"/{plain_slots,plain}.c -o "$out/plain_slots"
    $rust --crate-type lib --crate-name second second/src/lib.rs -o "$second"
    $rust --crate-type lib --crate-name tests tests/src/lib.rs --extern second="$second" -o "$out/libtests.rlib"
    $rust tests/src/compare.rs -L "$out" --extern second="$second" --extern tests="$out/libtests.rlib" -o "$out/compare"
    "$out/compare" "$out/plain_slots" 1 2000 | tail -n 1 >&2
}

build() {
    gcc $flags $lto -c "$here/plain.c" -o "$out/plain.o"
    gcc $flags $lto -c "$here/sequence.c" -o "$out/sequence.o"
    gcc $flags -c "$here/harness.c" -o "$out/harness.o"
    gcc $flags $lto "$out"/{harness,sequence,plain}.o "${proved[@]}" -o "$out/harness"
    local symbols
    symbols=$(nm "$out/harness")
    if [ -n "$lto" ] && grep -E ' plain_(open|join|change|leave|load|arrive|tick|rates)([.]|$)' <<<"$symbols"; then
        echo "bench.sh: gcc left the plain core behind calls" >&2
        exit 1
    fi
}

# instructions one|before WHICH INDEX ROUNDS: the instructions of one run, start of the program included
instructions() {
    GLIBC_TUNABLES=$by_stores:$and_moves valgrind --tool=callgrind --callgrind-out-file="$temporary/callgrind" \
        "$out/harness" "$@" >/dev/null 2>"$temporary/valgrind" ||
        { cat "$temporary/valgrind" >&2; exit 1; }
    awk '$1 == "totals:" { print $2 }' "$temporary/callgrind"
}

# further one|before TABLE WHICH INDEX: the instructions of many rounds more than a few have
further() {
    local low high
    low=$(instructions "$1" "$3" "$4" "${few[$2]}")
    high=$(instructions "$1" "$3" "$4" "${many[$2]}")
    echo $((high - low))
}

# per_call TABLE WHICH INDEX CALLS; a round of emptyings puts the tables back, which does not count
per_call() {
    local whole idle=0
    whole=$(further one "$1" "$2" "$3")
    [ "$1" != emptying ] || idle=$(further before "$1" "$2" "$3")
    awk -v d=$((whole - idle)) -v n=$(((many[$1] - few[$1]) * $4)) 'BEGIN { printf "%.1f", d / n }'
}

# count_all TABLE
count_all() {
    echo "| sequence | proved instructions/call | plain instructions/call | ratio |"
    echo "|---|---:|---:|---:|"
    local index calls name a b
    "$out/harness" list "$1" | while read -r index calls name; do
        a=$(per_call "$1" proved "$index" "$calls")
        b=$(per_call "$1" plain "$index" "$calls")
        echo "| $name | $a | $b | $(awk -v a="$a" -v b="$b" 'BEGIN { printf "%.2f", a / b }') |"
    done
}

# depth_of TABLE WHAT: the deep rows over those of depth 1, from a table above
depth_of() {
    awk -F ' *[|] *' -v what="$2" '
        { proved[$2] = $3; plain[$2] = $4; order[NR] = $2 }
        END {
            for (i = 1; i <= NR; i++) {
                deep = shallow = order[i]
                if (!sub(/, depth [0-9]+$/, ", depth 1", shallow) || deep == shallow) continue
                printf "| %s | %s | %.2f | %.2f |\n", deep, what, proved[deep] / proved[shallow], plain[deep] / plain[shallow]
            }
        }' "$1"
}

calls() {
    "$out/harness" time calls >"$out/time.md" # stops here if the sums differ
    echo "Time:"; echo; cat "$out/time.md"; echo
    echo "Instructions:"; echo; count_all calls | tee "$out/instructions.md"; echo
    echo "Deep over depth 1:"; echo
    {
        echo "| sequence | of | proved | plain |"
        echo "|---|---|---:|---:|"
        depth_of "$out/time.md" time
        depth_of "$out/instructions.md" instructions
    } | tee "$out/depth.md"
}

# Time and instructions of the same rows, side by side.
emptying() {
    echo "Emptying and opening:"; echo
    "$out/harness" time emptying >"$temporary/time.md" # stops here if the sums differ
    count_all emptying >"$temporary/instructions.md"
    paste -d '' "$temporary/time.md" <(cut -d '|' -f 3- "$temporary/instructions.md") | tee "$out/emptying.md"
}

# script NAME: 60,000 bytes, the last line cut off; nothing for 'an empty script'
script() {
    [ "$1" = "an empty script" ] || awk -v name="$1" '
        function open_and_join(privates, rate,   i) { # ids from 0 on
            print "(open 1024 0 1)"
            for (i = 0; i < privates; i++) print "(join " i " (private " rate "))"
        }
        function arrival(id, k) { return "(arrive " id " (packet " k * 1000003 % 2147483647 " " 64 + k * 37 % 1455 "))" }
        function mixed(k,   id) {
            id = int(k / 7) % 64
            if (k % 7 == 0) return "(join " id " (private 16))"
            if (k % 7 == 1) return "(load " id " " k % 100 ")"
            if (k % 7 == 2) return "(change " id " (indifferent 1024 64))"
            if (k % 7 == 4) return arrival(id, k)
            if (k % 7 == 6) return k % 70 == 69 ? "(open 1024 1 " k ")" : "(leave " id ")"
            return "(tick)" # of which the first gives the bucket a packet
        }
        function line(k) {
            if (name == "calls") return k % 2 ? "(tick)" : arrival((k / 2 + 1) * 7 % 16, k / 2 + 1)
            if (name ~ /^ticks/) return "(tick)"
            if (name == "line feeds") return ""
            if (name == "all seven calls") return mixed(k)
            if (name == "opens") return "(open 1024 " k % 2 " " k + 1 ")"
            if (name == "joins") return "(join " k % 64 " (indifferent 16 64))"
            if (name == "changes") return "(change " k % 64 " (private " 1 + k % 16 "))"
            if (name == "loads") return "(load " k % 64 " 1)"
            if (name ~ /arrivals/) return arrival(k % 64, k)
            return "letters without a form" (name == "one line" ? " and without a line feed" : "")
        }
        BEGIN {
            if (name == "calls") { # 8 private and 8 indifferent clients; 16 ticks give each bucket a packet, before any draw
                open_and_join(0)
                for (i = 8; i < 16; i++) print "(join " i " (indifferent 64 64))"
                for (i = 0; i < 16; i++) print "(tick)"
                for (i = 0; i < 8; i++) print "(join " i " (private 64))"
            } else if (name == "ticks") { # one private client with dummies
                open_and_join(1, 1)
                print "(load 0 255)"
            } else if (name ~ /^(changes|loads|arrivals|ticks of 64)/) open_and_join(64, 16)
            else if (name !~ /^(line|one)/) open_and_join(0)
            if (name == "one line") ORS = " "
            for (k = 0; k < 60000; k++) print line(k)
        }' | head -c 60000
}

# program_instructions PROGRAM SCRIPT TUNABLES: those of the whole process
program_instructions() {
    GLIBC_TUNABLES=$3 valgrind --tool=callgrind --callgrind-out-file="$temporary/callgrind" "$1" <"$2" >/dev/null 2>"$temporary/valgrind"
    awk '$1 == "totals:" { print $2 }' "$temporary/callgrind"
}

scripts() {
    (cd crates/slots && rt run <../../examples/first.script) >"$temporary/check" 2>&1 || { cat "$temporary/check" >&2; exit 1; }
    gcc $flags "$here/programs.c" -o "$out/programs"
    echo "| 60,000 bytes of | slots µs | plain µs | ratio | slots instructions | plain | ratio | memset by stores: slots | plain | ratio |"
    echo "|---|---:|---:|---:|---:|---:|---:|---:|---:|---:|"
    local name text=$temporary/script plain=$out/plain_slots
    for name in calls ticks "line feeds" "all seven calls" opens joins changes loads arrivals "refused arrivals" "ticks of 64 private clients" \
        "ticks with nobody" "lines without a form" "one line" "an empty script"; do
        script "$name" >"$text" || true # head stops reading before the end
        [ "$name" = "an empty script" ] || [ "$(wc -c <"$text")" = 60000 ] || { echo "bench.sh: no script of $name" >&2; exit 1; }
        crates/slots/out/slots <"$text" >"$temporary/proved"
        "$plain" <"$text" >"$temporary/plain"
        cmp "$temporary/proved" "$temporary/plain"
        echo "$name|$("$out/programs" crates/slots/out/slots "$plain" "$text" 500 | tr ' ' '|')|$(
            program_instructions crates/slots/out/slots "$text" "")|$(program_instructions "$plain" "$text" "")|$(
            program_instructions crates/slots/out/slots "$text" $by_stores)|$(program_instructions "$plain" "$text" $by_stores)"
    done | awk -F '|' '{ printf "| %s | %d | %d | %.2f | %d | %d | %.2f | %d | %d | %.2f |\n",
        $1, $2, $4, $2 / $4, $6, $7, $6 / $7, $8, $9, $8 / $9 }'
}

check_plain
if [ "$only" != scripts ]; then
    find_proved
    build
    [ "$only" = emptying ] || { calls; echo; }
    emptying
fi
if [ -z "$stub" ] && [ "$only" != emptying ]; then
    echo; echo "Scripts, from the start of the program to its end:"; echo
    scripts | tee "$out/scripts.md"
fi
