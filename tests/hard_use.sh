#!/bin/bash
# `slots`, with `--sure N`, `--operator`, `--tenant I` and `--counts` and without, and `fair`, where their surroundings fail: the program ends, and
# says on standard error what went wrong. What it printed is a beginning of the printout, or nothing; where
# the output takes a part of it and then no more, the last answer may be cut. Of any other arguments it says so, and reads and prints nothing.
#   tests/hard_use.sh SLOTS FAIR    in the root of the repository; needs rustc
slots=$1 fair=$2 passed=0 failed=0
folder=$(mktemp -d)
trap 'rm -rf "$folder"' EXIT

# check NAME COMMAND..: the command succeeds within ten seconds
check() {
    if timeout 10 bash -c "$2" >/dev/null; then
        passed=$((passed + 1)); echo "passed: $as$1"
    else
        failed=$((failed + 1)); echo "failed: $as$1"
    fi
}
# of AS WORD PROGRAM INPUT OUTPUT LINE: what the checks from here on are of. Their names begin with AS, the program's messages with WORD; the
# program, with its arguments, prints what OUTPUT holds for what INPUT holds, and LINE is a line of such an input.
of() { as=$1 word=$2 program=$3 input=$4 output=$5 line=$6; }
slots_usage="usage: slots [--sure N | --operator | --tenant I | --counts | --help]" fair_usage="usage: fair"
export slots fair folder word program input output line slots_usage fair_usage
# shim: the program with the reads that READS says (tests/src/reads.rs)
shim() { READS=$READS LD_PRELOAD=$folder/reads.so $program; }
# usage ARGUMENTS..: with these behind it the program writes its line of usage to standard error and nothing else, and all of its input is left
usage() {
    local usage=${word}_usage
    if [ "$({ $program "$@" 2>$folder/err >$folder/out; wc -c; } <$input)" = "$(wc -c <$input)" ] && [ ! -s $folder/out ] &&
        echo "${!usage}" | cmp -s - $folder/err; then return 0; fi
    printf 'with the arguments:%s\n' "$(printf ' "%.40s"' "$@")" >&2
    return 1
}
# bad_numbers OPTION: the same for it with each N behind it that is no number of a script, or one above 4294967295
bad_numbers() {
    for n in "" 00 01 +1 -1 -0 1e3 1. 1,000 1_0 0x1 " 1" "1 " "1 2" x "(1)" $'1\n' $'\t1' $'\xff' ١ \
        4294967296 4294967297 18446744073709551617 "$(yes 9 | head -n 5000 | tr -d "\n")"; do
        usage "$1" "$n" || return 1
    done
}
# any_argument: the same for one argument and for two, whatever they are
any_argument() {
    for argument in "" " " 1 512 - -- -h --help --version --sure --operator --tenant --counts --fair fair "$input" "(threshold 5)" $'\n' $'\xff'; do
        usage "$argument" && usage "$argument" 1 && usage 1 "$argument" || return 1
    done
}
export -f shim usage bad_numbers any_argument
rustc -O --edition 2021 --crate-type cdylib tests/src/reads.rs -o "$folder/reads.so" || echo "no reads.so: what needs it will fail"
yes "" | head -c 60000 >$folder/feeds
head -c 200000 /dev/zero >$folder/long
head -c 60000 /dev/zero >$folder/zeros
yes $'\xff\x80\t(tick' | head -c 60000 >$folder/stray

# surroundings: what goes for each program alike
surroundings() {
    check "a full disk is told on standard error" \
        '$program <$input 2>$folder/err >/dev/full; grep -q "^$word: standard output: No space" $folder/err'
    check "a closed output is told on standard error" \
        '$program <$input 2>$folder/err >&-; grep -q "^$word: standard output: Bad file" $folder/err'
    check "a missing input is told on standard error, and prints nothing" \
        '$program <&- 2>$folder/err >$folder/out; [ ! -s $folder/out ] && grep -q "^$word: standard input: Bad file" $folder/err'
    check "a folder as input is told on standard error, and prints nothing" \
        '$program <. 2>$folder/err >$folder/out; [ ! -s $folder/out ] && grep -q "^$word: standard input: Is a dir" $folder/err'
    check "a read that fails is told on standard error, and prints nothing, at the start or on the way" \
        'for READS in E eeE; do
            shim <$input 2>$folder/err >$folder/out
            [ ! -s $folder/out ] && grep -q "^$word: standard input: Input/output" $folder/err || exit 1
        done'
    check "a read that a signal interrupts is tried again" 'READS=IIeIe; shim <$input 2>&1 | cmp - $output'
    check "a read that a signal interrupts without end is told on standard error, and prints nothing" \
        'READS=eI; shim <$input 2>$folder/err >$folder/out
        [ ! -s $folder/out ] && grep -q "^$word: standard input: Interrupted" $folder/err'
    check "what errno holds after reads that succeed stops nothing" \
        'for READS in e i; do shim <$input 2>&1 | cmp - $output || exit 1; done'
    # The first few come so slowly that each is read by itself.
    check "an input that comes a byte at a time is printed as a whole one" \
        'while IFS= read -r -n 1 -d "" byte; do [ $((bytes += 1)) -gt 4 ] || sleep 0.1; printf %s "$byte"; done <$input |
        $program | cmp - $output'
    check "an input that pauses in the middle of a line is waited for" \
        '{ head -c 50 $input; sleep 1; tail -c +51 $input; } | $program | cmp - $output'
    check "an input without end is refused with 18 as soon as it is too long" \
        '[ "$(yes "$line" | $program)" = "(refused 18)" ] && [ "$($program </dev/zero)" = "(refused 18)" ]'
    check "of a text that is too long 65,536 bytes are read" \
        '[ "$({ $program >/dev/null; wc -c; } <$folder/long)" = $((200000 - 65536)) ]'
    check "the status is 0 where reading or writing fails" \
        '$program <$input 2>$folder/err >/dev/full && $program <&- 2>$folder/err'
    check "nothing is written to standard error where all is well" '$program <$input 2>&1 | cmp - $output'
}

of "" slots "$slots" examples/day.script examples/day.printout "(tick)"
surroundings
check "an output that fills up on the way has a beginning of the printout, and standard error says why" \
    'trap "" XFSZ; (ulimit -f 1; $slots <$folder/feeds 2>$folder/err >$folder/out)
    $slots <$folder/feeds | head -c 1024 | cmp - $folder/out && grep -q "^slots: standard output: File too large" $folder/err'
check "a reader that closes early does no harm" '[ "$($slots <$folder/feeds | head -n 1)" = "(refused 16)" ]'
check "a reader that closes early is told on standard error, if the signal is ignored, and the status is 0" \
    'trap "" PIPE; $slots <$folder/feeds 2>$folder/err | head -n 1 >$folder/out; grep -q "^slots: standard output: Broken pipe" $folder/err &&
    (set -o pipefail; $slots <$folder/feeds 2>$folder/err | true)'
check "an N or I that is no number of a script gets the line of usage, and nothing is read or printed" 'bad_numbers --sure && bad_numbers --tenant'
check "a missing N or I gets the line of usage, and nothing is read or printed" 'usage --sure && usage --tenant'
check "an argument behind N or I gets the line of usage, and nothing is read or printed" \
    'for option in --sure --tenant; do
        for argument in 2 "" $option --operator --counts $input; do usage $option 1 "$argument" && usage $option 1 "$argument" 1 || exit 1; done
    done'
check "an argument behind an option that has none gets the line of usage, and nothing is read or printed" \
    'for option in --operator --counts --help; do
        for argument in 1 x "" --operator --counts --help --sure --tenant $input; do
            usage $option "$argument" && usage $option "$argument" 1 || exit 1
        done
    done'
check "another option gets the line of usage, and nothing is read or printed" \
    'for option in -h -help --Help --helps --hel --version -s -sure --Sure --sur --sures --sure= --sure=1 "--sure 1" " --sure" \
        -o -operator --Operator --operato --operators --operator= --operator=1 "--operator " " --operator" \
        -t -tenant --Tenant --tenan --tenants --tenant= --tenant=1 "--tenant 1" " --tenant" \
        -c -counts --Counts --COUNTS --count --countss --counts= --counts=1 "--counts 1" "--counts " " --counts" -- -; do
        usage "$option" && usage "$option" 1 || exit 1
    done
    for option in --sure --operator --tenant --counts --help; do
        for more in x "$(yes x | head -n 5000 | tr -d "\n")"; do usage "$option$more" && usage "$option$more" 1 || exit 1; done
    done'
check "an argument without dashes gets the line of usage, and nothing is read or printed" \
    'for argument in 1 sure operator tenant counts help $input ""; do
        usage "$argument" && usage "$argument" 1 || exit 1
        for option in --sure --operator --counts --help; do usage "$argument" $option || exit 1; done
    done'
check "--help prints the line of usage, nothing is read, and nothing is written to standard error" \
    '[ "$({ $slots --help 2>$folder/err >$folder/out; wc -c; } <$input)" = "$(wc -c <$input)" ] && [ ! -s $folder/err ] &&
    echo "$slots_usage" | cmp - $folder/out'
check "for --help, and for arguments that get the line of usage, no input is waited for, and none is needed" \
    'mkfifo $folder/silent && exec 3<>$folder/silent || exit 1
    for arguments in --help --operators --tenant "--tenant x" "--operator 1" --count "--counts 1" --sure; do
        [ "$($slots $arguments 2>&1 <&3)" = "$slots_usage" ] && [ "$($slots $arguments 2>&1 <&-)" = "$slots_usage" ] || exit 1
    done'
# S-14 of paper 02, behind the script with a core at its end that has one private client: of n ticks n are sure.
{ cat $input; echo "(open 1 0 1)"; echo "(join 0 (private 1))"; } >$folder/asked
echo "(sure 7 7)" >$folder/figure
of "with --sure, " slots "$slots --sure 7" $folder/asked $folder/figure "(tick)"
surroundings
check "the first n and the last are asked for as any other, and nothing is written to standard error" \
    'for n in 0 1 9 10 4294967295; do [ "$($slots --sure $n <$input 2>&1)" = "(sure $n $n)" ] || exit 1; done'
# S-5 of paper 02: the sheets of the same script. Each of 8,000 ticks has the only share there is, so that the target is 0.
{ echo "(open 1 0 1)"; echo "(join 0 (private 1))"; yes "(tick)" | head -n 8000; } >$folder/ticks
while IFS= read -r row; do printf '%s\n\n(tick) \n\377(tick)\n(tick)\0\n(tick\n)\n' "$row"; done <examples/day.script >$folder/among
printf '(tick)' >>$folder/among
for sheet in operator tenant-1; do
    of "with --${sheet/-/ }, " slots "$slots --${sheet/-/ }" examples/day.script examples/day.$sheet "(tick)"
    surroundings
    check "an output that fills up on the way has a beginning of the sheet, and standard error says why" \
        'trap "" XFSZ; (ulimit -f 1; $program <$folder/ticks 2>$folder/err >$folder/out)
        $program <$folder/ticks | head -c 1024 | cmp - $folder/out && grep -q "^slots: standard output: File too large" $folder/err'
    check "stray bytes print nothing, however many, and nothing is written to standard error" \
        'for text in /dev/null $folder/feeds $folder/zeros $folder/stray; do [ "$($program <$text 2>&1 | wc -c)" = 0 ] || exit 1; done'
    check "stray lines among those of a script print nothing" '$program <$folder/among 2>&1 | cmp - $output'
    check "60,001 stray bytes are refused with 18" \
        'for text in $folder/feeds $folder/zeros $folder/stray; do [ "$({ cat $text; echo; } | $program)" = "(refused 18)" ] || exit 1; done'
done
of "the sheets: " slots "$slots" $folder/ticks "" "(tick)"
check "a reader that closes early does no harm" \
    '[ "$($slots --operator <$folder/ticks | head -n 1)" = "Client 0 had nothing to send, drawn at target 0 of a rate sum of 1." ]'
check "the first id and the last number are asked for as any other, and nothing is written to standard error" \
    '[ "$($slots --tenant 0 <$folder/ticks 2>&1 | sort -u)" = "Client 0 had nothing to send, drawn at target 0 of a rate sum of 1." ] &&
    for id in 64 4294967295; do [ "$($slots --tenant $id <$folder/ticks 2>&1 | sort | uniq -c)" = "   8000 (refused 4)" ] || exit 1; done'
# S-7 of paper 02: the count sheets of examples/month, and of 64 clients, which are more than 1,024 bytes. Stray lines, and a leave without its line
# feed, are in no count.
{ echo "(open 1024 0 1)"; for id in {0..63}; do echo "(join $id (private 16))"; done; } >$folder/crowd
while IFS= read -r row; do printf '%s\n\n(tick) \n\377(tick)\n(arrive 7 (packet 1 64\n))\n(leave 7)\0\n' "$row"; done \
    <examples/month.script >$folder/among
printf '(leave 7)' >>$folder/among
of "with --counts, " slots "$slots --counts" examples/month.script examples/month.counts "(tick)"
surroundings
check "an output that fills up on the way has a beginning of the lines, and standard error says why" \
    'trap "" XFSZ; (ulimit -f 1; $program <$folder/crowd 2>$folder/err >$folder/out)
    $program <$folder/crowd | head -c 1024 | cmp - $folder/out && grep -q "^slots: standard output: File too large" $folder/err'
check "a reader that closes early does no harm" '[ "$($program <$folder/crowd | head -n 1)" = "(counts 0 0 0 0 0 0 0)" ]'
check "stray bytes print nothing, however many, and nothing is written to standard error" \
    'for text in /dev/null $folder/feeds $folder/zeros $folder/stray; do [ "$($program <$text 2>&1 | wc -c)" = 0 ] || exit 1; done'
check "stray lines among those of a script count nothing" '$program <$folder/among 2>&1 | cmp - $output'
check "60,001 stray bytes are refused with 18" \
    'for text in $folder/feeds $folder/zeros $folder/stray; do [ "$({ cat $text; echo; } | $program)" = "(refused 18)" ] || exit 1; done'
# S-8 of paper 02. It prints less than a thousand bytes, in one write: an output that fills up on the way, or closes early, is not tried.
of "fair: " fair "$fair" examples/floor.demands examples/floor.rates "(demand 1 1)"
surroundings
check "any argument gets the line of usage, and nothing is read or printed" any_argument
echo "$passed passed, $failed failed"
[ "$failed" = 0 ]
