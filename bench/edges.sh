#!/bin/bash
# Runs ./ndis on wrong words, on inputs of each kind and on streams that fail, and compares its exit
# status, its line on standard error and its report with what is expected.
#
#     bash bench/edges.sh [WORD]
#
# WORD picks the cases whose names hold it. With the proved program all cases take seconds. Without it
# most take the time of an unproved build, the recorded faults are left out, and a long report is refused.
set -u
top=$(cd "$(dirname "${BASH_SOURCE[0]}")/.." && pwd)
cd "$top" || exit 2
picked=${1:-}
ndis=$top/ndis
example=$top/examples/one-frame.json
report=$top/crates/ndis/stdout
faults=$top/crates/script_cases
room=$(mktemp -d) || exit 2
trap 'rm -rf "$room"' EXIT
passed=0
failed=0

is_proved() {
    [ -x crates/ndis/out/ndis ]
}

# edge NAME STATUS LINE COMMAND: where nothing is expected on standard output, or with status 0 the
# report of the example.
edge() {
    local name=$1 status=$2 line=$3 ended told
    if [[ $name != *"$picked"* ]]; then
        return
    fi
    : >"$room/out"
    : >"$room/said"
    (eval "$4") >"$room/out" 2>"$room/said" </dev/null
    ended=$?
    told=$(grep -v '^ndis: no proved program' "$room/said")
    if [ "$ended" != "$status" ] || [ "$told" != "$line" ]; then
        echo "FAILED $name: status $ended and '${told:0:300}', not $status and '$line'"
        failed=$((failed + 1))
    elif [ "$status" = 0 ] && ! cmp -s "$room/out" "$report"; then
        echo "FAILED $name: the report is another"
        failed=$((failed + 1))
    elif [ "$status" != 0 ] && [ -s "$room/out" ]; then
        echo "FAILED $name: something is written"
        failed=$((failed + 1))
    else
        echo "passed $name: $ended ${line:+($line)}"
        passed=$((passed + 1))
    fi
}

# A script of so many calls, each the JSON that is given.
script_of_calls() {
    printf '%s' '{"version":1,"lanes":1,"stacks":[{"miniport":{"kind":"ring","address":"020000000001","ring":4,"pool":4},"bindings":[{"kind":"log","pool":4}],"filters":[]}],"calls":['
    if [ "$1" -gt 0 ]; then
        printf '%s' "$2"
        yes ",$2" | head -n $(($1 - 1)) | tr -d '\n'
    fi
    printf ']}'
}

# The example with one text in the place of another.
example_with() {
    local text
    text=$(<"$example")
    if [[ $text != *"$1"* ]]; then
        echo "the example has no $1" >&2
    fi
    printf '%s' "${text/"$1"/"$2"}"
}

# The example, and blanks up to so many bytes.
example_of_length() {
    cat "$example"
    head -c $(($1 - $(stat -c %s "$example"))) /dev/zero | tr '\0' ' '
}

pump='{"lane":0,"call":"pump","stack":0}'
usage='usage: ndis replay [--order L,L]'
whole='bad script at whole:'

edge 'no words' 1 "$usage" '$ndis'
edge 'an unknown word' 1 "$usage" '$ndis run <"$example"'
edge 'an option of another command' 1 "$usage" '$ndis replay --seed 1 <"$example"'
edge 'a flag' 1 "$usage" '$ndis --help'
edge 'two dashes' 1 "$usage" '$ndis -- replay <"$example"'
edge 'an empty word' 1 "$usage" '$ndis "" <"$example"'
edge 'a word too many' 1 "$usage" '$ndis replay replay <"$example"'
edge 'an empty word too many' 1 "$usage" '$ndis replay "" <"$example"'
edge 'a word in capitals' 1 "$usage" '$ndis REPLAY <"$example"'
edge 'a word with a newline' 1 "$usage" '$ndis replay$'"'\n'"' <"$example"'
edge 'a word that is no text' 1 "$usage" '$ndis $'"'\xff'"' <"$example"'
edge 'a second word that is no text' 1 "$usage" '$ndis replay $'"'\xed\xa0\x80'"' <"$example"'
edge 'a long word' 1 "$usage" '$ndis $(head -c 100000 /dev/zero | tr "\0" r) <"$example"'
edge 'many words' 1 "$usage" '$ndis $(yes replay | head -n 20000) <"$example"'
edge 'wrong words, a directory as input' 1 "$usage" '$ndis run </'
edge 'wrong words, input left alone' 0 '' '{ $ndis run 2>/dev/null; cat; } <"$report"'

edge 'the example' 0 '' '$ndis replay <"$example"'
edge 'the example from a pipe' 0 '' 'cat "$example" | $ndis replay'
edge 'the example in pieces' 0 '' '{ head -c 100 "$example"; sleep 3; tail -c +101 "$example"; } | $ndis replay'
edge 'the example from another folder' 0 '' 'cd / && $ndis replay <"$example"'
edge 'the example by a link' 0 '' 'ln -sf "$ndis" "$room/link" && "$room/link" replay <"$example"'
edge 'the example with blanks around' 0 '' '{ printf " \t\r\n"; cat "$example"; printf " \t\r\n"; } | $ndis replay'
edge 'no environment' 0 '' 'env -i PATH="$PATH" $ndis replay <"$example"'
edge 'another language' 0 '' 'LC_ALL=C $ndis replay <"$example"'

edge 'an empty input' 2 "$whole NotJson" '$ndis replay </dev/null'
edge 'blanks alone' 2 "$whole NotJson" 'echo "   " | $ndis replay'
edge 'garbage' 2 "$whole NotJson" 'echo "no script" | $ndis replay'
edge 'bytes of a program' 2 "$whole NotJson" 'head -c 100000 /bin/sh | $ndis replay'
edge 'a NUL byte' 2 "$whole NotJson" 'printf "\0" | $ndis replay'
edge 'a NUL byte at the end' 2 "$whole NotJson" '{ cat "$example"; printf "\0"; } | $ndis replay'
edge 'a NUL byte in a text' 2 "$whole NotJson" 'example_with '"'\"ring\",'"' "$(printf "\"\\001\",")" | tr "\001" "\0" | $ndis replay'
edge 'bad UTF-8 in a text' 2 "$whole NotJson" 'example_with ring $'"'\xff'"' | $ndis replay'
edge 'an overlong slash' 2 "$whole NotJson" 'example_with ring $'"'\xc0\xaf'"' | $ndis replay'
edge 'a byte order mark' 2 "$whole NotJson" '{ printf "\xef\xbb\xbf"; cat "$example"; } | $ndis replay'
edge 'UTF-16' 2 "$whole NotJson" 'iconv -f UTF-8 -t UTF-16 "$example" | $ndis replay'
edge 'the example twice' 2 "$whole NotJson" 'cat "$example" "$example" | $ndis replay'
edge 'the example but its last byte' 2 "$whole NotJson" 'head -c -1 "$example" | $ndis replay'
edge 'brackets, 127 deep' 2 "$whole Shape" '{ yes "[" | head -n 127; yes "]" | head -n 127; } | tr -d "\n" | $ndis replay'
edge 'brackets, 1,000,000 deep' 2 "$whole NotJson" 'head -c 1000000 /dev/zero | tr "\0" "[" | $ndis replay'
edge 'closed brackets, 1,000,000 deep' 2 "$whole NotJson" '{ head -c 1000000 /dev/zero | tr "\0" "["; head -c 1000000 /dev/zero | tr "\0" "]"; } | $ndis replay'
edge 'braces, 100,000 deep' 2 "$whole NotJson" 'yes "{\"version\":" | head -n 100000 | tr -d "\n" | $ndis replay'

edge 'the greatest length' 0 '' 'example_of_length 4194304 | $ndis replay'
edge 'a byte past the greatest length' 2 "$whole TooLong" 'example_of_length 4194305 | $ndis replay'
edge '5 MB of text' 2 "$whole TooLong" 'head -c 5000000 /dev/zero | tr "\0" x | $ndis replay'
edge '100 MB of text' 2 "$whole TooLong" 'head -c 100000000 /dev/zero | $ndis replay'
edge 'an endless input' 2 "$whole TooLong" 'yes | $ndis replay'

edge 'null' 2 "$whole Shape" 'echo null | $ndis replay'
edge 'a list' 2 "$whole Shape" 'echo "[]" | $ndis replay'
edge 'no members' 2 "$whole Shape" 'echo "{}" | $ndis replay'
edge 'an unknown member' 2 "$whole Shape" 'example_with '"'\"lanes\":1'"' '"'\"lanes\":1,\"more\":1'"' | $ndis replay'
edge 'a missing member' 2 "$whole Shape" 'example_with '"'\"lanes\":1,'"' "" | $ndis replay'
edge 'another version' 2 "$whole Range" 'example_with '"'\"version\":1'"' '"'\"version\":2'"' | $ndis replay'
edge 'a stack with an unknown member' 2 'bad script at stack 0: Shape' 'example_with '"'\"filters\":[]'"' '"'\"filters\":[],\"more\":1'"' | $ndis replay'
edge 'a stack with a missing member' 2 'bad script at stack 0: Shape' 'example_with '"',\"filters\":[]'"' "" | $ndis replay'
edge 'a call with an unknown member' 2 'bad script at call 0: Shape' 'example_with '"'\"lane\":0'"' '"'\"lane\":0,\"more\":1'"' | $ndis replay'
edge 'a call with a missing member' 2 'bad script at call 0: Shape' 'example_with '"'\"lane\":0,'"' "" | $ndis replay'
edge 'an unknown call' 2 'bad script at call 0: Range' 'example_with '"'\"call\":\"send\"'"' '"'\"call\":\"sent\"'"' | $ndis replay'
edge 'a frame that is not hexadecimal' 2 'bad script at call 0: BadHex' 'example_with ffffffffffff gggggggggggg | $ndis replay'
edge 'a frame that is too short' 2 'bad script at call 0: FrameLength' 'example_with ffffffffffff "" | $ndis replay'
edge 'an order without its lanes' 1 "$usage" '$ndis replay --order <"$example"'
edge 'an order of no lanes' 1 "$usage" '$ndis replay --order= <"$example"'
edge 'an order of a lane past the last' 1 "$usage" '$ndis replay --order 0,8 <"$example"'
edge 'an order that ends with a comma' 1 "$usage" '$ndis replay --order 0, <"$example"'
edge 'an order of 16,385 lanes' 1 "$usage" '$ndis replay --order 0$(yes ,0 | head -n 16384 | tr -d "\n") <"$example"'
edge 'an order of 16,384 lanes' 0 '' '$ndis replay --order 0$(yes ,0 | head -n 16383 | tr -d "\n") <"$example"'
edge 'an order in one word' 0 '' '$ndis replay --order=0,7 <"$example"'
edge '16,385 calls' 2 "$whole TooMany" 'script_of_calls 16385 "$pump" | $ndis replay'
edge '200,000 empty calls' 2 "$whole TooMany" 'script_of_calls 200000 "{}" | $ndis replay'

edge 'input closed' 3 'read fault' '$ndis replay <&-'
edge 'a directory as input' 3 'read fault' '$ndis replay </'
edge 'input that can only be written' 3 'read fault' '$ndis replay 0>"$room/sink"'

edge 'output closed' 4 'write fault' '$ndis replay <"$example" >&-'
edge 'output full' 4 'write fault' '$ndis replay <"$example" >/dev/full'
edge 'output that can only be read' 4 'write fault' '$ndis replay <"$example" 1</dev/null'
edge 'output to a pipe that nobody reads' 4 'write fault' '{ sleep 0.5; $ndis replay <"$example"; } | true; exit "${PIPESTATUS[0]}"'
edge 'output closed, a bad script' 2 "$whole NotJson" '$ndis replay </dev/null >&-'
edge 'output closed, wrong words' 1 "$usage" '$ndis run >&-'

edge 'error closed, the example' 0 '' '$ndis replay <"$example" 2>&-'
edge 'error full, the example' 0 '' '$ndis replay <"$example" 2>/dev/full'
edge 'error closed, no words' 1 '' '$ndis 2>&-'
edge 'error full, no words' 1 '' '$ndis 2>/dev/full'
edge 'error closed, a word that is no text' 1 '' '$ndis $'"'\xff'"' 2>&-'
edge 'error closed, a bad script' 2 '' '$ndis replay </dev/null 2>&-'
edge 'error full, a bad script' 2 '' '$ndis replay </dev/null 2>/dev/full'
edge 'error closed, a bad call' 2 '' 'example_with ffffffffffff gggggggggggg | $ndis replay 2>&-'
edge 'error to a pipe that nobody reads, a bad script' 2 '' '{ sleep 0.5; $ndis replay </dev/null 2>&1 >"$room/out"; } | true; exit "${PIPESTATUS[0]}"'
edge 'error closed, a directory as input' 3 '' '$ndis replay </ 2>&-'
edge 'error full, output closed' 4 '' '$ndis replay <"$example" >&- 2>/dev/full'
edge 'all closed' 3 '' '$ndis replay <&- >&- 2>&-'

# A script that is right and can't be run yet.
edge 'joined stacks' 2 'bad script at whole: NotBuilt' '$ndis replay <crates/walked_runs/data/two-virtual-stacks.script.json'

# Each faulty script that script_cases reads, with the line that stands there.
if is_proved; then
    number=0
    while read -r line; do
        number=$((number + 1))
        if [[ $line == 'bad script at '* ]]; then
            edge "recorded fault $number" 2 "$line" '$ndis replay <"$faults/data/fault-$number.script"'
        fi
    done <"$faults/stdout"
fi

# The most calls, and reports that are longer than the 1 MiB that an unproved program prints.
edge '16,384 calls' 0 '' 'script_of_calls 16384 "$pump" | $ndis replay >"$room/many" && [ "$(grep -c " call 0 pump = idle$" "$room/many")" = 16384 ] && cat "$report"'
python3 bench/scripts.py sends 165 8 1518 >"$room/sends"
python3 bench/scripts.py sends 16384 1 14 >"$room/refused"
if is_proved; then
    edge 'a long report' 0 '' '$ndis replay <"$room/sends" >"$room/long" && [ "$(grep -c " call 0 send b0 " "$room/long")" = 165 ] && cat "$report"'
    edge 'a long report, of which one line is read' 4 'write fault' '$ndis replay <"$room/sends" | head -n 1 >/dev/null; exit "${PIPESTATUS[0]}"'
    edge 'too little memory' 5 'out of memory' 'ulimit -v 10000; $ndis replay <"$room/refused"'
else
    edge 'a long report' 4 'ndis: an unproved program prints at most 1 MiB, and this report is longer; ./build-ndis builds the proved one' '$ndis replay <"$room/sends"'
fi

echo "$passed passed, $failed failed"
[ "$failed" = 0 ]
