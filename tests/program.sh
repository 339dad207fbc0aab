#!/usr/bin/env bash
# Runs `bin/pathmap` and `bin/pathmap_make` as a user does: what they print and how they end, for good scripts and words
# and for bad.
set -u
cd "$(dirname "$0")/.."
passed=0
failed=0

# verdict NAME EXPECTED GOT
verdict() {
    if [ "$2" = "$3" ]; then
        passed=$((passed + 1))
    else
        failed=$((failed + 1))
        printf 'FAILED: %s\nexpected:\n%s\ngot:\n%s\n' "$@"
    fi
}

# check NAME STATUS OUTPUT INPUT [WORD..]
check() {
    local name=$1 status=$2 output=$3 input=$4
    shift 4
    verdict "$name" "$(printf '%b' "${output}status $status")" \
        "$(printf '%b' "$input" | bin/pathmap "$@" 2>/dev/null; echo "status $?")"
}

printf '' | bin/pathmap >/dev/null || { echo 'FAILED: the program is not built'; exit 1; }

check 'a put and a get' 0 '1 1.1 put 5 50 = new\n2 1.2 get 5 = 50\nleft 1\n5 50\nend\n' 'put 5 50\nget 5\n'
check 'no command' 0 'left 0\nend\n' ''
check 'a second put' 0 '1 1.1 put 5 1 = new\n2 1.2 put 5 2 = was 1\nleft 1\n5 2\nend\n' 'put 5 1\nput 5 2\n'
greatest=999999999999999999
check 'the greatest numbers' 0 \
    "1 1.1 put 0 0 = new\n2 1.2 put $greatest $greatest = new\nleft 2\n0 0\n$greatest $greatest\nend\n" \
    "put 0 0\nput $greatest $greatest\n"
check 'a remove with two children' 0 \
    '1 1.1 put 2 2 = new\n2 1.2 put 1 1 = new\n3 1.3 put 3 3 = new\n4 1.4 remove 2 = 2\nleft 2\n1 1\n3 3\nend\n' \
    'put 2 2\nput 1 1\nput 3 3\nremove 2\n'
check 'ceil and floor' 0 \
    '1 1.1 put 5 50 = new\n2 1.2 ceil 4 = 5 50\n3 1.3 floor 7 = 5 50\n4 1.4 ceil 6 = none\nleft 1\n5 50\nend\n' \
    'put 5 50\nceil 4\nfloor 7\nceil 6\n'
check 'comments, blanks and carriage returns' 0 '1 1.1 put 7 1 = new\n2 1.2 get 7 = 1\nleft 1\n7 1\nend\n' \
    '# Z\xc3\xbcrich\r\n\r\n  put\t007 1\r\nget 7'
check 'the shape of a tree' 0 \
    '1 1.1 put 2 2 = new\n2 1.2 put 1 1 = new\nleft 2\n1 1\n2 2\nshape 2\n1 2 2 1\n2 1 1 0\nend\n' \
    'put 2 2\nput 1 1\n' --shape
check 'an option with a value that it has not' 2 'fault usage\n' 'put 5 50\n' --shape=x
check 'an option twice' 2 'fault usage\n' 'put 5 50\n' --shape --shape
check 'an option that is not there' 2 'fault usage\n' 'put 5 50\n' --help
check 'a tree with a name' 0 'left 0\nshape 0\nend\n' '' --shape --tree bst
check 'a tree of no kind' 2 'fault usage\n' 'put 5 50\n' --tree red
check 'a loose word' 2 'fault usage\n' 'put 5 50\n' shape
check 'a word that is not UTF-8' 2 'fault usage\n' '' $'\xff'
check 'a number too large' 3 'fault line 1 bad number\n' 'put 1000000000000000000 1\n'
check 'the first bad line' 3 'fault line 2 unknown word\n' 'get 1\nGet 1\nput\n'
check 'a second client' 0 '1 2.1 get 1 = none\nleft 0\nend\n' 'client 2\nget 1\n'

check 'a summary' 0 '2 lines\nend\n' 'put 2 2\nput 1 1\n' --summary --shape
check 'a run of a made script' 0 '16000 lines\nend\n' 'no script' --made 7 --tree avl --summary
check 'a seed that is no number' 2 'fault usage\n' '' --made +1
verdict 'a made run does not wait for its input' "$(printf '16000 lines\nend')" \
    "$(sleep 5 | timeout 4 bin/pathmap --made 7 --summary)"

# makes NAME STATUS OUTPUT [WORD..]
makes() {
    local name=$1 status=$2 output=$3
    shift 3
    verdict "$name" "$(printf '%b' "${output}status $status")" "$(bin/pathmap_make "$@" 2>/dev/null; echo "status $?")"
}

bin/pathmap_make 0 1 1 >/dev/null || { echo 'FAILED: pathmap_make is not built'; exit 1; }
makes 'three commands' 0 'client 1\nceil 758\nput 515 31051\nget 10\n' 0 1 3
makes 'numbers with zeros in front' 0 'client 1\nceil 758\n' 00 01 001
makes '33 clients' 2 'fault usage\n' 0 33 3
makes 'more than 60,000 commands' 2 'fault usage\n' 0 32 1876
makes 'no words' 2 'fault usage\n'
makes 'a number with a sign' 2 'fault usage\n' +1 1 3
makes 'a word that is not UTF-8 for a seed' 2 'fault usage\n' $'\xff' 1 3
verdict 'a made script is run as any other' "$(printf '80 lines\nend')" \
    "$(bin/pathmap_make 7 4 20 | bin/pathmap --tree avl --summary)"

if [ -w /dev/full ]; then
    verdict 'a script to an output that is full' 5 "$(bin/pathmap_make 0 1 3 2>/dev/null >/dev/full; echo $?)"
    verdict 'an output that is full' 5 "$(printf 'put 5 50\n' | bin/pathmap 2>/dev/null >/dev/full; echo $?)"
fi
verdict 'an input one byte too long is answered without its rest' "$(printf 'fault input too large\n6')" \
    "$( (head -c 4194305 /dev/zero | tr '\0' ' '; sleep 5) | timeout 4 bin/pathmap; echo $?)"
verdict 'an input that cannot be read' "$(printf 'fault read\n4')" "$(bin/pathmap </ 2>/dev/null; echo $?)"

echo "$passed passed, $failed failed"
[ "$failed" = 0 ]
