#!/bin/sh
# Makes what `rt ci` runs the programs on of stored tapes: crates/tape/stdin, and for `many` and `session` also what they must write.
set -eu
cd "$(dirname "$0")"

# A number in 8 bytes, low byte first.
eight() {
    n=$1
    for _ in 1 2 3 4 5 6 7 8; do
        printf "\\$(printf %03o $((n % 256)))"
        n=$((n / 256))
    done
}

# A stored tape as both programs read it. It also sets `written`, the number of bytes that it is answered with.
sent() {
    read -r status _ written _ <stored/"$1".result
    room=336434
    if [ "$status" = 13 ]; then
        room=$written
    fi
    eight "$(wc -c <stored/"$1".tape)"
    eight "$room"
    cat stored/"$1".tape
}

cp stored/example.tape ../crates/tape/stdin
for name in empty example noroom-12 configuration-trailing frame-cut-30 frame-check-body-first input-refresh random-retries-1; do
    sent $name >&3
    cat stored/$name.result stored/$name.answers
done 3>../crates/many/stdin >../crates/many/stdout
for name in empty example noroom-12 configuration-trailing frame-cut-30 input-wrong-type random-retries-1 deep-asks; do
    sent $name >&3
    echo "$written bytes of answers, replay's"
done 3>../crates/session/stdin >../crates/session/stdout
