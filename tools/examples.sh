#!/bin/sh
# Whether the sessions of examples/ are those of crates/aud_session_tests/data/examples.txt, which the gate runs (`rt ci`
# reads the folders of crates alone), and have the programs of its `.adb` files, and whether all files of sessions are
# looked at. With `write` the programs are put into the sessions, the model's answers beside them, and both into
# examples.txt. With a folder all of them are written there, one after the other and a QUIT, as `stdin`, and what is
# answered as `stdout`.
set -eu
cd "$(dirname "$0")/../examples"
sessions="first cell loop array recursion tasks steps rendezvous select buffer barrier resource deadlock abort evens watch"
data=../crates/aud_session_tests/data/examples.txt
answers() { for name in $sessions; do cat "$name.stdout"; done; }
written() {
    sed '/^$/q' "$data"
    number=0
    for name in $sessions; do
        number=$((number + 1))
        [ $number = 1 ] || echo
        grep '^= ' "$data" | sed -n "${number}p"
        sed 's/^/> /' "$name"
        sed 's/^/< /' "$name.stdout"
    done
}
if [ "${1:-}" = write ]; then
    python3 ../tools/sessions.py --write $sessions
    for name in $sessions; do python3 ../tools/model/solo.py < "$name" > "$name.stdout"; done
    all=$(written)
    printf '%s\n' "$all" > "$data"
    exit
fi
if [ $# = 1 ]; then
    { cat $sessions && echo QUIT; } > "$1/stdin"
    { answers && echo "+ 0"; } > "$1/stdout"
    exit
fi
python3 ../tools/sessions.py $sessions
if [ "$(cat $sessions)" != "$(sed -n 's/^> \{0,1\}//p' "$data")" ] || [ "$(answers)" != "$(sed -n 's/^< \{0,1\}//p' "$data")" ]; then
    echo "examples: the sessions of examples/ are not those of crates/aud_session_tests/data/examples.txt" >&2
    exit 1
fi
cd ../crates/aud_session_tests
{ printf '%s\n' --halls halls/rows.txt halls/limits.txt halls/random.txt --programs texts/canonical.txt --sessions; LC_ALL=C ls -p data | grep -v /; } | cmp - args
