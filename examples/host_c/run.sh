#!/usr/bin/env bash
# Builds the library, the two C programs and the scripts, and runs them: the game's lines are those
# that the commands print of the same scripts, and nothing is found by the address sanitizer or valgrind.
# run.sh SULKHEN KIT [SEQUENCES]: the program, the kit's folder, and how many random sequences to try.
set -euo pipefail
here=$(cd "$(dirname "$0")" && pwd)
library=$here/../../crates/sulkhen_c
sulkhen=$(realpath "$1")
kit=$(realpath "$2")
sequences=${3:-100000}
work=$(mktemp -d)
trap 'rm -rf "$work"' EXIT

(cd "$library" && rt lib >/dev/null)
python3 "$here/names.py"
cp "$here"/*.p "$here"/*.json "$work"
cd "$work"
parts=("$library/out/libsulkhen_c.a" "$kit/c/liblibc_c.a")
flags=(-std=c11 -Wall -Wextra -Werror "-I$library")
checked=(-g -fsanitize=address,undefined -fno-sanitize-recover=all)
cc -O2 "${flags[@]}" "$here/game.c" "${parts[@]}" -o game
cc "${checked[@]}" "${flags[@]}" "$here/game.c" "${parts[@]}" -o game_checked
cc -O1 "${checked[@]}" "${flags[@]}" "$here/hostile.c" "${parts[@]}" -o hostile
cc -O1 -g "${flags[@]}" "$here/hostile.c" "${parts[@]}" -o hostile_plain

# The lines that the commands print: of both mains; of the publics, as rounds.p calls them, what
# they return being told; and of the clock, saved at its second sleep. The game's own line is the
# number that it keeps in the image.
segment() { "$sulkhen" "$1" clock.amx clock.json clock.img || test $? -eq 14; }
{
    "$sulkhen" go guard.p guard.amx guard.json
    "$sulkhen" go clock.p clock.amx clock.json
    "$sulkhen" go rounds.p rounds.amx rounds.json | sed '$d; s/^native told \(.*\) -> 0$/done \1/'
    segment run
    segment resume
    echo "restored 2"
    segment resume
    segment resume
} >commands.txt
./game guard.amx clock.amx >game.txt
diff commands.txt game.txt
diff "$here/game.txt" game.txt
./game guard.p clock.p | diff game.txt -
./game_checked guard.amx clock.amx | diff game.txt -
./game_checked guard.p clock.p | diff game.txt -
valgrind -q --leak-check=full --error-exitcode=9 ./game guard.amx clock.amx >/dev/null
valgrind -q --leak-check=full --error-exitcode=9 ./game guard.p clock.p >/dev/null
./hostile guard.amx clock.amx "$sequences"
valgrind -q --leak-check=full --error-exitcode=9 ./hostile_plain guard.amx clock.amx 200
echo passed
