# shellcheck shell=sh disable=SC2034
# Read in by compare/run, compare/long and bench/run: building, and the comparison of one session.

LC_ALL=C
export LC_ALL
root=$(cd "$(dirname "$0")/.." && pwd)
built=$root/target/compare
punkurel=$root/crates/punkurel/out/punkurel

warnings="-std=c11 -g -Wall -Wextra -Wpedantic -Wconversion -Werror"
sanitizers="-O1 -fsanitize=address,undefined -fno-sanitize-recover=all"
rules="modes.c table.c formed.c lending.c rules.c session.c"

fail() {
    echo "$0: $*" >&2
    exit 1
}

# can_build COMPILER FLAGS: whether it builds a program.
can_build() {
    echo 'int main(void) { return 0; }' >"$built/empty.c"
    # shellcheck disable=SC2086
    "$1" $2 "$built/empty.c" -o "$built/empty" >/dev/null 2>&1
}

# need_compiler COMPILER FLAGS PACKAGES: installs Debian's where it does not build a program.
need_compiler() {
    mkdir -p "$built"
    if can_build "$1" "$2"; then
        return
    fi
    if [ "$(id -u)" -ne 0 ] || ! command -v apt-get >/dev/null; then
        fail "'$1 $2' can't build a program; Debian's packages for it: $3 (installed here only by root)"
    fi
    # shellcheck disable=SC2086
    { apt-get update && DEBIAN_FRONTEND=noninteractive apt-get install -y $3; } >"$built/install.log" 2>&1 ||
        fail "apt-get could not install $3; see $built/install.log"
    can_build "$1" "$2" || fail "'$1 $2' can't build a program, though $3 is installed"
}

# build PROGRAM FLAGS SOURCES: into target/compare, from sources in compare/.
build() {
    # shellcheck disable=SC2086
    (cd "$root/compare" && cc $warnings $2 $3 -o "$built/$1") || fail "could not build $1"
}

build_generate() {
    build generate "$1" "$rules random.c walk.c damage.c stories.c generate.c"
}

need_punkurel() {
    [ -x "$punkurel" ] || fail "$punkurel is missing; it has to be built first, by rt run in crates/punkurel"
}

# report EXPECTED ANSWERS: the first line in which they differ.
report() {
    line=$(paste -d '|' "$1" "$2" | awk -F '|' 'NF != 2 || $1 != $2 { print NR; exit }')
    if [ -z "$line" ]; then
        echo "  they differ only in the line feed at the end"
        return
    fi
    echo "  line $line: $(sed -n "${line}p" "$built/session" | tr -c '[:print:]\n' '?' | cut -c 1-72)"
    echo "  model:    $(sed -n "${line}p" "$1")"
    echo "  punkurel: $(sed -n "${line}p" "$2")"
}

# same EXPECTED ANSWERS SEED HOW: ends with a report where they differ.
same() {
    if ! cmp -s "$1" "$2"; then
        echo "seed $3$4: the answers differ"
        report "$1" "$2"
        exit 1
    fi
}

# compare_seed SEED LINES SMALL: one session, whole, and its first SMALL lines in small pieces. Sets lines.
compare_seed() {
    "$built/generate" "$1" "$2" 0 >"$built/session" || fail "seed $1: generate failed"
    "$built/model" <"$built/session" >"$built/expected" || fail "seed $1: the model failed"
    "$root/scripts/on-x86" "$punkurel" <"$built/session" >"$built/answers" ||
        fail "seed $1: punkurel ended with status $?"
    same "$built/expected" "$built/answers" "$1" ""
    head -n "$3" "$built/session" >"$built/session-head"
    head -n "$3" "$built/expected" >"$built/expected-head"
    "$built/pieces" "$root/scripts/on-x86" "$punkurel" <"$built/session-head" >"$built/answers-head" ||
        fail "seed $1, in pieces: punkurel ended with status $?"
    same "$built/expected-head" "$built/answers-head" "$1" ", in pieces"
    lines=$(($(wc -l <"$built/expected")))
    cut -d ' ' -f 1 "$built/expected" | sort -n | uniq -c >>"$built/tally"
}

# The numbers that were answered, each with how often.
tally() {
    awk '{ count[$2] += $1 }
         END { for (i = 0; i < 12; i++) if (count[i]) printf "%s%d: %d", i ? ", " : "", i, count[i] }' \
        "$built/tally"
}
