# For the tests on the second scorer's cases (tests/second): what they share, built once, in the folder $cases.
#     generate scorer readings   the programs of tests/second
#     each                       runs a program in many folders (each.c)
#     cases.txt kinds.txt        the cases, and how many there are of each kind
#     folders/N                  pattern.txt and record.txt of case N
#     repeats                    the cases whose files are those of a case before, which count once
#     sums                       a case's number behind the sums of its files (sums_of), for each case
#     expected/N                 what the scorer answers
#     watched/N                  what `watch` prints, and watched.stderr what it prints to standard error, of all cases
# To be sourced, in the repository's root.
. tests/part.sh
cases=$PWD/target/tests/cases

# the folders of all cases, one to a line
folders() { printf '%s\n' "$cases"/folders/*; }

# whether each case has its file in a folder of answers
complete() { cmp -s <(ls "$cases/folders") <(ls "$1"); }

build_programs() {
    local program
    for program in generate scorer readings; do
        rustc --edition 2024 -O -o "$cases/$program" "tests/second/$program.rs" || return
    done
    gcc -std=c11 -O2 -Wall -Wextra -Werror tests/each.c -o "$cases/each"
}
# sums_of FOLDER..: for each folder below these, the sums of its pattern.txt and record.txt, and its name; a file that is not
# there, and one that is no file, have a word in the place of a sum
sums_of() {
    python3 - "$@" <<'END'
import hashlib, pathlib, sys
def sum_of(file):
    return hashlib.md5(file.read_bytes()).hexdigest() if file.is_file() else 'other' if file.exists() else 'missing'
for folder in [f for parent in sys.argv[1:] for f in sorted(pathlib.Path(parent).iterdir())]:
    print(sum_of(folder / 'pattern.txt'), sum_of(folder / 'record.txt'), folder.name)
END
}
# of such lines, the names of those whose files are those of one before
repeated() { awk 'seen[$1, $2]++ { print $3 }'; }
build_cases() {
    rm -rf "$cases" && mkdir -p "$cases/expected" && build_programs || return
    "$cases/generate" "$cases/cases.txt" >"$cases/kinds.txt" || return
    "$cases/generate" --dirs "$cases/cases.txt" "$cases/folders" || return
    sums_of "$cases/folders" >"$cases/sums" && repeated <"$cases/sums" >"$cases/repeats" || return
    "$cases/scorer" --many "$cases/folders" "$cases/expected" && complete "$cases/expected"
}
build_watched() {
    rm -rf "$cases/watched" && mkdir "$cases/watched" || return
    "$cases/each" "$cases/watched" "$PWD/target/bin/watch" < <(folders) 2>"$cases/watched.stderr" && complete "$cases/watched"
}
[ -x target/bin/watch ] || { echo "tests: target/bin/watch is not there (.ci/run, or ./score)"; exit 1; }
part cases build_cases tests/second tests/cases.sh tests/each.c
part watched build_watched target/bin/watch target/tests/cases.done

# differing ONE OTHER: the names of the files of the folder ONE that OTHER has otherwise or not at all
differing() {
    LC_ALL=C diff -rq "$1" "$2" | sed -n -e 's|^Files .*/\([^ /]*\) and .* differ$|\1|p' -e "s|^Only in $1: ||p"
    [ "${PIPESTATUS[0]}" -le 1 ] || exit 2
}
