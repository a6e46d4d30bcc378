# part NAME BUILD SOURCE..: runs BUILD unless it has run well since the last change of a source. For what several tests share;
# to be sourced, in the repository's root. The stamp target/tests/NAME.done comes last, so what an interrupted build leaves counts
# for nothing; it is as old as the build's begin, so a source that changes meanwhile is newer. Tests that run at the same time
# wait for each other.
part() {
    local stamp=target/tests/$1.done
    mkdir -p target/tests || exit 2
    {
        flock 9 || exit 2
        if [ ! -e "$stamp" ] || [ -n "$(find "${@:3}" -newer "$stamp" -print -quit)" ]; then
            rm -f "$stamp"
            touch "$stamp.part" && "$2" && mv "$stamp.part" "$stamp" || { echo "tests: $1 cannot be built"; exit 1; }
        fi
    } 9>"$stamp.lock"
}
