# shellcheck shell=sh
# Proves and builds crates of this repository, for ./cms-canon and scripts/release, which set `top` and `say` what happens. Each crate is proved in a
# tree of its own, of hard links, since `rt` keeps others out of the crates below, too. A second call waits for the build of the first.

log=$top/out/build.log

# The crates below those named, a line for those that can be proved side by side, lowest first. Each comes as late as what
# uses it allows, so that cms_tlv has all processors.
rounds() {
    awk -F: -v named="$*" '
        /^[a-z]/ { split($1, words, " "); crates[words[1]] = $2 }
        function below(name, depth, parts, i, n) {
            n = split(crates[name], parts, " ")
            for (i = 1; i <= n; i++)
                if (parts[i] in crates && depth > depths[parts[i]]) {
                    depths[parts[i]] = depth
                    below(parts[i], depth + 1)
                }
        }
        END {
            n = split(named, names, " ")
            for (i = 1; i <= n; i++) below(names[i], 1)
            for (name in depths) {
                line[depths[name]] = line[depths[name]] " " name
                if (depths[name] > most) most = depths[name]
            }
            for (i = most; i > 0; i--) print line[i]
        }' "$top/crates.txt"
}

# Makes a tree of hard links for one crate. rt keeps others out of the crates below too, so that crates are
# proved side by side only in trees of their own.
make_tree() {
    mkdir -p "$trees/$1/crates" && cp "$top/crates.txt" "$trees/$1" \
        && cp -al "$top"/crates/* "$trees/$1/crates" >"$work/$1" 2>&1
}

# Proves one crate in its tree, builds its library, puts it in its place, and says how long that took. The
# other words are for rt. A failure leaves the file `failed`.
prove() {
    start=$(date +%s)
    name=$1
    shift
    if (CDPATH='' cd -- "$trees/$name/crates/$name" && rt lib "$@" </dev/null) >>"$work/$name" 2>&1 \
        && rm -rf "$top/crates/$name/out" && mv "$trees/$name/crates/$name/out" "$top/crates/$name"; then
        say "  $name: proved, $(($(date +%s) - start)) s"
    else
        say "  $name: NOT proved"
        touch "$work/failed"
    fi
    rm -rf "${trees:?}/$name"
}

# Crates of a round share the processors; if a round has one crate alone, rt chooses how many it takes.
prove_below() {
    rounds "$@" | while read -r names; do
        for name in $names; do
            make_tree "$name" || exit 1
        done
        # shellcheck disable=SC2086 # one word a crate
        set -- $names
        share=$(($(nproc) / $#))
        for name in "$@"; do
            if [ $# -eq 1 ]; then
                prove "$name" &
            else
                prove "$name" --jobs "$((share > 0 ? share : 1))" &
            fi
        done
        wait
        [ ! -e "$work/failed" ] || exit 1
    done
}

# Proves and builds a program or a static library, once the crates below it are proved.
build_last() {
    case $1 in
        *_program) (CDPATH='' cd -- "$top/crates/$1" && rt run -- --help </dev/null) ;;
        *) (CDPATH='' cd -- "$top/crates/$1" && rt lib </dev/null) ;;
    esac >"$work/$1" 2>&1
}

write_log() {
    for part in "$work"/cms_*; do
        echo "== ${part##*/}"
        cat "$part"
    done >"$log"
}

# Runs a command alone: a second call waits for it to end.
with_lock() {
    mkdir -p "$top/out" || return 1
    exec 9>"$top/out/lock" && flock 9
    "$@" 9>&-
    locked=$?
    exec 9>&-
    return "$locked"
}

# Proves and builds the programs and static libraries named. If that fails, the end of the log says why.
build() {
    work=$(mktemp -d) || return 1
    trees=$top/out/trees
    rm -rf "$trees"
    trap 'rm -rf "$work" "$trees"' EXIT
    trap 'exit 70' HUP INT TERM
    touch "$work/began"
    prove_below "$@"
    build_status=$?
    for name in "$@"; do
        [ "$build_status" -eq 0 ] && { build_last "$name" || build_status=1; }
    done
    write_log
    # what was edited meanwhile is newer than what was built
    [ "$build_status" -eq 0 ] && for name in "$@"; do
        touch -c -r "$work/began" "$top/crates/$name/out/$name" "$top/crates/$name/out/lib$name.a"
    done
    rm -rf "$work" "$trees"
    trap - EXIT HUP INT TERM
    return "$build_status"
}
