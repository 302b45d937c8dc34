# shellcheck shell=sh
# What is released for this machine, in dist/, and whether it is made from the sources of this repository. Whoever reads this has set `top`.
#
# The SHA-256 of the sources takes 25 to 40 ms, so it is remembered until a file or a folder of them is newer. A file that was changed and
# given an older time is not seen; ./run-tests sees it.

dist=$top/dist/$(uname -m)-linux
manifest=$dist/MANIFEST

# The value of the line `NAME: VALUE` of the manifest.
in_manifest() {
    sed -n "s/^$1: //p" "$manifest"
}

# Whether the manifest names the C of now, if it names any; that of the module names more than the others.
is_of_runtime() {
    case $(in_manifest runtime) in
        '' | "$(sum_of_runtime runtime)" | "$(sum_of_runtime runtime runtime/module)") ;;
        *) return 1 ;;
    esac
}

# The crates named and those below them, sorted.
crates_of() {
    awk -F: -v named="$*" '
        /^[a-z]/ { split($1, words, " "); crates[words[1]] = $2 }
        function add(name, parts, i, n) {
            if (!(name in crates) || name in found) return
            found[name] = 1
            n = split(crates[name], parts, " ")
            for (i = 1; i <= n; i++) add(parts[i])
        }
        END {
            n = split(named, names, " ")
            for (i = 1; i <= n; i++) add(names[i])
            for (name in found) print name
        }' "$top/crates.txt" | LC_ALL=C sort
}

# The folders of the sources of these crates. Not every crate has each of them.
folders_of() {
    for crate in "$@"; do
        for part in src specs proofs; do
            [ -d "crates/$crate/$part" ] && echo "crates/$crate/$part"
        done
    done
}

# One SHA-256 over the names and the octets of the files that the input names, a line each.
sum_of_files() {
    LC_ALL=C sort | tr '\n' '\0' | xargs -0 sha256sum | sha256sum | cut -d ' ' -f 1
}

# One SHA-256 over crates.txt, the header for C, and the sources of these crates.
sum_of_sources() (
    CDPATH='' cd -- "$top" || exit 1
    # shellcheck disable=SC2046 # one word a folder
    { printf '%s\n' crates.txt bindings/c/cms_canon.h; find $(folders_of "$@") -type f; } | sum_of_files
)

# One SHA-256 over the C in these folders, which stands in place of the kit's.
sum_of_runtime() (
    CDPATH='' cd -- "$top" && find "$@" -maxdepth 1 -name '*.c' | sum_of_files
)
