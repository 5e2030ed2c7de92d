# Sourced at the root of the repository: builds the proved library where it is missing or older than a source, and says on standard error how
# far that is. Where BANNELGO_LIB is set, host/bannelgo/build.rs links the library of that folder and none is built.

# How many crates the library is made of. In crates.txt a crate stands below those that it uses.
library_crates() {
    sed 's/#.*//; s/ staticlib:/:/' crates.txt | tac | awk -F: '
        BEGIN { wanted["bannelgo"] = 1 }
        $1 in wanted { count++; n = split($2, used, " "); for (i = 1; i <= n; i++) wanted[used[i]] = 1 }
        END { print count }'
}

# Reads what rt says and keeps of it a line for each crate that is proved now: "proved 7 of at most 27: checker". rt passes over those that
# were proved before.
proved_of() {
    local total=$1 count=0 line
    while IFS= read -r line; do
        if [[ $line =~ ^crate\ ([a-z_]+):\ modules ]]; then
            count=$((count + 1))
            echo "proved $count of at most $total: ${BASH_REMATCH[1]}"
        fi
    done
}

# Proves the crates below the library, then the library itself, which becomes the archive.
prove_library() {
    local log=$1
    (set -o pipefail && bin/archive 2>&1 | tee "$log" | proved_of "$(library_crates)")
}

archive=target/staticlib/libbannelgo.a

# Whether there is no archive, or a source of a crate is newer.
is_missing_or_old() {
    [[ ! -f $archive || -n $(find crates.txt crates -type f -newer "$archive" -not -path '*/must-fail/*' -not -path '*/out/*' -print -quit) ]]
}

if [[ -z "${BANNELGO_LIB:-}" ]] && is_missing_or_old; then
    if ! command -v rt >/dev/null; then
        echo "rt is not on the PATH: the Rattle kit proves and builds the library" >&2
        exit 1
    fi
    mkdir -p target
    echo "proving and building $archive; the log is target/staticlib.log" >&2
    if ! prove_library target/staticlib.log >&2; then
        echo "the library was not built; target/staticlib.log ends with:" >&2
        tail -n 12 target/staticlib.log | cut -c 1-300 >&2
        exit 1
    fi
fi
