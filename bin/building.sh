# What bin/hire-report and bin/depots share: when something is current, how it is built, and the lock that only one call holds meanwhile.
# Sourced, with `name` and `root` set; it defines functions and does nothing by itself.

tell() { printf '%s: %s\n' "$name" "$*" >&2; }
fail() { tell "$*"; exit 2; }
wrong_call() { fail "$*; $name --help says more"; }

print_version() {
    printf '%s %s\n' "$name" "$(sed -n 's/^version = "\(.*\)"$/\1/p' "$root/rust/Cargo.toml")" 2>/dev/null || fail "standard output cannot be written"
}

# A stream that is closed is noted and then opened to nothing: what a shell opens next would take its number.
is_in_open=yes
is_out_open=yes
note_streams() {
    { : 3>&2; } 2>/dev/null || exec 2>/dev/null
    { : 3<&0; } 2>/dev/null || { is_in_open=no; exec 0</dev/null; }
    { : 3>&1; } 2>/dev/null || { is_out_open=no; exec 1>/dev/null; }
}

# The crate and all that it is built on, of this repository.
crates_of() { # CRATE
    awk -v want="$1" '
        function visit(crate,    list, n, i) {
            if (!(crate in needs) || crate in seen) return
            seen[crate] = 1
            print crate
            n = split(needs[crate], list, " ")
            for (i = 1; i <= n; i++) visit(list[i])
        }
        { sub(/#.*/, ""); colon = index($0, ":") }
        colon { split($0, word, /[ \t:]/); needs[word[1]] = substr($0, colon + 1) }
        END { visit(want) }' "$root/crates.txt"
}

# What a crate is proved and built from, with all that it is built on.
sources_of() { # CRATE
    local crate part
    printf '%s\n' "$root/crates.txt"
    for crate in $(crates_of "$1"); do
        for part in src specs proofs; do
            [ ! -d "$root/crates/$crate/$part" ] || printf '%s\n' "$root/crates/$crate/$part"
        done
    done
}

# Whether no source is newer than what was built. Where a build found that nothing had to be made anew, its mark is the newer of the two.
is_current() { # BUILT SOURCE..
    local built=$1
    shift
    [ -f "$built" ] || return 1
    [ ! "$built.current" -nt "$built" ] || built=$built.current
    [ -z "$(find "$@" -newer "$built" -print -quit 2>&1)" ]
}

# One call builds at a time. What it starts holds the lock too, should this call be ended.
lock() {
    mkdir -p "$root/target" || fail "$root/target cannot be made"
    if ! command -v flock >/dev/null; then
        lock_by_folder
        return
    fi
    exec 9>"$root/target/building.lock" || fail "$root/target cannot be written"
    flock -n 9 && return
    tell "another call is building; this one waits for it"
    flock 9 || fail "the lock $root/target/building.lock cannot be had"
}

# Where there is no flock: making a folder succeeds for one call only.
lock_by_folder() {
    local folder=$root/target/building.lock.d said=no holder
    until mkdir "$folder" 2>/dev/null; do
        holder=$(cat "$folder/pid" 2>/dev/null)
        is_left_by "$holder" "$folder" && fail "$folder is left from a call that was ended: remove it"
        [ "$said" = yes ] || tell "another call is building; this one waits for it"
        said=yes
        sleep 1
    done
    trap 'rm -rf "$root/target/building.lock.d"' EXIT
    echo $$ >"$folder/pid"
}

# A call removes its folder before it ends. So one that still names a process that is gone was left behind; it is read again after that is known.
is_left_by() { # PID FOLDER
    [ -n "$1" ] && ! kill -0 "$1" 2>/dev/null && [ ! -d "/proc/$1" ] && [ "$(cat "$2/pid" 2>/dev/null)" = "$1" ]
}

unlock() {
    exec 9>&-
    [ ! -d "$root/target/building.lock.d" ] || { rm -rf "$root/target/building.lock.d"; trap - EXIT; }
}

# Builds under the lock what is not current, unless another call did so meanwhile.
ensure() { # MAKER BUILT SOURCE..
    local maker=$1 built=$2
    shift 2
    is_current "$built" "$@" && return
    lock
    if ! is_current "$built" "$@"; then
        "$maker"
        [ -f "$built" ] || fail "$built was not built"
        touch "$built.current"
    fi
    unlock
}

# Runs in the crate's folder what proves it, and says which crate is proved and how many of all then are: it and what it is built on.
# Everything that is said is kept, and shown where it fails.
proving() { # CRATE COMMAND..
    local crate=$1 said=$root/target/building.log
    shift
    command -v rt >/dev/null || fail "rt is not on the PATH: what has to be built needs the Rattle kit"
    (cd "$root/crates/$crate" && exec "$@") </dev/null 2>&1 | tee "$said" | awk -v name="$name" -v all="$(crates_of "$crate" | wc -l)" '
        function done_with(crate,    list, n, i) {
            if (!(crate in needs) || crate in seen) return
            seen[crate] = 1
            count++
            n = split(needs[crate], list, " ")
            for (i = 1; i <= n; i++) done_with(list[i])
        }
        NR == FNR { sub(/#.*/, ""); colon = index($0, ":"); split($0, word, /[ \t:]/) }
        NR == FNR && colon { needs[word[1]] = substr($0, colon + 1) }
        NR == FNR { next }
        $1 == "crate" { crate = $2; sub(/:$/, "", crate) }
        /^logic=proved/ && (crate in needs) { done_with(crate); printf "%s: %s proved, %d of %d\n", name, crate, count, all; fflush() }
    ' "$root/crates.txt" - >&2
    [ "${PIPESTATUS[0]}" -eq 0 ] || { cat "$said" >&2; return 1; }
}

# What was built is put where it is called; one that is the same keeps its time, and one that is not comes whole, or not at all.
put() { # BUILT TO
    cmp -s "$1" "$2" && return
    mkdir -p "${2%/*}" && cp "$1" "$2.new" && mv "$2.new" "$2"
}
