# What bin/build and bin/run.sh know of builds; both read it. NAME is a program of this repository, and HERE the folder bin/.
#
# A build is a program with two files beside it: PROGRAM.stamp tells the kit, the commit, the checksum of the sources, and whether
# it was proved; PROGRAM.sources lists the sources, for a short look at whether one has changed. These are src/ and specs/ of all
# crates below the program, and the lines of these crates in crates.txt. (A proof that changes later takes nothing from what was proved.)

ROOT="$HERE/.."
PROVED="$ROOT/out/proved/$NAME"
UNPROVED="$ROOT/out/unproved/${NAME}_unproved"
KIT="/opt/rattle"

say() {
    echo "$NAME: $*" >&2
}

# The lines of crates.txt of the program and of all crates below it.
lines_below() {
    awk -v top="${NAME}_cli" '
        { sub(/#.*/, "") }
        /:/ { split($0, head, /[ :]/); line[head[1]] = $0 }
        END {
            todo[count = 1] = top
            while (count > 0) {
                it = todo[count--]
                if (!(it in line) || it in seen) continue
                seen[it] = 1
                print line[it]
                n = split(substr(line[it], index(line[it], ":") + 1), below, " ")
                for (i = 1; i <= n; i++) todo[++count] = below[i]
            }
        }' "$ROOT/crates.txt" | LC_ALL=C sort
}

crates_below() {
    lines_below | sed 's/[ :].*//'
}

# The folders of their sources, from the top.
folders_below() {
    local name part
    crates_below | while read -r name; do
        for part in src specs; do
            [ ! -d "$ROOT/crates/$name/$part" ] || echo "crates/$name/$part"
        done
    done
}

# The checksum of the sources.
sum_below() {
    (
        cd "$ROOT"
        mapfile -t folders < <(folders_below)
        {
            lines_below
            cat HANDLES
            find "${folders[@]}" -type f -print0 | LC_ALL=C sort -z | xargs -0 sha256sum
        } | sha256sum | cut -c1-64
    )
}

# The files and folders that a look has to go over, from the top, each ended by a zero.
sources_below() {
    (
        cd "$ROOT"
        mapfile -t folders < <(folders_below)
        printf '%s\0' crates.txt HANDLES
        crates_below | sed 's/^/crates\//' | tr '\n' '\0'
        find "${folders[@]}" -print0
    )
}

# The commit, and whether the sources differ from it.
commit_below() {
    local commit
    commit="$(git -C "$ROOT" rev-parse --short=8 HEAD 2>/dev/null)" || commit="no commit"
    mapfile -t folders < <(folders_below)
    [ -z "$(git -C "$ROOT" status --porcelain -- crates.txt HANDLES "${folders[@]}" 2>/dev/null)" ] || commit="$commit with changes"
    echo "$commit"
}

# Reads what the stamp of a build says, into variables of these names.
read_stamp() {
    local key said
    kit="" commit="" sources="" build=""
    while IFS=: read -r key said; do
        case "$key" in
            kit) kit="${said# }" ;;
            commit) commit="${said# }" ;;
            sources) sources="${said# }" ;;
            build) build="${said# }" ;;
        esac
    done <"$1.stamp"
}

# Whether a build is there that was made from the sources as they are: none was touched since, or else their checksum is as it was, which
# makes the next look a short one again. (A short look takes some five milliseconds, and a checksum a hundred.)
is_current() {
    local time touched
    [ -x "$1" ] && [ -f "$1.stamp" ] && [ -f "$1.sources" ] || return 1
    if touched="$(cd "$ROOT" && exec find -files0-from "${1#"$ROOT/"}.sources" -maxdepth 0 -cnewer "${1#"$ROOT/"}.stamp" -print -quit 2>&1)" && [ -z "$touched" ]; then
        return 0
    fi
    time="$(mktemp)"
    read_stamp "$1"
    if [ "$(sum_below)" = "$sources" ]; then
        sources_below >"$1.sources"
        touch -r "$time" "$1.stamp"
        rm "$time"
        return 0
    fi
    rm "$time"
    return 1
}
