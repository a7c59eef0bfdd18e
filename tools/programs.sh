# Where the two programs come from. `gafkelam` and tools/install read this file with `top` set to the repository.
#
# find_program NAME sets `program` to the file of the first of these that can be had, or ends with 8 and one line
# on what is missing:
#   1. the program in crates/NAME/out that was proved and built, where no source is newer;
#   2. that of release/, which the gate proved and built, where release/OF names these very sources;
#   3. one that the Rattle kit compiles before any proof, of which is said at each run that it is not proved.

say() {
    echo "gafkelam: $*" >&2
}

# Whether a program is there, and newer than all that its code is made from. Definitions and proofs are not looked
# at: they change none of its bytes, and are many.
is_current() {
    [ -x "$1" ] && [ -z "$(find "$top"/crates/*/src/* "$top/crates.txt" "$top/HANDLES" -newer "$1" -print -quit)" ]
}

# The folder where a program is kept: that of its crate, or one of the caller's where the repository can't be
# written in.
set_folder() {
    folder=$top/crates/$1/out
    [ -w "$folder" ] && return
    mkdir -p "$folder" 2>/dev/null && [ -w "$folder" ] && return
    [ -x "$folder/$1" ] && is_current "$folder/$1" && return
    folder=${XDG_CACHE_HOME:-${HOME-}/.cache}/gafkelam/$(echo "$top" | sha256sum | cut -c 1-16)
    mkdir -p "$folder" 2>/dev/null && [ -w "$folder" ] && return
    say "neither $top/crates/$1/out nor $folder can be written"
    exit 8
}

# Lets one run at a time make a program, and the others wait for it.
lock() {
    exec 9>"$folder/lock"
    if command -v flock >/dev/null; then flock 9; fi
}

unlock() {
    exec 9>&-
}

# Unpacks the program of the release, or sets `why` to what is against it.
unpack() {
    why="there is no release here"
    [ -f "$top/release/OF" ] || return 1
    why="the release is for Linux on x86-64"
    [ "$(uname -sm)" = "Linux x86_64" ] || return 1
    why="release/OF is not what was written"
    [ "$(sed '$d' "$top/release/OF" | sha256sum)" = "$(sed -n '$s/^above //p' "$top/release/OF")  -" ] || return 1
    why="the release is of other sources than these"
    grep -qx "sources $("$top/tools/sources_sum")" "$top/release/OF" || return 1
    why="xz is due on the path to unpack the release"
    command -v xz >/dev/null || return 1
    why="release/$1.xz is not the program that release/OF names"
    wanted=$(sed -n "s/^program $1 //p" "$top/release/OF")
    made=$folder/$1.part
    if xz -dc "$top/release/$1.xz" >"$made" 2>/dev/null && [ "$(sha256sum <"$made")" = "$wanted  -" ] &&
        chmod 755 "$made" && mv "$made" "$folder/$1"; then
        say "this is the program that the gate proved and built from these very sources; nothing was proved here" \
            "(gafkelam --prove does that)"
        return
    fi
    rm -f "$made"
    return 1
}

compile() {
    say "$why; the kit compiles the program before any proof, in some three and a half minutes"
    touch "$folder/begun"
    "$top/tools/compile_unproved" "$1" "$folder/$1.part" && keep "$folder/begun" "$folder/$1.part" "$folder/$1.unproved"
}

# Keeps what was made, with the time at which making it began: what is changed meanwhile is newer.
keep() {
    touch -r "$1" "$2" && mv "$2" "$3"
}

# Sets `program` to one that was proved and built, here or for the release; fails, with `why`, where none is.
find_proved() {
    set_folder "$1"
    program=$folder/$1
    is_current "$program" && return
    lock
    is_current "$program" || unpack "$1" || { unlock; return 1; }
    unlock
}

find_program() {
    find_proved "$1" && return
    program=$folder/$1.unproved
    lock
    if ! is_current "$program"; then
        if ! command -v rt >/dev/null; then
            say "no program to run: $why; to compile one, rt of the Rattle kit is due on the path"
            exit 8
        fi
        compile "$1" || exit 8
    fi
    unlock
    say "this program is not proved: it was compiled from these sources before any proof (gafkelam --prove proves it)"
}

# The crates that the two programs are made of, by crates.txt.
crates_needed() {
    awk -F '[: ]+' '
        /^[a-z]/ { deps[$1] = $0; order[++count] = $1 }
        function take(name,    parts, last, at) {
            if (!(name in deps) || name in taken) return
            taken[name] = 1
            last = split(deps[name], parts, /[: ]+/)
            for (at = 2; at <= last; at++) take(parts[at])
        }
        END {
            take("router"); take("route_picture")
            for (at = 1; at <= count; at++) if (order[at] in taken) print order[at]
        }' "$top/crates.txt"
}

# Proves and builds both programs as the gate does, in a copy of the crates that they are made of, without the
# edits that must be refused; leaves them in their crates' out, and compares them with the release.
prove() {
    command -v rt >/dev/null || { say "to prove it, rt of the Rattle kit is due on the path"; exit 8; }
    room=$(mktemp -d) || exit 8
    trap 'rm -rf "$room"' EXIT
    trap 'exit 130' HUP INT TERM
    mkdir "$room/.git" "$room/crates"
    cp "$top/HANDLES" "$room"
    crates_needed >"$room/names"
    # (its time is that at which the copy began)
    grep -E "^($(paste -s -d '|' "$room/names")):" "$top/crates.txt" >"$room/crates.txt"
    tar -C "$top/crates" --exclude='*/out' --exclude='*/must-fail' -cf - -T "$room/names" |
        tar -C "$room/crates" -xf - || exit 8
    rm "$room/names"
    set_folder router
    log=$folder/prove.log
    say "proving $(wc -l <"$room/crates.txt" | tr -d ' ') crates, as told in $log"
    (cd "$room" && rt ci) >"$log" 2>&1 || { say "not all was proved: see $log"; exit 8; }
    for name in router route_picture; do
        set_folder "$name"
        lock
        cp "$room/crates/$name/out/$name" "$folder/$name.part" || exit 8
        keep "$room/crates.txt" "$folder/$name.part" "$folder/$name" || exit 8
        unlock
        echo "$folder/$name is proved and built"
    done
    "$top/tools/release" --compare
}
