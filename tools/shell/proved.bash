# The proved program behind a word of programs.txt: found, and where its sources changed proved and built first. For a bash with pipefail;
# needs `command` (what messages call it) and `root`.
#
# What runs is a copy, target/run/FOLDER.HASH, named by a hash of all that it is made from: the kit, crates.txt, and the sources of its
# crate and of every crate that it knows. So a copy that is there was proved from the sources as they stand, and no rt is asked; and a
# build, by this command or by rt itself, does not touch what others are running. The copy gets its name when all is proved, and at once.

say() { printf '%s: %s\n' "$command" "$*" >&2; }

fail() { # STATUS SENTENCE
    say "$2"
    exit "$1"
}

# Finds out which of the three descriptors is closed, before something else is opened in its place. Whether standard input is asked for
# shows later: `no_input` says that it is closed.
look_at_descriptors() {
    no_input=''
    { : 5>&2; } 2>/dev/null || exec 2>/dev/null
    { : 5>&1; } 2>/dev/null || fail 1 "standard output is closed."
    { : 5<&0; } 2>/dev/null || { exec </dev/null; no_input=yes; }
}

need_input() { [ -z "$no_input" ] || fail 2 "standard input is closed."; }

# The folder in crates/ that a word stands for, or the word itself where it is a folder.
folder_of() { # WORD
    local folder
    folder=$(awk -v word="$1:" '$1 == word { print $2 }' "$root/tools/programs.txt")
    printf '%s' "${folder:-$1}"
}

# A crate and all that it knows, one to a line; what is not in crates.txt is a library of the kit.
crates_below() { # FOLDER
    awk -v wanted="$1" '
        function visit(name,    list, count, i) {
            if (name in seen || !(name in knows)) return
            seen[name]
            print name
            count = split(knows[name], list, " ")
            for (i = 1; i <= count; i++) visit(list[i])
        }
        { sub(/#.*/, "") }
        split($0, part, ":") == 2 { gsub(/[ \t]/, "", part[1]); knows[part[1]] = part[2] }
        END { visit(wanted) }' "$root/crates.txt"
}

# One hash of crates.txt and of the sources of some crates, names and contents.
hash_of_sources() { # CRATE ...
    local crate part folders=()
    for crate; do
        for part in src specs proofs; do [ ! -d "$root/crates/$crate/$part" ] || folders+=("crates/$crate/$part"); done
    done
    (cd "$root" && { cat crates.txt; find -L "${folders[@]}" -type f -exec sha256sum {} + | LC_ALL=C sort; } | sha256sum) | cut -c 1-64
}

look_at_sources() { sources=$(hash_of_sources "${crates[@]}") || fail 2 "the sources of $folder cannot be read."; }

# Sets `folder`, `crates` and `sources` of a word's program.
find_program() { # WORD
    folder=$(folder_of "$1")
    [ -f "$root/crates/$folder/src/main.rt" ] || fail 2 "there is no program $1 in this tree: crates/$folder/src/main.rt is missing."
    mapfile -t crates < <(crates_below "$folder")
    [ ${#crates[@]} -gt 0 ] || fail 2 "crates.txt does not list $folder."
    look_at_sources
}

# Sets `kit`, its folder.
find_kit() {
    local rt
    rt=$(command -v rt) || fail 2 "the Rattle kit is missing: its command rt is not on the PATH."
    kit=${RATTLE_HOME:-$(dirname "$(dirname "$(readlink -f "$rt")")")}
}

# Sets `copy`, the program as the sources stand and for this kit and machine.
name_copy() {
    copy=$root/target/run/$folder.$({ cat "$kit/KIT-ID"; uname -m; echo "$sources"; } 2>/dev/null | sha256sum | cut -c 1-64)
}

# Seconds without a word from rt after which a word is due: a large crate takes longer.
PATIENCE=30

# Tells of each crate that rt proved, and keeps all that rt says in target/run/log. What rt says of a crate ends with `crate NAME: ..` and
# its verdict. Of one that is as it was when it was last proved it says nothing: that is done with the first crate above it.
show_progress() {
    local line part='' name='' crate began=$SECONDS last=$SECONDS
    local -A done=()
    while true; do
        IFS= read -r -t "$PATIENCE" line
        case $? in
        0) line=$part$line part='' ;;
        1) break ;;
        *)
            part+=$line
            say "still at it: ${#done[@]} of ${#crates[@]} crates after $((SECONDS - began)) s."
            continue
            ;;
        esac
        printf '%s\n' "$line" >>"$root/target/run/log"
        [[ $line =~ ^crate\ ([a-z_0-9]+):\  ]] && name=${BASH_REMATCH[1]}
        [[ -n $name && $line == logic=proved* ]] || continue
        for crate in $(crates_below "$name"); do done[$crate]=yes; done
        say "${#done[@]} of ${#crates[@]} crates proved: $name ($((SECONDS - last)) s)"
        name='' last=$SECONDS
    done
}

# What rt runs once it has proved and built a program: this line comes right before.
RUNNING='^rt: running out/'

# rt builds a program to run it: here it gets no input, and none of what this command has open. rt leaves crates behind that still work
# when it is interrupted, so it runs in a session of its own, and an interrupt ends all of that. What counts is that the program was
# proved and built, not what became of that run.
run_by_rt() {
    local builder
    : >"$root/target/run/log"
    exec 6< <(cd "$root/crates/$folder" && exec setsid rt run </dev/null 2>&1 3<&- 9>&-)
    builder=$!
    trap 'kill -TERM -- "-$builder" 2>/dev/null; wait "$builder" 2>/dev/null; fail 130 "interrupted; what is proved so far is kept."' \
        INT TERM HUP
    show_progress <&6
    wait "$builder"
    exec 6<&-
    trap - INT TERM HUP
    grep -q "$RUNNING" "$root/target/run/log"
}

# What rt says of what is well, and of how it went about its work.
WELL='^(checked|library|statements|crate|axioms|linked|logic|only)[ =]|^(fn|struct|enum|impl|trait) .*: proved$|^rt: (chose|[a-z_0-9]+: begins with) '

# Proves and builds, alone in this tree. The sources may change meanwhile: the copy is named by those that were there before and after.
build() {
    local before=''
    say "proving and building it from its ${#crates[@]} crates, once for these sources; on two cores that takes some minutes."
    while [ "$before" != "$sources" ]; do
        before=$sources
        if ! run_by_rt; then
            grep -vE "$WELL" "$root/target/run/log" >&2
            fail 1 "$folder is not proved, so it is not run; target/run/log has all that rt said."
        fi
        look_at_sources
    done
    name_copy
    cp "$root/crates/$folder/out/$folder" "$root/target/run/new.$folder" && chmod 755 "$root/target/run/new.$folder" &&
        rm -f "$root/target/run/$folder".* && mv "$root/target/run/new.$folder" "$copy" || fail 1 "target/run cannot be written."
    say "proved and built."
}

# Leaves in `program` the file that is the proved program of a word.
make_ready() { # WORD
    find_kit
    find_program "$1"
    name_copy
    if [ ! -x "$copy" ]; then
        command -v flock >/dev/null && command -v setsid >/dev/null || fail 2 "flock or setsid is missing (util-linux): a build needs them."
        mkdir -p "$root/target/run" && : >>"$root/target/run/lock" || fail 2 "target/run cannot be written, and the program is to be built."
        exec 9>>"$root/target/run/lock"
        flock -n 9 || { say "waiting for the build of $(head -n 1 "$root/target/run/builds" 2>/dev/null) by another command."; flock 9; }
        echo "$folder" >"$root/target/run/builds"
        # Whoever held the lock may have built it.
        look_at_sources
        name_copy
        [ -x "$copy" ] || build
        exec 9>&-
    fi
    program=$copy
}

# Runs `program` on standard input, or on what the function FEED writes. A program of Rattle has no exit status of its own: what it has to
# complain about it writes to standard error. So what comes there is passed on and makes the status 1. A reader that closes is no fault.
run_program() { # [FEED]
    local said status
    # A write beyond the limit of a file's size is then told to the program, and does not kill it.
    trap '' XFSZ
    exec 7>&1 8>&2
    said=$(
        {
            if [ $# -gt 0 ]; then
                "$1" 2>&8 7>&- 8>&- | "$program" 2>&1 >&7 7>&- 8>&-
                statuses=("${PIPESTATUS[@]}")
            else
                "$program" 2>&1 >&7 7>&- 8>&-
                statuses=(0 $?)
            fi
        } 2>/dev/null
        ended=${statuses[-1]} fed=${statuses[0]}
        # 141: ended by a closed pipe.
        [ "$ended" = 0 ] || [ "$ended" = 141 ] || { echo "$command: the program ended with status $ended."; exit 1; }
        [ "$fed" = 141 ] || exit "$fed"
    )
    status=$?
    [ -z "$said" ] || { printf '%s\n' "$said" >&2; [ "$status" -ne 0 ] || status=1; }
    return "$status"
}
