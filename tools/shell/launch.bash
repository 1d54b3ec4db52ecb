# Behind ./shiftline, ./benchline, ./why and ./blockline: what is given, whether it is text or bytes, and the run of the proved program
# over it.

set -u -o pipefail
root=$(dirname "$(dirname "$(dirname "$(readlink -f "${BASH_SOURCE[0]}")")")")
. "$root/tools/shell/proved.bash"

TEXT_OR_BYTES="FILE holds records, as text (tools/records --help tells the form) or as bytes, whatever its name is:
its first line shows which. Without FILE, or where it is -, they come by standard input."
BYTES_ALONE="FILE holds records as bytes; these have no text form. Without FILE, or where it is -, they come by standard input."
READING=$TEXT_OR_BYTES
COMMON="The first run, and the first one after a change of the sources, proves and builds the program.

  -h, --help    this text
  --version     one line: the program, a hash of its sources, the kit that it is proved with

Exit status: 0 it ran to its end, or until whoever reads its lines had enough;
1 an error in the text, a read or a write that failed, or the program is not proved;
2 wrong use, a file that cannot be read, text in UTF-16, or the kit or python3 is missing;
130 interrupted while it was built."

# The most bytes that are looked at before it is told what they are.
LOOK=64

# Looks at standard input until it shows what it is, and leaves that in `kind` (bytes, text, utf16) and what was read in `front`, as
# printf takes it. Every accepted record has a control byte behind its letter that no text has: below 9, or the 24 or 25 of a load by N.
# So two bytes tell a record that the supervisor accepts, and nobody waits for more; of a B with block 9 to 13, whose bytes are the blanks
# and line ends of a text, it is three: its length, 2048 at most, begins with a byte below 9. Else the first line is read, LOOK bytes at
# most.
look() {
    local LC_ALL=C byte code digits='' count=0 control='' comment=''
    front='' kind=''
    # Nobody types bytes; and to look at single ones would change the terminal.
    [ ! -t 0 ] || kind=text
    while [ -z "$kind" ] && [ "$count" -lt "$LOOK" ] && IFS= read -r -d '' -n 1 byte; do
        # An empty one is the byte 0, by which this `read` ends.
        if [ -n "$byte" ]; then printf -v code '%02x' "'$byte"; else code=00; fi
        code=${code: -2} count=$((count + 1))
        digits+=$code front+=\\x$code
        case $code in
        0[0-8ef] | 1? | 7f) control=yes ;;
        23) comment=yes ;;
        0a) [ "$count" -eq 1 ] || [ "$digits" = 420a ] || kind=text ;; # a B and block 10
        [89a-f]?) [ "$count" -eq 1 ] || [ -n "$comment" ] || [[ $digits != [45]* ]] || kind=bytes ;; # behind a capital
        esac
        case $digits in
        fffe | feff | 00[2-7]?00[2-7]? | 0[9ad]00??00 | [2367]?00??00) kind=utf16 ;;
        00 | 00[2-7]? | 00[2-7]?00 | 0[9ad]00 | 0[9ad]00?? | [2367]?00 | [2367]?00??) ;; # UTF-16 where it goes on so
        ff | fe | ef | efbb | efbbbf*) [ -z "$control" ] || kind=bytes ;;
        *) [ -z "$control" ] && [[ $digits != [89a-f]* ]] || kind=bytes ;;
        esac
    done
    # A single byte is a record cut short, or unknown: a line of text has two at least.
    [ -n "$kind" ] || { [ "$count" -gt 1 ] && kind=text || kind=bytes; }
}

# Standard input as it was before look: what was read, then the rest. A program that ends early closes the pipe, and that is no fault.
whole_input() {
    local told
    {
        # shellcheck disable=SC2059
        printf "$front" && { told=$(LC_ALL=C cat 2>&1 >&5); } 5>&1
    } 2>/dev/null
    case ${told:-} in '' | *'Broken pipe'*) ;; *) fail 2 "$name: ${told##*: }." ;; esac
}

# The records of a text. The converter has read all of it, and told its errors, before it writes the first byte.
converted_input() { whole_input | "$root/tools/records" --named="$name" -; }

from_terminal() { say "reading text from the terminal; Ctrl-D ends it."; }

# Makes a file standard input, where it is not that already; `name` is what messages call it.
open_input() { # FILE
    name=$1
    if [ "$1" = - ]; then
        name='<stdin>'
        need_input
        [ ! -d /dev/stdin ] || fail 2 "standard input is a directory, and no file of records."
        [ ! -t 0 ] || from_terminal
        return
    fi
    [ -e "$1" ] || fail 2 "there is no file '$1'."
    [ ! -d "$1" ] || fail 2 "'$1' is a directory, and no file."
    { [ -r "$1" ] && exec <"$1"; } || fail 2 "'$1' cannot be read."
}

# The lines that a board printed as the descriptor that the judge reads, without Windows line ends and the mark of UTF-8, and with the
# last line feed where it was lost.
open_lines() { # FILE
    open_input "$1"
    look
    [ "$kind" != utf16 ] || fail 2 "$name is text in UTF-16: save it as UTF-8, and give that."
    exec 3< <(whole_input | LC_ALL=C sed -e '1s/^\xEF\xBB\xBF//; s/\r$//' -e '$a\' 2>/dev/null)
}

wrong_use() { # SENTENCE
    printf '%s: %s\n%s\n' "$command" "$1" "${usage%%$'\n'*}" >&2
    exit 2
}

version() {
    find_program "$1"
    echo "$command of Rudavesh, sources ${sources:0:12}, proved with $(sed -n 's/^Proved with `\([^`]*\)`.*/\1/p' "$root/README.md")"
}

# Sets `files` to the files that are given; the options that need no file end here.
read_arguments() { # WORD MOST ARGUMENT ...
    local word=$1 most=$2 options=yes argument
    shift 2
    files=()
    for argument; do
        case $options:$argument in
        yes:-h | yes:--help) printf '%s\n\n%s\n%s\n' "$usage" "$READING" "$COMMON"; exit ;;
        yes:--version) version "$word"; exit ;;
        yes:--) options= ;;
        yes:-?*) wrong_use "unknown option $argument" ;;
        *) files+=("$argument") ;;
        esac
    done
    [ "${#files[@]}" -le "$most" ] || wrong_use "surplus argument ${files[most]}"
}

# Runs the judge, and makes a status of his word, as cmp does: 3 where he has something to object. A program of Rattle gives none.
judge_all() { # FEED
    local verdict silent=$' calls judged\nno line of these differs from what the supervisor answers\nnone of these breaks demand 3'
    verdict=$(run_program "$1") || return
    { printf '%s\n' "$verdict"; } 2>/dev/null || fail 1 "standard output cannot be written."
    [[ $verdict == *"$silent" ]] || return 3
}

# Runs the program WORD over the records of the first file and, where a second one is given, JUDGE over them and the lines of that.
launch() { # WORD JUDGE ARGUMENT ...
    local word=$1 judge=$2 run=run_program
    command=$word
    read_arguments "$word" "$([ -n "$judge" ] && echo 2 || echo 1)" "${@:3}"
    look_at_descriptors
    if [ "${#files[@]}" -gt 1 ]; then
        [ "${files[*]}" != '- -' ] || wrong_use "records and lines cannot both come by standard input"
        exec 4<&0
        open_lines "${files[1]}"
        [ "${files[0]}" != - ] || exec <&4
        exec 4<&-
        word=$judge run=judge_all
    fi
    open_input "${files[0]--}"
    look
    [ "$kind" != utf16 ] || fail 2 "$name is text in UTF-16: save it as UTF-8, and give that."
    [ "$kind" != text ] || command -v python3 >/dev/null || fail 2 "python3 is missing: it turns the text of $name into records."
    make_ready "$word"
    if [ "$kind" = text ]; then "$run" converted_input; else "$run" whole_input; fi
}

# Runs the program WORD over the bytes of a file. What they are is not looked at: whatever is no record, the program says so.
launch_bytes() { # WORD ARGUMENT ...
    command=$1
    # No text is read, and so nothing is said of errors in it.
    READING=$BYTES_ALONE COMMON=${COMMON/an error in the text, /}
    COMMON=${COMMON/, text in UTF-16, or the kit or python3 is missing/, or the kit is missing}
    from_terminal() { fail 2 "its records are bytes, which nobody types: give a FILE."; }
    read_arguments "$1" 1 "${@:2}"
    look_at_descriptors
    open_input "${files[0]--}"
    make_ready "$1"
    run_program
}
