#!/usr/bin/env bash
# ./fx COMMAND [ARGUMENTS]: the commands of the margin ledger; `./fx help` lists them. A command is a program under crates/, which is proved and
# built first where that is still to be done. Standard output holds what the program printed and nothing else; all else is said on standard error.
set -u
unset CDPATH # with it, cd may go elsewhere

# The commands: a word in the list and an entry in the case for each.
commands=sheet
describe() { # COMMAND: its program, how it is called, what it does in a line and in full
    case $1 in
    sheet)
        program=sheet usage='sheet [FILE]' brief='prints the sheet of a day'
        full='Prints the sheet of a day: an answer to each call, then each account, then the house. FILE is the day file; without it, or with - in
its place, the day is read from standard input. Standard error says which calls were refused and why. Of a bad text the sheet is BAD
and the line, and standard error says what is wrong with it. docs/EVENING.md explains day file and sheet line by line.

Example:  ./fx sheet examples/first-day.txt'
        ;;
    *) fail 2 "there is no command '$1'. The commands are: ${commands// /, }, help." ;;
    esac
}
statuses='Exit status: 0 a sheet; 1 a bad text; 2 nothing to read, nowhere to write, or wrong use; 3 the program could not be built.'
overview() {
    printf 'fx: the commands of the margin ledger\n\n'
    for name in $commands; do describe "$name" && printf '  ./fx %-18s%s\n' "$usage" "$brief"; done
    printf '  ./fx %-18s%s\n' 'help [COMMAND]' 'says what a command does, with an example'
    printf '\n%s\n' 'Example:  ./fx sheet examples/first-day.txt' "$statuses" \
        'The first time, a command proves and builds its program: this takes some minutes. After that it answers at once.'
}

say() { printf 'fx: %s\n' "$*" >&2; }
fail() { say "${@:2}"; exit "$1"; } # STATUS WORDS
put() { # TEXT, on standard output. A reader that has gone away, as in `| head -1`, ends the write by a signal (141) and wants no words
    local why
    { why=$({ printf '%s' "$1" >&3; } 2>&1); } 3>&1 && return
    [ "$?" -ne 141 ] || exit 2
    fail 2 "standard output takes no more (${why##*: }): not all of the answer is written."
}
look_at() { # FILE as the user wrote it
    if [ "$1" = - ]; then
        { true 3<&0; } 2>/dev/null || fail 2 'there is nothing to read: standard input is closed, and no file is named.'
        [ ! -d /dev/stdin ] || fail 2 'there is nothing to read: standard input is a folder.'
    elif [ ! -e "$1" ]; then fail 2 "there is no file '$1'."
    elif [ -d "$1" ]; then fail 2 "'$1' is a folder, not a file."
    elif [ ! -r "$1" ]; then fail 2 "the file '$1' is there, but you may not read it."
    fi
}

is_plain() { # NAME: of ASCII alone
    local LC_ALL=C
    case $1 in *[!\ -~]*) return 1 ;; esac
}

# Missing, or older than a source or a folder of sources. What rt makes, in out/, is no source, nor is an edit that the gate tries.
is_stale() {
    [ ! -x "$built" ] || [ -n "$(
        cd "$root" && find crates.txt -newer "$built" &&
            find crates -mindepth 2 \( -path 'crates/*/out' -o -path 'crates/*/must-fail' \) -prune -o -newer "$built" -print
    )" ]
}
take_lock() { # on the root folder itself: it leaves no file behind, and ends with the processes that hold it
    exec {lock}<"$root" || return
    flock -n "$lock" 2>/dev/null
    [ "$?" -eq 1 ] || return # 1: another has it; else it is ours, or there is no flock here
    say 'another ./fx is proving the program; this one waits until it has ended.'
    flock "$lock"
}
need_room() { # FOLDER WORDS that make it. It must take a page of bytes: on a full disk an empty file can still be made
    local why status=0
    why=$({ "${@:2}" "$1" && printf '%8192s' '' >"$1/fx-room"; } 2>&1) || status=3
    rm -f "$1/fx-room" 2>/dev/null
    [ "$status" -eq 0 ] || fail "$status" "the program cannot be built: nothing can be written in $1 (${why##*: })."
}
count_crates() { # that the program needs, itself among them; crates.txt has the lowest first
    awk -F: -v need=" $program " '{ sub(/#.*/, "") } NF > 1 { name[++n] = $1; needs[n] = $2 }
        END { for (; n; n--) if (index(need, " " name[n] " ")) { count++; need = need needs[n] " " }; print count + 0 }' "$root/crates.txt"
}
show_progress() { # COUNT of crates, END of the line
    printf '%sfx: %s of %s crates proved, %s s%s' "$back" "$1" "$total" "$SECONDS" "$2" >&2
}
count_proved() { # a library that was proved earlier, and has not changed since, is not said to be proved
    grep -c '^logic=proved ' "$said"
}
stop() { # STATUS: ends the proof with all that it started; what rt starts does not heed Ctrl-C
    trap '' HUP INT QUIT PIPE TERM
    kill -TERM -- "-$job" 2>/dev/null
    wait "$job" 2>/dev/null
    [ -z "$back" ] || echo >&2
    fail "$1" 'stopped. The crates that are proved by now need not be proved again.'
}
could_not_build() { # says why: no room, or what rt said, but for its lines that tell least
    need_room "$out" true
    need_room "$room" true
    grep -v -e ': proved' -e '^statements ' -e '^library ' -e '^crate ' -e '^axioms ' -e '^logic ' "$said" | tail -n 12 >&2
    fail 3 "the program could not be proved and built. The lines above are the end of what rt said; all of it is in $said"
}
prove() {
    local back='' failed='' job='' out=${built%/*} said=${built%/*}/fx.log total
    total=$(count_crates)
    [ ! -t 2 ] || back=$'\r'
    # The toolchain's temporary files have a folder of their own, so that none stays after an interrupt.
    room=${TMPDIR:-/tmp}/fx.$$.$RANDOM
    trap 'rm -rf "$room"' EXIT
    need_room "$out" mkdir -p
    need_room "$room" mkdir -m 700
    : >"$room/began"
    : >"$said"
    say 'the program is proved and built first. The first time this takes some minutes.'
    SECONDS=0
    trap 'stop 129' HUP; trap 'stop 130' INT; trap 'stop 131' QUIT; trap 'stop 141' PIPE; trap 'stop 143' TERM
    set -m # a process group of its own, to be ended as one
    (cd "$root/crates/$program" && TMPDIR=$room exec rt run) <"$root/crates/$program/stdin" >"$room/page" 2>"$said" &
    job=$!
    set +m
    while [ -n "$back" ] && kill -0 "$job" 2>/dev/null; do show_progress "$(count_proved)" ''; sleep 1; done
    wait "$job" || failed=yes
    # it has run as its crate says, or it is not kept
    if [ -z "$failed" ] && ! cmp -s "$room/page" "$root/crates/$program/stdout"; then
        echo "the program was built, but of crates/$program/stdin it printed something else than crates/$program/stdout" >>"$said"
        failed=yes
        rm -f "$built"
    fi
    if [ -n "$failed" ]; then
        show_progress "$(count_proved)" $'\n'
        could_not_build
    fi
    show_progress "$total" $'\n'
    touch -c -r "$room/began" "$built" # so that a source that was edited meanwhile is newer
    rm -rf "$room"
    trap - EXIT HUP INT QUIT PIPE TERM
}

true 3>&2 || exec 2>/dev/null # a closed one would be the next file that is opened
{ true 3>&1; } 2>/dev/null || fail 2 'standard output is closed: there is nowhere to write.'
self=${BASH_SOURCE[0]} lock='' files=()
case $self in */*) ;; *) self=./$self ;; esac
while [ -L "$self" ]; do
    link=$(readlink "$self") || exit 3
    case $link in /*) self=$link ;; *) self=${self%/*}/$link ;; esac
done
root=$(cd -P -- "${self%/*}/" && pwd -P) || exit 3

case ${1:-} in
'') overview >&2; exit 2 ;;
help | -h | --help) [ "$#" -gt 1 ] || { put "$(overview)"$'\n'; exit; }; set -- "$2" --help ;;
esac
describe "$1"
help="./fx help $1"
while shift && [ "$#" -gt 0 ]; do
    case $1 in
    --) files+=("${@:2}"); break ;;
    -h | --help) put "./fx $usage"$'\n\n'"$full"$'\n\n'"$statuses"$'\n'; exit ;;
    -?*) fail 2 "there is no option '$1'; $help says how it is called." ;;
    *) files+=("$1") ;;
    esac
done
[ "${#files[@]}" -le 1 ] || fail 2 "one FILE at most can be named; $help says how it is called."
file=${files[0]--}
look_at "$file"

built=$root/crates/$program/out/$program
if is_stale; then
    command -v rt >/dev/null || fail 3 'the program cannot be built: the Rattle toolchain (its command is rt, and the file KIT names it) is not here.'
    take_lock
    ! is_stale || prove
    [ -z "$lock" ] || exec {lock}<&-
fi

# The program opens a file by a name of UTF-8 alone. One whose name is not plain is opened here, and handed over as its standard input.
if [ "$file" = - ]; then
    file=''
    [ ! -t 0 ] || say 'the day is read from standard input. Type or paste it, then press Ctrl-D at the start of a line.'
elif ! is_plain "$file"; then
    exec <"$file" || exit 2
    file=''
fi
page=$("$built" ${file:+"$file"}; status=$?; echo .; exit "$status") || fail 3 "the program stopped before its end (status $?)."
page=${page%.}
put "$page"
# The program itself always ends with status 0: what it printed says which of the three it is.
case $page in '') exit 2 ;; 'BAD '*) exit 1 ;; esac
