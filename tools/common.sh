# shellcheck shell=bash
# What the tools share. They source this file; it is not run by itself. It goes to the top of the repository.
tool=${0##*/}
case $0 in *.ci/*) tool=.ci/$tool ;; *) tool=tools/$tool ;; esac
CDPATH='' cd "$(dirname "${BASH_SOURCE[0]}")/.." || exit 3

say() { printf '%s: %s\n' "$tool" "$*" >&2; }
# The words that the tool was started with are wrong.
refuse() { say "$*"; exit 2; }
# Something else than the words is missing or has failed.
give_up() { say "$*"; exit 3; }
needs() { command -v "$1" >/dev/null || give_up "$1 is not installed: $2"; }
needs_rt() { needs rt "it is the command of Rattle's toolchain"; }

# One build at a time. The lock is on the repository's folder itself, so that nothing that a tool removes takes a lock file with it.
# A tool that another one starts is part of that one's build.
take_turn() {
    [ -z "${CHEZUMOBARI_BUILDS:-}" ] || return 0
    needs flock "with it two builds wait for each other"
    exec 9<.
    flock -n 9 || { say "another tool is building here: waiting until it has ended"; flock 9; } ||
        say "no lock can be taken in this folder, so nothing keeps two builds apart"
    export CHEZUMOBARI_BUILDS=$$
}
end_turn() { exec 9<&-; unset CHEZUMOBARI_BUILDS; }

# How many crates have to be proved for one, with itself.
crates_under() { # CRATE
    awk -v wanted="$1" '
        function visit(name, i, n, list) {
            if (name in seen || !(name in needs)) return
            seen[name] = 1; count++
            n = split(needs[name], list, " ")
            for (i = 1; i <= n; i++) visit(list[i])
        }
        { sub(/#.*/, ""); at = index($0, ":") }
        at { name = substr($0, 1, at - 1); gsub(/[ \t]/, "", name); needs[name] = substr($0, at + 1) }
        END { visit(wanted); print count + 0 }' crates.txt
}

# Runs rt in a crate's folder, and says on standard error what it proves: a line for each crate. What has not changed is not
# proved again and not spoken of. If rt fails, all that it printed is shown.
prove() { # CRATE WORDS-FOR-RT..
    local crate=$1 line status=1 all said='' announced='' began=$SECONDS log=$PWD/target/${tool##*/}.log
    all=$(crates_under "$crate")
    shift
    mkdir -p target
    : >"$log"
    exec 8< <(cd "crates/$crate" && rt "$@" </dev/null 9<&- 2>&1 && echo 'ended 0' || echo "ended $?")
    while true; do
        if IFS= read -r -t 20 line <&8; then
            printf '%s\n' "$line" >>"$log"
            case $line in
            'ended '*) status=${line#ended }; break ;;
            'rt: chose '* | 'rt: '*': begins '* | 'checked '*) announce ;;
            'crate '*': '*) said=${line#crate } said=${said%%:*} ;;
            'logic=proved'*) announce; say "$said is proved" ;;
            esac
        elif [ $? -gt 128 ]; then
            if [ -z "$announced" ]; then announce; else say "still proving, $((SECONDS - began)) s so far"; fi
        else
            break
        fi
    done
    exec 8<&-
    [ "$status" = 0 ] && return 0
    cat "$log" >&2
    return 1
}

# Before the first line of progress: what is going on. Where nothing has changed, rt says nothing, and so does this.
announce() {
    [ -z "$announced" ] || return 0
    announced=yes
    local long=''
    [ "$all" -lt 6 ] || long=', which takes some minutes the first time'
    say "proving $crate and what it stands on, $all crates in all$long; those that have not changed are passed over"
}

kit() { dirname "$(rt doc)"; }

# The emulator of x86-64: the toolchain's for this processor, or else Debian's (its package qemu-user).
emulator() {
    local own
    own=$(kit)/on/$(uname -m)/toolchain/bin/qemu-x86_64
    if [ -x "$own" ]; then printf '%s\n' "$own"; else command -v qemu-x86_64 || give_up 'no emulator of x86-64 is installed: qemu-user has one'; fi
}

# Runs a program that the toolchain compiled. It is for x86-64: on another processor an emulator runs it.
run_compiled() { # PROGRAM ARGUMENTS..
    if [ "$(uname -m)" = x86_64 ]; then "$@"; return; fi
    local lib
    lib=$(kit)/toolchain/lib
    "$(emulator)" "$lib/ld-linux-x86-64.so.2" --library-path "$lib" "$@"
}
