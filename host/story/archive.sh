#!/usr/bin/env bash
# Makes the proved archive, target/staticlib/libcapi.a, where it is missing or older than a source. Tells on standard error what that takes, and each
# crate as it is proved; what the checker says goes to target/log.
set -euo pipefail
cd "$(dirname "${BASH_SOURCE[0]}")/../.."
archive=target/staticlib/libcapi.a
log=target/log/archive

# Whether a file is missing, or one of the sources is newer. What the checker keeps in a crate's out/ is no source.
newer() { # FILE SOURCE..
    [[ ! -f $1 || -n $(find "${@:2}" -name out -prune -o -type f -newer "$1" -print -quit) ]]
}
newer "$archive" crates crates.txt || exit 0
command -v rt >/dev/null || { echo "rt is not installed: the Rattle kit has it, and it proves the core" >&2; exit 1; }

# The crates, and those that each is proved over.
declare -A over=() stale=() met=()
while IFS=: read -r name below; do
    name=${name%% *}
    [[ $name == \#* || -z $name ]] || over[$name]=$below
done <crates.txt

# Needed is what the archive is proved over, in the order in which it is proved; and to be proved what has changed, or stands over it.
names=()
visit() { # NAME
    local below
    met[$1]=1
    for below in ${over[$1]}; do
        if [[ -v over[$below] && -z ${met[$below]:-} ]]; then visit "$below"; fi
    done
    names+=("$1")
}
visit capi
for name in "${names[@]}"; do
    if newer "crates/$name/out/rlib/stamp" "crates/$name"; then stale[$name]=1; fi
    for below in ${over[$name]}; do
        if [[ -n ${stale[$below]:-} ]]; then stale[$name]=1; fi
    done
done
# The archive is older than some file, so it is made.
stale[capi]=1
count=${#stale[@]}

# Some half a minute for each on four processors.
minutes=$(((count * 30 + 59) / 60))
case $minutes in
    1) time='about a minute' ;;
    *) time="some $minutes minutes" ;;
esac
echo "Proving $count of ${#over[@]} crates, once; $time. The checker's words go to target/log." >&2

# One line that is drawn anew, each second, on a terminal; else a line for each crate.
proved=0 last='' failed='' now=''
draw() { if [[ -t 2 ]]; then printf '\r\033[K%s' "$proved/$count${last:+ $last}, $SECONDS s" >&2; fi; }
heard() { # LINE
    local name
    echo "$1" >>"$log"
    case $1 in
        'rt: chose --jobs '*' for '*)
            # Of a crate whose files are new and say what they said, nothing is told: it is passed over.
            now=${1##* }
            for name in "${names[@]}"; do
                if [[ $name == "$now" ]]; then break; fi
                if [[ -n ${stale[$name]:-} ]]; then count=$((count - 1)); fi
                stale[$name]=''
            done
            return
            ;;
        'logic=proved'*) stale[$now]='' last=$now ;;
        'rt: the library '*' did not build'* | 'logic=not-proved'*) failed=$now; return ;;
        *) return ;;
    esac
    proved=$((proved + 1))
    if [[ -t 2 ]]; then draw; else echo "$proved/$count $last" >&2; fi
}
mkdir -p "${log%/*}"
: >"$log"
SECONDS=0 part=''
while true; do
    if IFS= read -r -t 1 line; then
        heard "$part$line"
        part=''
    elif (($? > 128)); then
        part+=$line
        draw
    else
        break
    fi
done < <(host/archive.sh 2>&1 || echo "rt: status $?")
if [[ -t 2 ]]; then echo >&2; fi

if [[ $(tail -n 1 "$log") == 'rt: status '* || ! -f $archive ]]; then
    echo "The core is not proved${failed:+; refused: $failed}. What the checker said is in $log." >&2
    exit 1
fi
