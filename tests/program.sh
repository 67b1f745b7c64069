# shellcheck shell=sh disable=SC2034,SC2154
# Sets `program` to the program that a script of this folder runs. Each script sources this file, with `top` set to the top of the
# repository. With the arguments `--program PATH`, which are dropped, it is PATH; without, the proved one, which ./aggen --build
# builds. It is never the one in dist/. A script with many checks goes on after one that fails: it calls note_wrong and, at its end,
# stop_if_wrong, with `work` set to its temporary folder.
if [ "${1-}" = --program ]; then
    case ${2-} in
        '')
            echo "$0: --program takes a path" >&2
            exit 2
            ;;
        /*) program=$2 ;;
        *) program=$PWD/$2 ;;
    esac
    shift 2
else
    "$top/aggen" --build >/dev/null
    program=$top/out/program/aggen
fi

# note_wrong: notes that a check has failed, after its message was printed. The script goes on with the next check
note_wrong() {
    echo >>"$work/.wrong"
}

# stop_if_wrong: ends the script with 1 if a check has failed, and prints how many have
stop_if_wrong() {
    if [ -e "$work/.wrong" ]; then
        echo "${0##*/}: $(wc -l <"$work/.wrong") checks have failed" >&2
        exit 1
    fi
}
