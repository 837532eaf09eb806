# shellcheck shell=sh
# For shell scripts, which source it: help, words that they do not take, and programs that are missing. The comment at the head of a
# script is its help; a line of it begins with "usage: " and the script's name. tools/command.py is the same for Python.

# Read at once: a script may change its directory, and be named from another.
script_head=$(sed -n '1d;/^#/!q;s/^# \{0,1\}//;p' "$0")

head_text() {
    printf '%s\n' "$script_head"
}

wrong_words() {
    head_text | sed -n '/^usage: /p' >&2
    exit 2
}

# stop WHY: ends the script with a line that has its name before it
stop() {
    echo "$(head_text | sed -n 's/^usage: \([^ ]*\).*/\1/p'): $1" >&2
    exit 2
}

# takes MOST [WORD..]: prints the help where a word asks for it; more words than so many, and options, are wrong
takes() {
    most=$1
    shift
    for word; do
        case $word in
        -h | --help)
            head_text
            exit
            ;;
        esac
    done
    [ $# -le "$most" ] || wrong_words
    for word; do
        case $word in -*) wrong_words ;; esac
    done
}

# numbers [WORD..]: words that are no whole numbers are wrong
numbers() {
    for word; do
        case $word in '' | *[!0-9]*) wrong_words ;; esac
    done
}

# installed PROGRAM..: each must be on PATH
installed() {
    for wanted; do
        command -v "$wanted" >/dev/null 2>&1 || case $wanted in
        rt) stop "there is no rt on PATH: install the Rattle kit first" ;;
        rustc | cargo) stop "there is no $wanted on PATH: install Rust first" ;;
        *) stop "there is no $wanted on PATH: install it first" ;;
        esac
    done
}
