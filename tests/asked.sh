# Sourced first by every script. Called with -h or --help, a script prints its head and does nothing else. `wrong TEXT` ends it as
# called wrongly, with status 126; `alone WORD..` does so at any word, `known OPTION.. -- WORD..` where the first word is none of the
# options. `stop TEXT` says what is in the way, and ends with status 127.
case ${1-} in
-h | --help)
    sed -n '2,${/^#/!q; s/^# \{0,1\}//; p;}' "$0"
    exit 0
    ;;
esac
wrong() {
    echo "${0##*/}: $1; --help says how to call it" >&2
    exit 126
}
alone() {
    if [ $# -gt 0 ]; then wrong "'$1' is unknown"; fi
}
known() {
    local options=' '
    while [ "$1" != -- ]; do options+="$1 " && shift; done
    shift
    if [ $# -gt 0 ] && [[ $options != *" $1 "* ]]; then wrong "'$1' is unknown"; fi
}
stop() {
    echo "${0##*/}: $1" >&2
    exit 127
}
