# shellcheck shell=bash
# For a script that makes a file from sources: '. tools/stamp.sh || exit 2' from the repository's folder. The stamp FILE.of says by
# contents from what FILE was made, and what it was then: times of files decide nothing.
fail() { # WHY
    echo "octalmure: $1" >&2
    exit 2
}

# Whether FILE is what was made from these sources.
fresh() { # FILE SOURCES...
    local file=$1 now is
    shift
    [ -f "$file" ] && [ -f "$file.of" ] && now=$(tools/fingerprint "$@") && is=$(tools/fingerprint "$file") &&
        [ "$now $is" = "$(<"$file.of")" ]
}

# Stamps FILE, which was made while the sources had this fingerprint; not if they have another one now.
stamp() { # FINGERPRINT FILE SOURCES...
    local before=$1 file=$2 is now
    shift 2
    if ! is=$(tools/fingerprint "$file") || ! now=$(tools/fingerprint "$@"); then fail "$file or its sources cannot be read"; fi
    [ "$now" = "$before" ] || fail "a source was changed while $file was made from it; call again"
    { echo "$before $is" >"$file.of.new" && mv -f "$file.of.new" "$file.of"; } || fail "$PWD/$file.of cannot be written"
}
