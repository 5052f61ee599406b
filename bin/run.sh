# Runs the program NAME with the words that its command in bin/ was given, which reads this file.
#
# The proved program is run where one of today's sources is there. Else one without proof is, which is said on standard error
# (FEROPUNA_QUIET=1 spares it), and is built first where it isn't there; a build that fails is status 4.
set -eu
# shellcheck source=bin/builds.sh
. "$HERE/builds.sh"

if is_current "$PROVED"; then
    program="$PROVED"
else
    program="$UNPROVED"
    if ! is_current "$program"; then
        say "there is no build of these sources yet (\`bin/build $NAME\` makes a proved one, in hours)"
        "$HERE/build" --unproved "$NAME" >&2 || exit 4
    fi
fi

if [ $# -eq 1 ] && { [ "$1" = --version ] || [ "$1" = -V ]; }; then
    read_stamp "$program"
    version="$("$program" "$1")"
    echo "$version ($commit, $build, $kit)"
    exit
fi
if [ "$program" = "$UNPROVED" ] && [ "${FEROPUNA_QUIET-}" != 1 ]; then
    read_stamp "$program"
    say "this is an unproved build of $commit; \`bin/build $NAME\` proves it"
fi

# Large modules take up to a fifth less time in pages of 2 MiB, which the C library asks for then, where the kernel has
# some for those that ask. What the caller has set stands.
export GLIBC_TUNABLES="${GLIBC_TUNABLES-glibc.malloc.hugetlb=1}"
exec "$program" "$@"
