# Sourced by tests/delivery/run: ./install, without the kit and with nothing in the environment, into $prefix and into places that are hard.

# installs STATUS WORD..: ./install ends so.
installs() {
    local status=$1
    shift
    env -i PATH="$clean" ${DESTDIR+"DESTDIR=$DESTDIR"} ./install "$@" >"$room/printed" 2>"$room/error"
    [ $? = "$status" ] || { cat "$room/printed" "$room/error" && false; }
}
# refused STATUS TO-STANDARD-ERROR WORD..: so it ends, and nothing was written.
refused() {
    local due=$2
    installs "$1" "${@:3}" && same "$due" "$(cat "$room/error")" && same '' "$(find "$room/none" -mindepth 1)"
}
# flags PREFIX OPTION: what pkg-config says of it, as words, a line to each.
flags() {
    local words
    eval "words=($(PKG_CONFIG_PATH=$1/lib/pkgconfig pkg-config "$2" guvrendik | sed 's/[$()]/\\&/g'))"
    printf '%s\n' "${words[@]}"
}
pages=$prefix/share/man/man3
check './install' installs 0 "$prefix"
# What to do so that the loader finds the library: it does not look into a temporary prefix.
unsearched() {
    echo "the loader does not look into $1: start programs with LD_LIBRARY_PATH=$1, or write $1 into a file of /etc/ld.so.conf.d and run ldconfig, as root"
}
check 'it says that the loader does not look there, and what to do' same "$(unsearched "$prefix/lib")" "$(sed -n 2p "$room/printed")"
export PKG_CONFIG_PATH=$prefix/lib/pkgconfig
pc() { pkg-config "$@" guvrendik; }
check 'guvrendik.pc has the version' same "$(version)" "$(pc --modversion)"
check 'so has the manual page' grep -qF "guvrendik $(version)" "$pages/guvrendik.3"
check 'and that of the command' grep -qF "guvrendik $(version)" "$prefix/share/man/man1/guvrendik.1"
while read -r call; do
    check "guvrendik(3) names $call" grep -qE "\b$call\(.*[;,]$" "$pages/guvrendik.3"
    check "$call(3) leads to it" same '.so man3/guvrendik.3' "$(cat "$pages/$call.3")"
done < <(sed -nE 's/^(static inline )?(int|void|uint32_t|guvrendik_[a-z_]+) (guvrendik_[a-z_]+)\(.*/\3/p' include/guvrendik.h)
for page in PORTAL RULES TABLE; do check "$page.md is there" cmp "docs/$page.md" "$prefix/share/doc/guvrendik/$page.md"; done
check 'a second time' installs 0 "$prefix"

mkdir "$room/none"
check 'without a prefix' refused 126 'install: one PREFIX is asked for; --help says how to call it'
check 'with an empty one' refused 126 'install: one PREFIX is asked for; --help says how to call it' ''
check 'with two' refused 126 'install: one PREFIX is asked for; --help says how to call it' "$room/none/a" "$room/none/b"
check 'with a line feed in it' refused 126 \
    'install: a PREFIX has no line feed or other control character: guvrendik.pc could not say it; --help says how to call it' "$room/none/a
b"
: >"$room/file"
check 'below a file' refused 127 "install: $room/file is not a folder" "$room/file/below"
mkdir "$room/half" && : >"$room/half/share"
check 'where a folder is a file' refused 127 "install: $room/half/share is not a folder" "$room/half"
check 'nothing was written there' same "$room/half/share" "$(find "$room/half" -mindepth 1)"
check 'where nothing is installed' refused 127 "install: $room/none/share/doc/guvrendik/installed is not there: nothing is installed, or not by this script" \
    --remove "$room/none"
# A machine for which nothing is delivered.
mkdir "$room/machine" && printf '#!/bin/sh\nif [ "$1" = -m ]; then echo riscv64; else echo Linux; fi\n' >"$room/machine/uname" && chmod +x "$room/machine/uname"
clean=$room/machine:$clean check 'for another processor' refused 127 \
    "install: nothing is delivered for Linux on riscv64; there are $(cd delivered && echo *)" "$room/none"

# The prefixes that gave a wrong guvrendik.pc, and worse.
for name in 'a&b' 'a|b' "a \$b#'\"\\c(d)"; do
    check "below '$name'" installs 0 "$room/$name"
    check 'its guvrendik.pc has the place' same "-I$room/$name/include" "$(flags "$room/$name" --cflags)"
    check 'and the library' same "-L$room/$name/lib
-lguvrendik" "$(flags "$room/$name" --libs)"
    check 'it is removed' installs 0 --remove "$room/$name"
    check 'and leaves no file' same '' "$(find "$room/$name" ! -type d)"
done
DESTDIR=$room/staged check 'with DESTDIR' installs 0 /opt/guvrendik
check 'which is in no file' bash -c "! grep -rqF '$room/staged' '$room/staged'"
check 'guvrendik.pc has the prefix' grep -qxF 'prefix=/opt/guvrendik' "$room/staged/opt/guvrendik/lib/pkgconfig/guvrendik.pc"
check 'the same files as without' same "$(cd "$prefix" && find . | sort)" "$(cd "$room/staged/opt/guvrendik" && find . | sort)"
DESTDIR=$room/staged check 'it is removed with DESTDIR' installs 0 --remove /opt/guvrendik
check 'and leaves no file' same '' "$(find "$room/staged" ! -type d)"
# A prefix whose lib the loader looks into, as it says itself.
searched=$(PATH=$PATH:/usr/sbin:/sbin ldconfig -v -N -X 2>/dev/null | sed -nE 's/^(\/.+)\/lib:.*/\1/p' | head -n 1)
if [ -n "$searched" ]; then
    DESTDIR=$room/staged check "with DESTDIR below $searched" installs 0 "$searched"
    check 'it says that ldconfig is to be run' same "run ldconfig, as root, so that programs find $soname" "$(sed -n 2p "$room/printed")"
fi
mkdir "$room/relative" && check 'a prefix from where one stands' bash -c "cd '$room/relative' && env -i PATH='$clean' '$PWD/install' here && grep -qxF 'prefix=$room/relative/here' here/lib/pkgconfig/guvrendik.pc"
