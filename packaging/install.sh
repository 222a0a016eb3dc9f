#!/bin/sh
# Copies sigaudit from this folder into a prefix, such as /usr/local or $HOME/.local, or takes it away again.
#
# usage: ./install.sh PREFIX
#        ./install.sh --remove PREFIX
#
# It writes below PREFIX/bin and PREFIX/share alone, and lists in PREFIX/share/sigaudit/installed the files and folders
# that it made, by which they are taken away again, and before another version is put in their place. A prefix of your
# own needs no rights. Put PREFIX/bin on the path; man finds the pages beside it.
here=$(cd "$(dirname "$0")" && pwd) || exit 1
remove=
if [ "$1" = --remove ]; then
    remove=yes
    shift
fi
case ${1--} in
-*)
    sed -n 's/^# usage: /usage: /p; s/^#        /       /p' "$0" >&2
    exit 2
    ;;
esac
mkdir -p "$1" && prefix=$(cd "$1" && pwd) || exit 1
if [ "$prefix" -ef "$here" ]; then
    echo "install.sh: give another folder than this one" >&2
    exit 2
fi
list=share/sigaudit/installed

# Takes away the files of the list, and then its folders, as far as nothing else is in them.
take_away() {
    [ -f "$prefix/$list" ] || return 0
    names=$(cat "$prefix/$list")
    printf '%s\n' "$names" | while IFS= read -r name; do
        case $name in
        */) rmdir "$prefix/$name" 2>/dev/null ;;
        *) rm -f "$prefix/$name" ;;
        esac
    done
}

if [ -n "$remove" ]; then
    [ -f "$prefix/$list" ] || { echo "install.sh: sigaudit isn't installed in $prefix" >&2; exit 1; }
    take_away
    exit
fi
take_away
cd "$here" || exit 1
folders=$(find bin share -type d | LC_ALL=C sort -r | while IFS= read -r name; do
    [ -d "$prefix/$name" ] || echo "$name/"
done)
tar -cf - bin share | (cd "$prefix" && tar --no-same-owner -xf -) || exit 1
{
    find bin share ! -type d | LC_ALL=C sort
    printf '%s\n' "$list" $folders
} >"$prefix/$list" || exit 1
echo "sigaudit $(cat share/sigaudit/VERSION) is in $prefix/bin: put it on the path, then try sigaudit --demo 1"
