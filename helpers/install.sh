#!/bin/sh
# Puts what this archive has below a folder, /usr/local by default, or takes it away from there:
#
#     sh install.sh [--uninstall] [FOLDER]
#
# The program is FOLDER/bin/pnmpipe; FOLDER/share has the pages and completions, FOLDER/libexec the stand-ins for
# Netpbm's tools, and FOLDER/lib and FOLDER/include the C library, if the archive has it. It needs no tools but those of
# any system. --uninstall removes the folders, too, that this script has made, unless something else is in them.
set -eu
# (who has installed it isn't the only one who may run it)
umask 022
away=''
case ${1-} in
    --uninstall) away=yes && shift ;;
    -h | --help) sed -n '2,8s/^# \{0,1\}//p' "$0" && exit 0 ;;
    -*) echo "install.sh: there is no option $1" >&2 && exit 2 ;;
esac
[ $# -le 1 ] || { echo "usage: sh install.sh [--uninstall] [FOLDER]" >&2 && exit 2; }
case ${1:-/usr/local} in
    /*) folder=${1:-/usr/local} ;;
    *) folder=$PWD/$1 ;;
esac
folder=${folder%/}
cd "$(dirname "$0")"
for part in bin libexec share; do
    [ -d "$part" ] || { echo "install.sh: $PWD isn't the archive of the built program: it has no $part" >&2 && exit 1; }
done
parts=$(ls -d bin include lib libexec share 2> /dev/null || :)
# the file that names the folders which weren't there before, with `..` for each above this one
made=$folder/libexec/pnmpipe/folders

# shellcheck disable=SC2086
if [ -z "$away" ]; then
    new=$(for each in . $(find $parts -type d); do [ -d "$folder/$each" ] || echo "$each"; done
        above=$folder
        while above=${above%/*} && [ -n "$above" ] && [ ! -d "$above" ]; do echo ..; done)
    [ -z "$new" ] || { mkdir -p "${made%/*}" && echo "$new" >> "$made"; }
fi
# shellcheck disable=SC2086
find $parts ! -type d | while IFS= read -r file; do
    rm -f "$folder/$file"
    [ -z "$away" ] || continue
    mkdir -p "$folder/${file%/*}"
    cp -P "$file" "$folder/$file"
done
if [ -z "$away" ]; then
    echo "pnmpipe is installed as $folder/bin/pnmpipe"
elif [ -e "$made" ]; then
    # (those within a folder come before it)
    folders=$(grep -vx '\.\.' "$made" | LC_ALL=C sort -r; grep -x '\.\.' "$made" || :)
    rm "$made"
    echo "$folders" | while IFS= read -r each; do
        [ "$each" != .. ] || folder=${folder%/*} each=.
        rmdir "$folder/${each#.}" 2> /dev/null || :
    done
fi
