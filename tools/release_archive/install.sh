#!/bin/sh
# Installs perses below a folder: install.sh PREFIX, as install.sh /usr/local or install.sh "$HOME/.local".
# PREFIX/share/perses/uninstall.sh takes out again what this put there, and nothing else. What an earlier install.sh put there
# is taken out first.
set -eu
umask 022 # all users can read what is installed
if [ $# -ne 1 ] || [ -z "$1" ]; then
    echo 'usage: install.sh PREFIX' >&2
    exit 2
fi
cd -- "$(dirname -- "$0")"
case $1 in /*) prefix=$1 ;; *) prefix=$OLDPWD/$1 ;; esac
sha256sum -c --quiet --strict SHA256SUMS || { echo 'install.sh: the archive is damaged' >&2; exit 1; }
own=$prefix/share/perses
files=$(cd files && find . -type f | sed 's|^\./||' | LC_ALL=C sort)

while read -r file; do
    if [ -e "$prefix/$file" ] && ! grep -qxF -e "$file" "$own/installed" 2>/dev/null; then
        echo "install.sh: $prefix/$file is there already; nothing was changed" >&2
        exit 1
    fi
done <<END
$files
END
[ ! -e "$own/installed" ] || sh "$own/uninstall.sh"

# Makes a folder and those that it is in, and keeps the names of those that it made.
made=
make_folder() {
    if [ ! -d "$1" ]; then
        make_folder "$(dirname -- "$1")"
        mkdir -- "$1"
        made="$1
$made"
    fi
}

make_folder "$own"
while read -r file; do
    make_folder "$(dirname -- "$prefix/$file")"
    echo "$file" >>"$own/installed"
    cp -- "files/$file" "$prefix/$file"
    if [ -x "files/$file" ]; then chmod 755 -- "$prefix/$file"; else chmod 644 -- "$prefix/$file"; fi
    printf '%s' "$made" >"$own/folders"
done <<END
$files
END
echo "perses is in $prefix/bin; sh $own/uninstall.sh takes it out again"
