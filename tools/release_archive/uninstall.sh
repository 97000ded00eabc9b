#!/bin/sh
# Takes out what install.sh put below the folder that this file is in: the files that it noted, and the folders that it made,
# where nothing else is in them.
set -eu
own=$(CDPATH='' cd -- "$(dirname -- "$0")" && pwd)
prefix=$(CDPATH='' cd -- "$own/../.." && pwd)
if [ ! -e "$own/installed" ]; then
    echo "uninstall.sh: nothing is installed here" >&2
    exit 1
fi
files=$(cat -- "$own/installed")
folders=$(cat -- "$own/folders")
while read -r file; do
    rm -f -- "$prefix/$file"
done <<END
$files
END
rm -f -- "$own/installed" "$own/folders"
cd /
while read -r folder; do
    [ -z "$folder" ] || rmdir -- "$folder" 2>/dev/null || true
done <<END
$folders
END
