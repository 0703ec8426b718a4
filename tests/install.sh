#!/bin/sh
# Installs Debian's packages for those of the commands named that are missing. It needs root where one is.
set -e
packages=
for command in "$@"; do
    if ! command -v "$command" > /dev/null; then
        case $command in
            node) packages="$packages nodejs" ;;
            jsc) packages="$packages libjavascriptcoregtk-4.0-bin" ;;
            *) packages="$packages $command" ;;
        esac
    fi
done
if [ -n "$packages" ]; then
    apt-get update
    # shellcheck disable=SC2086
    apt-get install -y --no-install-recommends $packages
fi
