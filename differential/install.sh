#!/bin/sh
# Installs the Debian packages that the oracle's crates come from.
# Debian's own compiler must stay out: the oracle needs rustc 1.88 or newer.
set -eu
packages="librust-url-dev librust-thiserror-dev librust-tracing-dev"

missing=""
for package in $packages; do
    dpkg-query -W -f='${Status}' "$package" 2>/dev/null | grep -q 'ok installed' || missing="$missing $package"
done

if [ -n "$missing" ]; then
    before=$(rustc --version)
    # The simulation shows what would come; a compiler among it stops the script.
    plan=$(apt-get install -s -y --no-install-recommends $missing) || {
        apt-get update -q
        plan=$(apt-get install -s -y --no-install-recommends $missing)
    }
    if printf '%s\n' "$plan" | grep -Eq '^Inst (rustc|cargo) '; then
        echo "install.sh: the packages would bring Debian's rustc or cargo; nothing was installed" >&2
        exit 1
    fi
    DEBIAN_FRONTEND=noninteractive apt-get install -q -y --no-install-recommends $missing
    after=$(rustc --version)
    if [ "$before" != "$after" ]; then
        echo "install.sh: the compiler changed from '$before' to '$after'" >&2
        exit 1
    fi
fi

if [ ! -d /usr/share/cargo/registry ]; then
    echo "install.sh: no crates under /usr/share/cargo/registry" >&2
    exit 1
fi
rustc --version
