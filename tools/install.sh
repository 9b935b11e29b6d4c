#!/bin/sh
# Proves and builds the programs, and installs them and the command tilfrjon with their manual pages, and completion for
# bash, zsh and fish.
#
#     tools/install.sh [PREFIX]
#
# PREFIX is /usr/local if it is left out. The programs go to PREFIX/bin, all else to PREFIX/share. What is proved already is
# not proved again.
set -u
prefix=${1:-/usr/local}
case $prefix in
/*) ;;
*) prefix=$PWD/$prefix ;;
esac
cd "$(dirname "$0")/.." || exit 1

if ! command -v rt >/dev/null; then
    echo "install: the toolchain's command rt is not on the path" >&2
    exit 1
fi
mkdir -p "$prefix/bin" "$prefix/share/man/man1" || exit 1
for program in sftp_transfer sftp_cli sftp_mirror sftp_serve sftp_view sftp_share; do
    echo "install: proving and building $program"
    if ! (cd "crates/$program" && rt run -- --version); then
        echo "install: $program could not be built" >&2
        exit 1
    fi
    install -m 755 "crates/$program/out/$program" "$prefix/bin/$program" || exit 1
    install -m 644 "docs/$program.1" "$prefix/share/man/man1/$program.1" || exit 1
done
install -m 755 tools/tilfrjon "$prefix/bin/tilfrjon" || exit 1
install -m 644 docs/tilfrjon.1 "$prefix/share/man/man1/tilfrjon.1" || exit 1
for program in tilfrjon sftp_transfer; do
    install -D -m 644 tools/completion/tilfrjon.bash "$prefix/share/bash-completion/completions/$program" &&
        install -D -m 644 tools/completion/tilfrjon.fish "$prefix/share/fish/vendor_completions.d/$program.fish" || exit 1
done
install -D -m 644 tools/completion/_tilfrjon "$prefix/share/zsh/site-functions/_tilfrjon" || exit 1
echo "install: the programs are in $prefix/bin, their manual pages in $prefix/share/man/man1"
