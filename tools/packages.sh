#!/usr/bin/env bash
# Makes the packages of a release. See `tools/packages.sh --help`.
set -euo pipefail

usage() {
    cat <<'TEXT'
usage: tools/packages.sh FOLDER [KIND ..]

Makes the packages of what dist/ has, in FOLDER, with SHA256SUMS of all that lies there. KIND is one
of python, r, npm and debian; without a KIND all are made. packaging/README.md says what each has
inside. It asks no network, and the same commit gives the same bytes by the same tools. The package
for R has its vignette as HTML if R has knitr and markdown, and else as a plain text.
It needs `pip`, `R`, `npm`, or `dpkg-deb` and `strip`, for the kinds that it makes.
Statuses: 0 all are made, 1 one can't be made, 2 these words can't be followed.
TEXT
}

refuse() { # STATUS WHY
    echo "packages.sh: $2" >&2
    exit "$1"
}

case ${1:-} in
    --help | -h) usage; exit 0 ;;
    '' | -*) usage >&2; refuse 2 "it takes a folder" ;;
esac
mkdir -p "$1"
folder=$(cd "$1" && pwd)
shift
kinds=("$@")
[ $# -gt 0 ] || kinds=(python r npm debian)
cd "$(dirname "$0")/.."
room=$(mktemp -d)
trap 'rm -rf "$room"' EXIT

version=$(python3 tools/versions.py) || refuse 1 "the versions differ"
native=dist/countygroups-x86_64-linux
# What the packages for Python and R have inside: the one for any C library, if dist/ has it.
linux=$native
[ ! -f "$native-static" ] || linux=$native-static
licences=(LICENSE-MIT LICENSE-APACHE NOTICE)
# The date of all files: that of the commit, so that the same commit gives the same bytes.
SOURCE_DATE_EPOCH=$(git log -1 --format=%ct 2>/dev/null || echo 315532800)
export SOURCE_DATE_EPOCH

# Stops unless a program is there.
need() { # PROGRAM PACKAGE
    command -v "$1" >/dev/null || refuse 1 "there is no \`$1\`: Debian has it in the package $2"
}

# Prints a file with the version and the release of the C library in their places.
filled() { # FILE
    local library
    library=$(grep -aoE 'GLIBC_2\.[0-9]+' "$native" | sort -uV | tail -n 1)
    sed "s/@VERSION@/$version/; s/@LIBRARY@/${library#GLIBC_}/; s/@SIZE@/${size:-}/" "$1"
}

make_python() {
    local program
    python3 -m pip --version >/dev/null 2>&1 || refuse 1 "there is no pip: Debian's is python3-pip"
    for program in native wasm; do
        python3 -m pip wheel --quiet --no-index --no-deps --wheel-dir "$folder" \
            --config-settings "program=$program" ./python
    done
}

# Returns whether R has what builds a vignette.
has_knitr() {
    local name
    for name in knitr markdown; do
        Rscript -e "if (!requireNamespace('$name', quietly = TRUE)) quit(status = 1)" \
            >/dev/null 2>&1 || return 1
    done
}

make_r() {
    local source=$room/countygroups name words=()
    need R r-base-core
    cp -r r "$source"
    rm -rf "$source/inst"
    mkdir -p "$source/inst/bin" "$source/inst/extdata"
    gzip -9nc "$linux" >"$source/inst/bin/countygroups-x86_64-linux.gz"
    for name in countygroups.mjs countygroups.wasm; do
        gzip -9nc "dist/$name" >"$source/inst/bin/$name.gz"
    done
    cp data/nc2020/county_borders.txt data/nc2020/borders_source.txt "$source/inst/extdata/"
    cp "${licences[@]}" "$source/inst/"
    if has_knitr; then
        python3 tools/r_vignette.py "$source"
    else
        python3 tools/r_vignette.py --plain "$source"
        words=(--no-build-vignettes)
    fi
    (cd "$room" && R CMD build "${words[@]}" countygroups >build.log 2>&1) ||
        { cat "$room/build.log" >&2; refuse 1 "R can't build its package"; }
    pack_r "$room/countygroups_$version.tar.gz"
}

# Packs the archive that R built once more, without the date and the name of who built it. To build
# a vignette R runs `configure`, which unpacks the programs.
pack_r() { # ARCHIVE
    local date
    date=$(date -u -d "@$SOURCE_DATE_EPOCH" '+%Y-%m-%d %H:%M:%S UTC')
    mkdir "$room/packed"
    tar -xzf "$1" -C "$room/packed"
    find "$room/packed/countygroups/inst/bin" -type f ! -name '*.gz' -exec gzip -9n {} +
    sed -i "s/^Packaged: .*/Packaged: $date; countygroups/" "$room/packed/countygroups/DESCRIPTION"
    tar --sort=name --mtime="@$SOURCE_DATE_EPOCH" --owner=0 --group=0 --numeric-owner \
        -C "$room/packed" -cf - countygroups | gzip -9n >"$folder/countygroups_$version.tar.gz"
}

make_npm() {
    local source=$room/npm
    need npm npm
    mkdir "$source"
    filled packaging/npm/package.json >"$source/package.json"
    cp packaging/npm/README.md dist/countygroups.mjs dist/countygroups.wasm "${licences[@]}" \
        "$source/"
    (cd "$source" && npm pack --silent --offline --pack-destination "$folder" >/dev/null)
}

make_debian() {
    local tree=$room/debian share size
    need dpkg-deb dpkg
    need strip binutils
    share=$tree/usr/share
    install -D "$native" "$tree/usr/bin/countygroups"
    strip "$tree/usr/bin/countygroups"
    install -Dm644 completions/countygroups.bash "$share/bash-completion/completions/countygroups"
    install -Dm644 completions/_countygroups "$share/zsh/vendor-completions/_countygroups"
    install -Dm644 -t "$share/fish/vendor_completions.d" completions/countygroups.fish
    install -Dm644 -t "$share/doc/countygroups" packaging/debian/copyright NOTICE LICENSE-MIT
    mkdir -p "$share/man/man1"
    gzip -9nc docs/countygroups.1 >"$share/man/man1/countygroups.1.gz"
    debian_changelog | gzip -9n >"$share/doc/countygroups/changelog.gz"
    size=$(du -sk --apparent-size "$tree" | cut -f1)
    mkdir "$tree/DEBIAN"
    filled packaging/debian/control >"$tree/DEBIAN/control"
    chmod -R u=rwX,go=rX "$tree"
    dpkg-deb --root-owner-group -Zxz --build "$tree" \
        "$folder/countygroups_${version}_amd64.deb" >/dev/null
}

# Prints the changelog in Debian's form, which names the one of the repository.
debian_changelog() {
    local who
    who=$(sed -n 's/^Maintainer: //p' packaging/debian/control)
    printf 'countygroups (%s) unstable; urgency=medium\n\n  * CHANGELOG.md has what changed.\n\n' \
        "$version"
    printf ' -- %s  %s\n' "$who" "$(LC_ALL=C date -u -R -d "@$SOURCE_DATE_EPOCH")"
}

for kind in "${kinds[@]}"; do
    case $kind in
        python | r | npm | debian) "make_$kind" ;;
        *) usage >&2; refuse 2 "there is no kind \`$kind\`" ;;
    esac
done
(cd "$folder" && rm -f SHA256SUMS && sha256sum -- * >"$room/sums" && mv "$room/sums" SHA256SUMS)
ls -1 "$folder"
