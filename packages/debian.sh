# What the scripts that make Debian packages have in common. They set `top` and `folder`, and then read this.
#
# MACHINE is x86_64 or aarch64, and DEBIAN what Debian calls it. STRIP and OBJDUMP are the tools for it.
umask 022
version=$(cat "$top/VERSION")
machine=${MACHINE:-x86_64}
debian=${DEBIAN:-amd64}
scratch=$(mktemp -d)
trap 'rm -rf "$scratch"' EXIT
root=$scratch/root
maintainer='Semphluk maintainers <maintainers@users.noreply.semphluk.example>'
SOURCE_DATE_EPOCH=${SOURCE_DATE_EPOCH:-$(date +%s)}
export SOURCE_DATE_EPOCH

# Puts the licence and the changelogs of the package $1 into the root.
put_documents() {
    docs=$root/usr/share/doc/$1
    mkdir -p "$docs" "$root/DEBIAN"
    cp "$top/LICENSE" "$docs/copyright"
    printf '\nOn Debian systems, the Apache License, Version 2.0, is in /usr/share/common-licenses/Apache-2.0.\n' \
        >> "$docs/copyright"
    gzip -9n < "$top/CHANGELOG.md" > "$docs/NEWS.gz"
    gzip -9n > "$docs/changelog.gz" << END
$1 ($version) unstable; urgency=medium

  * Release $version. NEWS.gz says what is new.

 -- $maintainer  $(date -u -R -d "@$SOURCE_DATE_EPOCH")
END
}

# Writes which C library the files need: the version of their newest symbol. They may need nothing else.
needed() {
    objdump=${OBJDUMP:-objdump}
    others=$("$objdump" -p "$@" |
        awk '$1 == "NEEDED" && $2 !~ /^(libc|libm|ld-linux-(x86-64|aarch64))\.so\./ { print $2 }')
    if [ -n "$others" ]; then
        echo "packages: which Debian packages have these? $others" >&2
        exit 1
    fi
    newest=$("$objdump" -T "$@" | grep -o 'GLIBC_[0-9.]*' | sort -Vu | tail -n 1)
    echo "libc6 (>= ${newest#GLIBC_})"
}

# Makes the package $1 of the root. Standard input has the rest of its control file.
build() {
    {
        cat << END
Package: $1
Version: $version
Architecture: $debian
Maintainer: $maintainer
Installed-Size: $(du -sk --apparent-size --exclude=DEBIAN "$root" | cut -f 1)
END
        cat
    } > "$root/DEBIAN/control"
    (cd "$root" && find usr -type f | LC_ALL=C sort | xargs md5sum) > "$root/DEBIAN/md5sums"
    dpkg-deb --root-owner-group --build "$root" "$folder/${1}_${version}_$debian.deb" > "$scratch/log"
    echo "${1}_${version}_$debian.deb"
}
