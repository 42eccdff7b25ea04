# What ./symds, ./build, ./release and .ci/run share. Sourced with $top, the top of the repository.

built="$top/crates/symds/out/symds"
manifest="$top/release/MANIFEST"
packed="$top/release/symds-x86_64-linux.gz"
unpacked="$top/release/out/symds"

# The digest of all sources: the names and contents of crates.txt, HANDLES and all files of crates/ but what is built.
sources_digest() {
    (cd "$1" && {
        find crates -name out -prune -o -type f -print
        echo crates.txt
        echo HANDLES
    } | LC_ALL=C sort | xargs -d '\n' sha256sum | sha256sum | cut -d ' ' -f 1)
}

file_digest() {
    sha256sum "$1" | cut -d ' ' -f 1
}

# A line of the manifest by its name.
manifest_line() {
    sed -n "s/^$1 //p" "$manifest" 2>/dev/null
}

# The program was built here after the last change of a source.
is_fresh() {
    [ -x "$built" ] || return 1
    newer=$(find "$top/crates.txt" "$top/HANDLES" "$top/crates" -name out -prune -o -type f -newer "$built" -print 2>/dev/null |
        head -n 1)
    [ -z "$newer" ]
}

# Unpacks the release's program, and sees that its digest is right and that it starts.
unpack_release() {
    [ -f "$packed" ] && [ -f "$manifest" ] || return 1
    if [ ! -x "$unpacked" ] || [ "$(file_digest "$unpacked")" != "$(manifest_line program)" ]; then
        mkdir -p "$top/release/out" && gzip -dc "$packed" >"$unpacked.new" && chmod +x "$unpacked.new" &&
            mv "$unpacked.new" "$unpacked" || return 1
    fi
    [ "$(file_digest "$unpacked")" = "$(manifest_line program)" ] && "$unpacked" --version >/dev/null 2>&1
}
