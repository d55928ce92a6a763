#!/usr/bin/env bash
# rust/ and second/ take the archive that ALTAIRPEG_ARCHIVE names, whatever its age, and say in a sentence if it won't do.
. "$(dirname "$0")/scratch.sh"
export CARGO_TARGET_DIR="$folder/target"
unset ALTAIRPEG_ARCHIVE

# An archive with every name of the header, in which each call refuses a number: 99 is one that no paper has.
stub() { # NUMBER
    echo '#include <stddef.h>'
    echo 'struct answer { size_t number, a, b; };'
    sed -n 's/.*\baltairpeg_[a-z_]* \(altairpeg_[a-z_]*\)(.*/\1/p' include/altairpeg.h |
        sed "s/.*/struct answer &(void) { struct answer r = {$1, 1, 2}; return r; }/"
    echo 'size_t altairpeg_fewest_tracks(void) { return 99; }'
}

says() { # TEXT WHAT: the example says it, whether it is refused or not
    local said
    said=$(cargo run --quiet --manifest-path rust/Cargo.toml --example one_night 2>&1) || true
    grep -qF -- "$1" <<< "$said" || fail "$2: no '$1' in: $said"
}

refuses() { # TEXT CRATE...: no build, and the sentence
    local text=$1 said
    shift
    if said=$(cargo build --quiet --manifest-path "$@" 2>&1); then fail "$ALTAIRPEG_ARCHIVE was taken"; fi
    grep -qF -- "$ALTAIRPEG_ARCHIVE $text: run \`tools/build staticlib altairpeg\`" <<< "$said" || fail "no '$text' in: $said"
}

real=$PWD/target/staticlib/libaltairpeg.a
says "Closed: 3 steps, 14 passes" "the repository's archive"

export ALTAIRPEG_ARCHIVE="$folder/other archive.a"
archive_of() { # NUMBER OPTIONS...: of the stub, in which each call refuses this number
    rm -f "$ALTAIRPEG_ARCHIVE"
    stub "$1" | gcc "${@:2}" -c -o "$folder/stub.o" -x c -
    ar rc "$ALTAIRPEG_ARCHIVE" "$folder/stub.o"
}
archive_of 99
touch -d 2001-01-01 "$ALTAIRPEG_ARCHIVE"
says "refused 99 1 2: a number the paper does not have (A 1, B 2)" "an old archive of another name"
cp "$real" "$ALTAIRPEG_ARCHIVE"
touch -d 2001-01-01 "$ALTAIRPEG_ARCHIVE"
says "Closed: 3 steps, 14 passes" "another put in its place, as old"

second=(second/Cargo.toml --features library)
rm "$ALTAIRPEG_ARCHIVE"
refuses "cannot be read (No such file or directory (os error 2))" rust/Cargo.toml
refuses "cannot be read (No such file or directory (os error 2))" "${second[@]}"
echo "no archive" > "$ALTAIRPEG_ARCHIVE"
refuses "is no archive" "${second[@]}"
head -c 9000 "$real" > "$ALTAIRPEG_ARCHIVE"
refuses "is cut off or damaged" rust/Cargo.toml
archive_of 99 -Daltairpeg_price=another
refuses "has no altairpeg_price, so it is no archive of this edition" rust/Cargo.toml
# Sixteen steps are a count out of its range for the price of every earlier edition.
archive_of 1
refuses "is of an earlier edition, whose calls take other arguments" rust/Cargo.toml
refuses "is of an earlier edition, whose calls take other arguments" "${second[@]}"
ALTAIRPEG_ARCHIVE=target/staticlib/libaltairpeg.a
refuses "is not a whole path, from / on" rust/Cargo.toml
ALTAIRPEG_ARCHIVE=
says "Closed: 3 steps, 14 passes" "an empty name"
