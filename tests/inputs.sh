# shellcheck shell=bash
# Inputs of every kind for tests/lists and tests/totals. Each goes to agree, with words that say what it is: agree, which the test has, compares what
# comes of it. `sample` is the file to be damaged.

stop() {
    echo "FAILED: $1" >&2
    exit 1
}

# times COUNT TEXT
times() {
    local i
    for ((i = 0; i < $1; i++)); do printf '%s' "$2"; done
}

layouts() {
    agree "nothing" </dev/null
    local layout
    for layout in '' ';' '9' '9;' '9;9' ';9;' 'V;' 'q;' '(0)9;' '(65)9;' '(2;' '9CR;' '9CRV;' 'ZZ9V.99;-9;' '9Z;' '9;Z;9Z;' '$$9;$$9DB;' '9 ;' \
        'T;' '9R;' 'ZZI;' '(1)T;' '(1)R;' '(2)T;' 'TR;' 'S9I;' 'RCR;' 'CRR;' 'TZ;' \
        '99999999999999999;' '999999999999999999;' '9999999999999999999;' '(16)Z;' '(19)Z;' '(19)$;' '(20)$;' '(17)9T;' '9;(18)9T;'; do
        agree "the layout $layout" < <(printf '%s' "$layout")
        agree "the layout $layout and LF" < <(printf '%s\n' "$layout")
        agree "the layout $layout and a record" < <(printf '%s\n1\n' "$layout")
        agree "the layout $layout and CR LF" < <(printf '%s\r\n1\r\n' "$layout")
    done
    for layout in 31 32 33; do
        agree "$layout pictures" < <(times $layout '9;'; echo; times $layout 7; echo; times 31 1; echo)
        agree "$layout pictures of 64" < <(times $layout '(18)9(46)/;'; echo; times $layout "123456789012345678$(times 46 /)"; echo)
    done
    agree "2,048 characters and others" < <(times 32 '(18)9(46)/;'; echo; times 2047 1; echo; times 2048 1; echo; times 2049 1; echo; times 9000 1; echo)
}

records() {
    local record
    for record in '  0' '   ' ' 12' '012' '999' '9' '' '9999' $'12\r' '1 2' '-12' $'\t12'; do
        agree "a record" < <(printf 'ZZ9;\n%s\n' "$record")
        agree "a last record without LF" < <(printf 'ZZ9;\n 12\n%s' "$record")
        agree "a record between empty lines" < <(printf 'ZZ9;\n\n%s\n\n\n' "$record")
    done
    agree "NUL" < <(printf 'ZZ9;\n12\0\n\0\0\0\n  3\n')
    agree "NUL in the layout" < <(printf 'ZZ9\0;\n  3\n')
}

# The limit of the input, with a layout line of five bytes.
limits() {
    local over
    for over in -1 0 1 2 4000; do
        agree "65,536 and $over bytes" < <(printf 'ZZ9;\n'; head -c $((65531 + over)) < <(yes ' 12'))
        agree "65,536 and $over bytes in a line" < <(printf 'ZZ9;\n'; head -c $((65531 + over)) /dev/zero)
    done
}

# A sample with one byte changed, dropped or doubled.
damaged() {
    local size i at
    size=$(wc -c <"$sample")
    local bytes=(00 0a 0d 20 24 2a 2c 2d 2e 30 39 3b 41 43 49 52 54 56 5a 63 7b 7d 80 ff)
    for ((i = 0; i < 60; i++)); do
        at=$((RANDOM % size))
        agree "$sample with byte $at changed" < <(head -c $at "$sample"; printf "\\x${bytes[RANDOM % ${#bytes[@]}]}"; tail -c +$((at + 2)) "$sample")
        agree "$sample without byte $at" < <(head -c $at "$sample"; tail -c +$((at + 2)) "$sample")
        agree "$sample with byte $at doubled" < <(head -c $((at + 1)) "$sample"; tail -c +$((at + 1)) "$sample")
    done
}
