# coverage: check, list and ask of a file, write of names.

# BODY PLACE [HEADING]: a text that is refused with 9 at this place. Checking prints `refusal place version depth n s cells size`; listing and
# asking the number.
# Standard error says the place.
not_a_text() {
    printf '%b' "${3-$H}$1" >bad.cvr
    try "no text" "coverage check bad.cvr # $1" "9 $2 0 0 0 0 0 0\n" "9 at place $2"
    try "no text to list" "coverage list bad.cvr # $1" '9\n' "9 at place $2"
    try "no text to ask" "coverage ask bad.cvr N # $1" '9\n' "9 at place $2"
}

# files that cannot be read
for words in 'check FILE' 'list FILE' 'ask FILE N'; do
    try "no such file" "coverage ${words/FILE/missing}" '' 'coverage: missing: No such file or directory'
    try "an empty name" "coverage ${words/FILE/\'\'}" '' 'coverage: : No such file or directory'
    try "a folder" "coverage ${words/FILE/.}" '' 'coverage: .: Is a directory'
    try "a file name of 300 bytes" "coverage ${words/FILE/$(times 300 x)}" '' 'coverage: x*x: File name too long'
    try "a file name of 5,000 bytes" "coverage ${words/FILE/$(times 5000 x)}" '' 'coverage: *: File name too long'
done
printf '%b' "$H" >locked.cvr && chmod 0 locked.cvr
cp "$bin/coverage" other && chmod 755 other
as_other() { "$@"; }
[ "$(id -u)" -ne 0 ] || as_other() { setpriv --reuid=65534 --clear-groups "$@"; } # root may read every file
if as_other test -x other && ! as_other test -r locked.cvr; then
    for words in 'check locked.cvr' 'list locked.cvr' 'ask locked.cvr N'; do
        try "a file that may not be read" "as_other ./other $words" '' 'coverage: locked.cvr: Permission denied'
    done
else
    echo "SKIPPED: a file that may not be read: nothing can be run here as another user"
fi

# texts that are accepted
printf '%b' "$H" >heading.cvr
try "the heading alone" 'coverage check heading.cvr' '0 0 1 15 0 0 0 0\n' ''
try "no cell" 'coverage list heading.cvr' '' ''
try "nothing is covered" 'coverage ask heading.cvr N' 'no\n' ''
printf '%b' "${H}P(34(1))" >two.cvr
try "the paper's text" 'coverage check two.cvr' '0 0 1 15 0 0 2 25418658283290\n' ''
try "its cells" 'coverage list two.cvr' 'P3\nP41\n' ''
printf '%b' "${H}NOPQRS" >all.cvr
try "six faces" 'coverage check all.cvr' "0 0 1 15 0 0 6 $((6 * 9 ** 15))\n" ''
cp two.cvr 'two cells of P.cvr'
try "a file name with spaces" "coverage list 'two cells of P.cvr'" 'P3\nP41\n' ''
cp two.cvr "$(printf 'n\xc3\xa9v\xc3\xa9.cvr')"
try "a file name with bytes above 127" "coverage list n*v*.cvr" 'P3\nP41\n' ''
cp two.cvr "$(printf 'no\xe9.cvr')"
try "a file name that is no UTF-8, which the library does not open" "coverage list no*.cvr" '' "$(printf 'coverage: no\xe9.cvr: Invalid or incomplete multibyte or wide character')"
cp two.cvr -- -two
try "a file name with a dash" 'coverage list -two' 'P3\nP41\n' ''
in_parts() { head -c 3 two.cvr; sleep 0.1; tail -c +4 two.cvr | head -c 7; sleep 0.1; tail -c +11 two.cvr; }
try "a pipe, in parts" 'coverage check <(in_parts)' '0 0 1 15 0 0 2 25418658283290\n' ''
try "a pipe, in parts, listed" 'coverage list <(in_parts)' 'P3\nP41\n' ''
try "standard input as the file" 'in_parts | coverage check /dev/stdin' '0 0 1 15 0 0 2 25418658283290\n' ''

# asking
for name in P3 P30 P38 P388888888888888 P41 P410 P411111111111111; do try "covered" "coverage ask two.cvr $name" 'yes\n' ''; done
for name in P P4 P40 P42 P2 P400000000000000 N O Q S; do try "not covered, or partly" "coverage ask two.cvr $name" 'no\n' ''; done
printf '%b' "CVR\x00\x0132P(0123567)" >other.cvr
try "an arrangement of its own" 'coverage ask other.cvr P0' 'yes\n' ''
try "its n and s" 'coverage check other.cvr' "0 0 1 15 3 2 7 $((7 * 9 ** 14))\n" ''
try "all but two children" 'coverage ask other.cvr P' 'no\n' ''
for n in 0 1 2 3; do
    for s in 0 1 2 3; do
        printf '%b' "CVR\x00\x01$n${s}N" >other.cvr
        try "each arrangement checked" 'coverage check other.cvr' "0 0 1 15 $n $s 1 $((9 ** 15))\n" ''
    done
done
# two crews at one place, in two arrangements: each text is read in its own, and names say none
echo -900000000 880000000000000000 >place
try "the first crew" 'record 0 0 1 <place | tee first.cvr' "${H}N(8)" 1+0+0
try "the second crew" 'record 1 0 1 <place | tee second.cvr' 'CVR\x00\x0110N(6)' 1+0+0
try "the first text asked" 'coverage ask first.cvr N8' 'yes\n' ''
try "the second text asked for the first crew's name" 'coverage ask second.cvr N8' 'no\n' ''
try "the second text asked for its own" 'coverage ask second.cvr N6' 'yes\n' ''
for n in 0 1 2 3; do
    for s in 0 1 2 3; do
        printf '%b' "CVR\x00\x01$n${s}N(8)P(34(1))" >other.cvr
        try "each arrangement listed" 'coverage list other.cvr' 'N8\nP3\nP41\n' ''
        try "each arrangement asked" 'coverage ask other.cvr P418' 'yes\n' ''
        try "each arrangement asked for what is covered in part" 'coverage ask other.cvr P4' 'no\n' ''
        try "each arrangement written again" "coverage list other.cvr | coverage write $n $s" @other.cvr ''
    done
done
for name in "''" T M n p 0 9 "' '" "' P3'" '-' "$'\xff'" '-1'; do try "no letter N to S" "coverage ask two.cvr $name" '1\n' 1; done
try "an empty name" "coverage ask two.cvr ''" '1\n' 1
for name in P9 P3x P-1 "'P3 '" P33333333333339 "$'P\xff'" P34:; do try "no digit 0 to 8" "coverage ask two.cvr $name" '3\n' 3; done
for name in P0000000000000000 "$(times 17 x)" "$(times 64 0)" "$(times 65 P)" "$(times 100 P)" "P$(times 5000 3)"; do
    try "a name over 16 bytes" "coverage ask two.cvr $name" '2\n' 2
done
printf x >bad.cvr
try "a bad name comes before a bad text" 'coverage ask bad.cvr P9' '3\n' 3

# texts that are refused
printf '' >bad.cvr
try "an empty file" 'coverage check bad.cvr' '9 0 0 0 0 0 0 0\n' '9 at place 0'
try "an empty file, listed" 'coverage list bad.cvr' '9\n' '9 at place 0'
printf '%b' "${H}O(012345678)" >bad.cvr
try "what is said of it" 'coverage list bad.cvr 2>&1' '9\ncoverage: refusal 9 at place 18: not a coverage text\n' ''
not_a_text 'O()' 9
not_a_text 'O(012345678)' 18
not_a_text 'O(012345678' 18
not_a_text 'O(012345678(' 19
not_a_text 'O' 8 'CVR\x00\x0100O' # a letter twice
not_a_text 'ON' 8
not_a_text 'T' 7
not_a_text '0' 7
not_a_text '(' 7
not_a_text 'O)' 8
not_a_text 'O((' 9
not_a_text 'O(10)' 10
not_a_text 'O(11)' 10
not_a_text 'O(9)' 9
not_a_text 'O(1))' 11
not_a_text 'O(1' 10
not_a_text 'O(1)P(3(' 15
not_a_text 'O\n' 8
not_a_text 'O\r\n' 8
not_a_text 'O\x00' 8
not_a_text 'O\xff' 8
deep=$(printf '(0%.0s' {1..15})
not_a_text "O$deep(" 38
not_a_text "O${deep}12345678" 45
not_a_text '' 3 'CVR\x01'
not_a_text '' 4 'CVR\x00'
not_a_text '' 2 'CVX\x00\x02'
not_a_text '' 5 'CVR\x00\x0140'
not_a_text '' 6 'CVR\x00\x0104'
not_a_text '' 6 'CVR\x00\x010'
not_a_text '' 5 'CVR\x00\x02'
not_a_text '' 6 'CVR\x00\x020'
not_a_text '' 6 'CVR\x00\x0204'
not_a_text '' 7 'CVR\x00\x0200'
not_a_text '' 0 '\xef\xbb\xbfCVR\x00\x0100'
not_a_text '' 0 'cvr\x00\x0100'
for heading in 'CVR\x01\x01' 'CVR\x01\x0200c' 'CVR\x02\x00' 'CVR\x00\x0300' 'CVR\x00\x00' 'CVR\xff\xff00NO' 'CVR\x00\x03???'; do
    printf '%b' "$heading" >bad.cvr
    try "another version" 'coverage check bad.cvr' '10 0 0 0 0 0 0 0\n' 10
    try "another version, listed" 'coverage list bad.cvr' '10\n' 10
    try "another version, asked" 'coverage ask bad.cvr N' '10\n' 10
done

# 65,536 bytes. A list of lists of lists .. whose innermost are (01234567), then the rest by hand
listed() { local i all=; for ((i = 0; i < $2; i++)); do all+=$i$1; done; printf '%s' "$all"; }
B="($(listed '(01234567)' 9))" && C="($(listed "$B" 9))" && D="($(listed "$C" 9))"
printf '%b' "${H}O($(listed "$D" 7)7($(listed "$C" 8)8(0${B}123456)))" >full.cvr
try "65,536 bytes" 'wc -c <full.cvr' '65536\n' ''
try "checked" 'coverage check full.cvr' "0 0 1 15 0 0 46086 $((46080 * 9 ** 10 + 6 * 9 ** 12))\n" ''
try "all its cells listed" 'coverage list full.cvr | wc -l' '46086\n' ''
try "asked" 'coverage ask full.cvr O783' 'yes\n' ''
try "from a pipe" 'coverage check <(cat full.cvr)' "0 0 1 15 0 0 46086 $((46080 * 9 ** 10 + 6 * 9 ** 12))\n" ''
try "listed and written again" 'coverage list full.cvr | coverage write 0 0' @full.cvr ''
coverage list full.cvr >full.names && (cat full.names; echo P) >longer.names
try "a list whose text has 65,537 bytes" 'coverage write 0 0 <longer.names' '' 13
try "13 comes after 11" '(cat longer.names; echo P0) | coverage write 0 0' '' 11
(cat full.cvr; printf P) >long.cvr
(cat full.cvr full.cvr full.cvr) >longest.cvr
for file in long.cvr longest.cvr /dev/zero; do
    try "over 65,536 bytes" "coverage check $file" '13 0 0 0 0 0 0 0\n' 13
    try "over 65,536 bytes, listed" "coverage list $file" '13\n' 13
    try "over 65,536 bytes, asked" "coverage ask $file O" '13\n' 13
done
(printf '%b' 'CVR\x00\x03'; cat full.cvr) >long.cvr
try "13 comes before 10" 'coverage check long.cvr' '13 0 0 0 0 0 0 0\n' 13

# writing
try "no names" 'coverage write 0 0 </dev/null' "$H" ''
try "an arrangement" 'coverage write 3 2 </dev/null' 'CVR\x00\x0132' ''
try "the paper's first text" "printf '%s\n' O P{0..8} | coverage write 0 0" "${H}OP" ''
try "the paper's second text" "printf 'P3\nP41\n' | coverage write 0 0" "${H}P(34(1))" ''
try "six faces" "printf '%s\n' N O P Q R S | coverage write 0 0" "${H}NOPQRS" ''
try "no line end after the last line" "printf 'P3\nP41' | coverage write 0 0" "${H}P(34(1))" ''
try "carriage returns before line ends" "printf 'P3\r\nP41\r\n' | coverage write 0 0" "${H}P(34(1))" ''
try "carriage returns alone" "printf 'P3\rP41\r' | coverage write 0 0" '' 'line 1: 3'
try "input in parts" "(printf P; sleep 0.1; printf '3\nP4'; sleep 0.1; printf '1\n') | coverage write 0 0" "${H}P(34(1))" ''
for names in 'P41\nP3' 'O\nN' 'P3\nP3' 'N\nN' 'O\nO1' 'O1\nO' 'O1\nO10' 'O\nO000000000000000' 'N\nP3\nP2\nS'; do
    try "names that do not rise, or one inside another" "printf '$names\n' | coverage write 0 0" '' 11
done
# a bad name comes before 11, and the first one is said
for pair in ':1' ' :1' 'T:1' 'p3:1' '3:1' '\xff:1' '\x00:1' '\r:1' 'P9:3' 'P3 :3' 'P3\x00:3' 'P\xe9:3' 'P3 P4:3' 'P\r\r:3' "P$(times 16 0):2" "$(times 17 x):2" \
    "$(times 64 P):2" "$(times 100000 P):2" "P3$(times 70 '\r'):2"; do
    try "a bad name" "printf '%b' 'P41\nP3\n${pair%:*}\nT9\n' | coverage write 0 0" '' "line 3: ${pair##*:}"
done
try "a bad name at the end" "printf 'P3\nT' | coverage write 0 0" '' 'line 2: 1'
try "an empty line" "printf 'P3\n\nP41\n' | coverage write 0 0" '' 'line 2: 1'
printf '%s\n' {N,O}{0..8}{0..8}{0..8}{0..8}{0..8} >names
try "65,536 names" 'head -n 65536 names | coverage write 0 0' "${H}NO(0(012345678(012345678(0(0123456)))))" ''
try "more than 65,536 names" 'head -n 65537 names | coverage write 0 0' "${H}NO(0(012345678(012345678(0(01234567)))))" ''
try "many more" 'coverage write 0 0 <names' "${H}NO" ''
try "many more for handhelds" 'coverage write 0 0 0 <names' 'CVR\x00\x0200aNO' ''
try "a bad name behind many more" '(cat names; echo T) | coverage write 0 0' '' 'line 118099: 1'
try "11 behind many more" '(cat names; echo N) | coverage write 0 0' '' 11
try "many more, one of them missing" "grep -v O88887 names | coverage write 0 0" "${H}NO(012345678(012345678(012345678(012345678(01234568)))))" ''
try "a bad name after 65,536 good ones" '(head -n 65536 names; echo T) | coverage write 0 0' '' 'line 65537: 1'
try "a bad name in an input that never ends" "yes X | coverage write 0 0" '' 'line 1: 1'
try "too many names in an input that never ends" "yes N | coverage write 0 0" '' 'line 65681: 13'
printf '%s\n' {N,O}{0..8}{0..8}{0..8}{0..8}{0..7} >apart.names
try "as many as are held, and none to merge" 'head -n 65680 apart.names | coverage write 0 0' '' 13
try "one more" 'coverage write 0 0 <apart.names' '' 'line 65681: 13'
deep=N
for i in 1 2 3 4 5 6 7 8 9 10 11 12 13 14 15; do printf '%s\n' "$deep"{0..7}; deep+=8; done >deep.names
try "the last of nine at each of fifteen depths" "(cat deep.names; echo $deep) | coverage write 0 0" "${H}N" ''
try "and not the last" "(cat deep.names; echo O) | coverage write 0 0 | wc -c" "$((7 + 1 + 8 * 15 + 14 + 2 * 15 + 1))\n" ''
# names of parts that are wholly there, many levels deeper than their cells, and their text by 01's words
for seed in 1 2 3; do
    python3 -c 'if True:
        import random, sys
        random.seed(int(sys.argv[1]))
        names = []

        def whole(name, levels):
            if levels == 0:
                names.append(name)
            else:
                for digit in "012345678":
                    whole(name + digit, levels - 1)

        def text(name, depth):
            # the text of one cell: None where nothing of it is there
            kind = random.choice("wwwpp" if depth < 5 else "wwww" if depth < 9 else "w")
            if depth > 0 and random.random() < 0.1:
                return None
            if kind == "w" and depth > 0:
                whole(name, random.choice((0, 0, 1, 2, 3)))
                return name[-1]
            parts = [text(name + digit, depth + 1) for digit in "012345678"]
            parts = [part for part in parts if part is not None]
            if not parts:
                return None
            if len(parts) == 9 and all(len(part) == 1 for part in parts):
                return name[-1]
            return name[-1] + "(" + "".join(parts) + ")"

        while len(names) < 100000:
            names.clear()
            body = "".join(filter(None, (text(face, 0) for face in "NOPQRS")))
        print("\n".join(names))
        open("wanted.cvr", "wb").write(b"CVR\0\1" + b"00" + body.encode())' $seed >many.names
    try "more than 100,000 names, seed $seed" 'coverage write 0 0 <many.names' @wanted.cvr ''
done
try "a folder as input" 'coverage write 0 0 <.' '' 'coverage: standard input: Is a directory'
try "an input that fails" "failing 'P3\nP4' coverage write 0 0" '' 'coverage: standard input: Resource temporarily unavailable'
try "no input" 'coverage write 0 0 <&-' '' 'coverage: standard input: Bad file descriptor'

# texts for handhelds: version 2, with a letter a to p for the greatest depth
H2='CVR\x00\x0200' # version 2 at (0, 0), up to the letter
depth=0
for letter in a b c d e f g h i j k l m n o p; do
    printf '%b' "${H2}${letter}NOS" >hand.cvr
    try "each depth checked" 'coverage check hand.cvr' "0 0 2 $depth 0 0 3 $((3 * 9 ** 15))\n" ''
    try "each depth listed" 'coverage list hand.cvr' 'N\nO\nS\n' ''
    try "each depth asked" 'coverage ask hand.cvr S8' 'yes\n' ''
    try "each depth written" "printf 'N\nO\nS\n' | coverage write 0 0 $depth" @hand.cvr ''
    try "no names" "coverage write 3 1 $depth </dev/null" "CVR\x00\x0231$letter" ''
    try "N0 to N8 pass as N" "printf '%s\n' N{0..8} S{0..8}{0..8} | coverage write 0 0 $depth" "${H2}${letter}NS" ''
    try "a divided cap" "printf '%s\n' N{0..7} | coverage write 0 0 $depth" '' 15
    try "the other cap" "printf '%s\n' P S{1..8} | coverage write 0 0 $depth" '' 15
    zeros=$(times $depth 0) lists=$(times $depth '(0') closed=$(times $depth ')')
    try "as deep as the depth" "echo P$zeros | coverage write 0 0 $depth" "${H2}${letter}P$lists$closed" ''
    if [ $depth -lt 15 ]; then
        try "one digit deeper" "echo P${zeros}0 | coverage write 0 0 $depth" '' 15
        try "nine that are one digit deeper" "printf '%s\n' P$zeros{0..8} | coverage write 0 0 $depth" "${H2}${letter}P$lists$closed" ''
        try "eight of them" "printf '%s\n' P$zeros{0..7} | coverage write 0 0 $depth" '' 15
    fi
    depth=$((depth + 1))
done
printf '%b' "${H2}cP(34(1))" >hand.cvr
try "the paper's text for handhelds" 'coverage check hand.cvr' '0 0 2 2 0 0 2 25418658283290\n' ''
try "its cells" 'coverage list hand.cvr' 'P3\nP41\n' ''
try "listed and written again" 'coverage list hand.cvr | coverage write 0 0 2' @hand.cvr ''
try "written as version 1" 'coverage list hand.cvr | coverage write 0 0' "${H}P(34(1))" ''
for name in P3 P38 P41 P418; do try "covered" "coverage ask hand.cvr $name" 'yes\n' ''; done
for name in P P4 P40 N; do try "not covered, or partly" "coverage ask hand.cvr $name" 'no\n' ''; done
printf '%b' 'CVR\x00\x0232aPQ' >hand.cvr
try "an arrangement of its own" 'coverage check hand.cvr' "0 0 2 0 3 2 2 $((2 * 9 ** 15))\n" ''
try "asked" 'coverage ask hand.cvr Q123' 'yes\n' ''
not_a_text 'P(34(1))' 12 "${H2}b"
not_a_text 'O(1)' 9 "${H2}a"
not_a_text 'N(1)' 9 "${H2}p"
not_a_text 'NS(1)' 10 "${H2}p"
not_a_text 'O(012345678' 18 "${H2}b"
not_a_text 'O(012345678' 19 "${H2}c"
not_a_text 'NO' 7 "$H2"
not_a_text 'NO' 7 "${H2}q"
not_a_text 'NO' 7 "${H2}A"
not_a_text 'NO' 7 "${H2}\`"
not_a_text 'NO' 7 "${H}a"
try "what is said of a list outside the profile" 'echo N4 | coverage write 0 0 2 2>&1 | cut -d : -f 1-2' 'coverage: refusal 15\n' ''
try "11 comes before 15" "printf 'P41\nN4\n' | coverage write 0 0 1" '' 11
try "a bad name comes before 15" "printf 'N4\nP9\n' | coverage write 0 0 1" '' 'line 2: 3'
try "15 comes before 13" '(echo N4; cat longer.names) | coverage write 0 0 15' '' 15
try "a list whose text of version 2 has 65,537 bytes" 'coverage write 0 0 5 <full.names' '' 13
head -n -1 full.names >fewer.names
try "one of 65,536" 'coverage write 0 0 5 <fewer.names | wc -c' '65536\n' ''
try "outside the profile, however long" 'coverage write 0 0 4 <full.names' '' 15

# there and back
sample=$root/examples/flight/flight.cvr
try "the sample listed and written" "coverage list '$sample' | coverage write 0 0" "@$sample" ''
coverage list "$sample" >sample.names
try "written and listed" 'coverage write 0 0 <sample.names >again.cvr; coverage list again.cvr' @sample.names ''
try "the sample flown" "record 0 0 9 <'$root/examples/flight/flight.txt'" "@$sample" 3972+0+0

# output that fails: standard error says so, once or more
for words in 'check two.cvr' 'list two.cvr' 'ask two.cvr P3' 'list full.cvr' 'write 0 0 <full.names'; do
    try "a full disk" "{ coverage ${words/</ <} >/dev/full; } 2>&1 | uniq >&2" '' 'standard output: No space left on device'
    try "no output" "{ coverage ${words/</ <} 3>&2 2>&1 >&- | uniq >&3; } 3>&2" '' 'standard output: Bad file descriptor'
done
