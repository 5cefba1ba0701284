# record and name_fixes: the lines of a flight. Cells are those of 01's table, or are worked out by hand.

# WHAT LINES SETTING NAMES TEXT SAID: both programs on the same lines; record says which it left out, and counts: a line without a name is refused with 6.
fly() {
    local lines bad
    lines=$(printf '%b' "$4" | wc -l) bad=$(printf '%b' "$4" | grep -c '^6$')
    try "$1" "printf '%b' '$2' | name_fixes $3" "$4" ''
    try "$1" "printf '%b' '$2' | record $3" "$H$5" "${6:+$6; }$((lines - bad))+$bad+0"
}

fly "nothing flown" '' '0 0 9' '' '' ''
fly "line 1 of the table" '0 0\n' '0 0 2' 'Q33\n' 'Q(3(3))' ''
fly "lines 2 to 4" '7 1000000000000000000\n-1350000000 666666666666666666\n-1350000000 666666666666666667\n' '0 0 1' 'N4\nO1\nN7\n' 'N(47)O(1)' ''
fly "lines 5 and 7" '-900000000 880000000000000000\n-900000000 -880000000000000000\n' '0 0 1' 'N8\nS2\n' 'N(8)S(2)' ''
try "line 6" "echo -900000000 880000000000000000 | name_fixes 1 0 1" 'N6\n' ''
try "line 6, recorded" "echo -900000000 880000000000000000 | record 1 0 1" 'CVR\x00\x0110N(6)' 1+0+0
fly "line 8" '-1350000000 970000000000000000\n' '0 0 2' 'N47\n' 'N(4(7))' ''
fly "a hair from an edge" '-1350000000 962962962962962962\n-1350000000 962962962962962963\n' '0 0 1' 'N7\nN4\n' 'N(47)' ''
fly "a cell twice" '0 0\n1 1\n0 0\n' '0 0 1' 'Q3\nQ3\nQ3\n' 'Q(3)' ''
try "another arrangement" "echo 0 0 | record 3 2 0" 'CVR\x00\x0132Q' 1+0+0
nine=
for row in 444444444444444444 0 -444444444444444444; do
    for column in -1650000000 -1350000000 -1050000000; do nine+="$column $row\n"; done
done
fly "nine children are their parent" "$nine" '0 0 1' 'O0\nO1\nO2\nO3\nO4\nO5\nO6\nO7\nO8\n' 'O' ''
fly "the ends of the ranges" '-1800000000 0\n1799999999 0\n1800000000 0\n0 1000000000000000000\n0 -1000000000000000000\n' '0 0 0' 'O\nR\nO\nN\nS\n' 'NORS' ''
fly "the receiver that says 180" '1800000000 0\n-1800000000 0\n1800000000 880000000000000000\n' '0 0 1' 'O3\nO3\nN6\n' 'N(6)O(3)' ''
fly "resolution 15 at a pole" '5 1000000000000000000\n' '0 0 15' 'N444444444444444\n' 'N(4(4(4(4(4(4(4(4(4(4(4(4(4(4(4)))))))))))))))' ''

# with an eccentricity the lines are `longitude sine`. On WGS84 the sine 0.668 is z = 0.66634.., in the belt; on a sphere it is z, past the belt
fly "a geodetic latitude on WGS84" '-1350000000 668000000000000000\n-1350000000 -668000000000000000\n' '0 0 1 6694379990' 'O1\nO7\n' 'O(17)' ''
fly "the same numbers on a sphere" '-1350000000 668000000000000000\n-1350000000 -668000000000000000\n' '0 0 1 0' 'N7\nS1\n' 'N(7)S(1)' ''
fly "the same numbers without an eccentricity" '-1350000000 668000000000000000\n-1350000000 -668000000000000000\n' '0 0 1' 'N7\nS1\n' 'N(7)S(1)' ''
fly "poles, the equator and the antimeridian on the flattest ellipsoid" '5 1000000000000000000\n5 -1000000000000000000\n0 0\n1800000000 0\n' '0 0 1 10000000000' 'N4\nS4\nQ3\nO3\n' 'N(4)O(3)Q(3)S(4)' ''
try "another arrangement on WGS84" "echo -900000000 880000000000000000 | record 1 0 1 6694379990" 'CVR\x00\x0110N(6)' 1+0+0
for line in x '' '0 1000000000000000001' '0 -1000000000000000001' '1800000001 0' '0 0 6694379990' '0 9223372036854775808'; do
    fly "a line that is no fix, or one out of range, on WGS84" "$line\n0 0\n" '0 0 0 6694379990' '6\nQ\n' 'Q' 'line 1: 6'
done

# line ends
fly "no line end after the last line" '0 0\n-1800000000 0' '0 0 0' 'Q\nO\n' 'OQ' ''
fly "a last line that is no fix and has no end" '0 0\nx' '0 0 0' 'Q\n6\n' 'Q' 'line 2: 6'
fly "carriage returns before line ends" '0 0\r\n-1800000000 0\r\n' '0 0 0' 'Q\nO\n' 'OQ' ''
fly "carriage returns alone" '0 0\r-1800000000 0\r' '0 0 0' '6\n' '' 'line 1: 6'
fly "a carriage return as a line" '\r\n0 0\n' '0 0 0' '6\nQ\n' 'Q' 'line 1: 6'
fly "empty lines" '\n0 0\n\n\n' '0 0 0' '6\nQ\n6\n6\n' 'Q' 'line 1: 6; line 3: 6; line 4: 6'
fly "line numbers go on" 'x\n0 0\ny\n0 0\nz\n' '0 0 0' '6\nQ\n6\nQ\n6\n' 'Q' 'line 1: 6; line 3: 6; line 5: 6'

# lines that are no fixes, and fixes out of range; the flight goes on after each
bad=(5 '1 2 3' 'a b' '0 a' '0x0 0' '0  0' '0\t0' '+0 0' '0 +0' '0.5 0' '0 0.5' '0,0' '0 ' ' 0' ' 0 0' '0 0 ' '- 0' '0 -' '--1 0' '-' '1e3 0' '0 0\r\r'
    '12345678901234567890 0' '0 12345678901234567890' '9223372036854775808 0' '0 9223372036854775808' '-9223372036854775808 0'
    '0 -9223372036854775808' '9223372036854775807 0' '18446744073709551616 0' '1800000001 0' '-1800000001 0' '0 1000000000000000001'
    '0 -1000000000000000001' '4294967296 0' '\xff\xfe 0' '0 \x80' '\xc2\xa00 0' '0\x00 0' '0 0\x00' '\x00' '\xef\xbb\xbf0 0'
    "$(times 100000 1)" "$(times 100000 0) 0" "0 0$(times 100000 ' ')" "$(times 64 7)" "0 0$(times 60 ' ')\r" "0 0$(times 61 ' ')\r")
for line in "${bad[@]}"; do
    fly "a line that is no fix, or one out of range" "$line\n0 0\n" '0 0 0' '6\nQ\n' 'Q' 'line 1: 6'
done

# input and output that fail. What was flown before that is written
counted() { [ "$1" = record ] && echo "; $2"; }
for program in record name_fixes; do
    head=$([ $program = record ] && echo "CVR\x00\x0100")
    try "a folder as input" "$program 0 0 9 <." "$head" "$program: standard input: Is a directory$(counted $program 0+0+0)"
    try "no input" "$program 0 0 9 <&-" "$head" "$program: standard input: Bad file descriptor$(counted $program 0+0+0)"
    try "a full disk" "echo 0 0 | $program 0 0 9 >/dev/full" '' "standard output: No space left on device$(counted $program 1+0+0)"
    try "no output" "echo 0 0 | $program 0 0 9 >&-" '' "standard output: Bad file descriptor$(counted $program 1+0+0)"
done
try "input in parts" "(printf 0; sleep 0.1; printf ' '; sleep 0.1; printf '0\n1 0') | name_fixes 0 0 0" 'Q\nQ\n' ''
try "input in parts" "(printf 0; sleep 0.1; printf ' '; sleep 0.1; printf '0\n1 0') | record 0 0 0" "${H}Q" 2+0+0

failure='standard input: Resource temporarily unavailable'
try "an input that fails in a line: the lines before it are named" "failing '0 0\n0 0\n1 0' name_fixes 0 0 0" 'Q\nQ\n' "name_fixes: $failure"
try "an input that fails at a line's end" "failing '0 0\n' name_fixes 0 0 0" 'Q\n' "name_fixes: $failure"
try "an input that fails in its first line" "failing '0 0' record 0 0 0" "$H" "record: $failure; 0+0+0"
for text in '0 0\n' '0 0\n-900000000 0'; do
    try "an input that fails: what was flown is written" "failing '$text' record 0 0 0" "${H}Q" "record: $failure; 1+0+0"
done

try "an input that never ends, and a reader who leaves" 'yes 0 0 | name_fixes 0 0 0 | head -n 2' 'Q\nQ\n' ''

# long flights. Once round the equator at resolution 3 is row 13, 111 in base three, so every digit is 3, 4 or 5
# COUNT LONGITUDE Z: so many lines, with Python's words for longitude and z over i
lines() { python3 -c "for i in range($1): print($2, $3)"; }
lines 100000 'i * 36000 - 1800000000' 0 >round
A='(3(345)4(345)5(345))'
printf '%b' "$H$(for face in O P Q R; do printf '%s' "$face(3${A}4${A}5$A)"; done)" >round.cvr
try "100,000 fixes" 'record 0 0 3 <round' @round.cvr 100000+0+0
try "the same flown back" 'tac round | record 0 0 3' @round.cvr 100000+0+0
try "the same in any order" 'shuf --random-source=round round | record 0 0 3' @round.cvr 100000+0+0
try "100,000 names" 'name_fixes 0 0 0 <round | uniq -c | tr -d " "' '25000O\n25000P\n25000Q\n25000R\n' ''
try "100,000 names to a full disk" 'name_fixes 0 0 0 <round >/dev/full' '' 'standard output: No space left on device'
try "a late line" '(cat round; echo x) | record 0 0 3' @round.cvr 'line 100001: 6; 100000+1+0'

# more than 65,536 cells: a text is all that is held, and all of O to R is four letters
python3 -c "if True:
    for i in range(324):
        for j in range(324): print(j * 11111112 - 1799000000, 664000000000000000 - i * 4100000000000000)" >all
try "each in a cell of its own" 'name_fixes 0 0 4 <all | sort -u | wc -l' '26244\n' ''
try "as many cells as there are" 'record 0 0 4 <all' "${H}OPQR" 104976+0+0

# a text that is full: each fix that does not fit is refused with 13, and the flight goes on. What is to come of it is worked out here: along the equator of
# face Q, in cells that share no list of nine, a fix whose first p letters are there makes the text 46 - 3p bytes longer
lines 10000 'i * 90000' 0 >far
python3 - <<'END'
def name(longitude): # in the middle row, whose digits are all 1: each digit of the name is 3 and the column's
    column = longitude * 3**15 // 900000000
    return 'Q' + ''.join(str(3 + column // 3**i % 3) for i in range(14, -1, -1))
def text(names, p=0): # of names that begin alike, from their letter p on
    if len(names[0]) == p: return ''
    heads = sorted({name[p] for name in names})
    inner = ''.join(head + text([name for name in names if name[p] == head], p + 1) for head in heads)
    return '(' * (p > 0) + inner + ')' * (p > 0)
there, names, refused, length = {''}, [], [], 7
for line in range(1, 10001):
    new = name((line - 1) * 90000)
    p = max(p for p in range(17) if new[:p] in there)
    more = 46 - 3 * p if p < 16 else 0
    if length + more > 65536:
        refused.append(line)
        continue
    length += more
    there.update(new[:q] for q in range(17))
    names.append(new)
def put(file, body): open(file, 'wb').write(b'CVR\0\x0100' + body.encode())
put('far.wanted', text(names))
put('first.wanted', text(names[:refused[0] - 1]))
open('far.refused', 'w').write(''.join(f'{line}\n' for line in refused))
open('far.counts', 'w').write(f'{len(names)} {len(refused)} {refused[0] - 1}\n')
assert length == len(text(names)) + 7
END
read -r taken full before <far.counts
try "a full text: the fixes that fit, as they come" 'record 0 0 15 <far 2>far.said' @far.wanted ''
try "a full text is accepted" 'coverage check far.wanted | cut -d " " -f 1-7' "0 0 1 15 0 0 $taken\n" ''
try "each refused line is said" "sed -n 's/^record: line \([0-9]*\): refusal 13: .*/\1/p' far.said" @far.refused ''
try "and counted" 'tail -n 1 far.said' "record: $taken fixes taken, 0 lines refused with 6, $full with 13\n" ''
try "the fixes before the first of them" "head -n $before far | record 0 0 15" @first.wanted "$before+0+0"
try "ground that is there is taken after that" "(cat far; head -n 5 far; echo 0 0; echo x) | record 0 0 15 2>again.said" @far.wanted ''
try "and counted" 'tail -n 1 again.said' "record: $((taken + 6)) fixes taken, 1 line refused with 6, $full with 13\n" ''
