# coverage sheet: ours written, a partner's checked. A record is five 64-bit numbers, low byte first: a code, and its neighbours' up, right, down, left.

# N S NAME: the code of a name, "(face x 9^15 + path x 9^(15-k)) x 16 + k", 16 times that "plus 4n + s"
code() {
    local name=$3 path=0 digit i
    for ((i = 1; i <= 15; i++)); do
        digit=${name:i:1}
        path=$((9 * path + ${digit:-0}))
    done
    echo $(((((($(printf '%d' "'$name") - 78) * 205891132094649 + path) * 16 + ${#name} - 1) * 16) + 4 * $1 + $2))
}

# N S NAME..: the bytes of these names' codes
sheet() {
    local n=$1 s=$2 name rest i
    shift 2
    for name; do
        rest=$(code "$n" "$s" "$name")
        for ((i = 0; i < 8; i++)); do
            printf '%b' "\\x$(printf '%02x' $((rest % 256)))"
            rest=$((rest / 256))
        done
    done
}

# FILE SHEET ANSWER
told() { try "a sheet of $1" "coverage sheet $1 $2" "$3\n" "${4-}"; }

p3='P3 P0 P4 P6 O5' p41='P41 P17 P42 P44 P40' # 01: rows and columns of the belt
printf '%b' "${H}P(34(1))" >two.cvr
printf '%b' "${H2}cP(34(1))" >hand.cvr
printf '%b' "$H" >heading.cvr
printf '' >empty
sheet 0 0 $p3 $p41 >ours
try "our sheet" 'coverage sheet two.cvr' @ours ''
try "our sheet, on a handheld" 'coverage sheet hand.cvr' @ours ''
try "no cell" 'coverage sheet heading.cvr' '' ''
try "a pipe" 'coverage sheet <(cat two.cvr)' @ours ''
told two.cvr ours yes
told hand.cvr ours yes
told heading.cvr empty yes
told two.cvr '<(cat ours)' yes
told two.cvr '<(head -c 33 ours; sleep 0.2; tail -c 47 ours)' yes

# 01's line 9: P0's neighbours; N8 at n = 0, N6 at n = 1
sheet 0 0 P0 N8 P1 P3 O2 >corner
printf '%b' "${H}P(0)" >corner.cvr
told corner.cvr corner yes
sheet 1 0 P0 N6 P1 P3 O2 >turned
printf '%b' 'CVR\x00\x0110P(0)' >turned.cvr
told turned.cvr turned yes
told turned.cvr corner 'no 0'
told corner.cvr turned 'no 0'
sheet 1 0 P0 N8 P1 P3 O2 >unturned
told turned.cvr unturned 'no 0'
for n in 0 1 2 3; do
    for s in 0 1 2 3; do
        printf '%b' "CVR\x00\x01$n${s}P(34(1))" >other.cvr
        sheet $n $s $p3 $p41 >others
        try "each arrangement" 'coverage sheet other.cvr' @others ''
        told other.cvr others yes
        [ $n$s = 00 ] || told other.cvr ours 'no 0'
    done
done

# a no names the first record that is not ours
sheet 0 0 $p41 $p3 >swapped
told two.cvr swapped 'no 0'
sheet 0 0 $p3 $p3 >twice
told two.cvr twice 'no 1'
sheet 0 0 $p3 P41 P42 P17 P44 P40 >exchanged
told two.cvr exchanged 'no 1'
sheet 0 0 P3 P4 P0 P6 O5 $p41 >first
told two.cvr first 'no 0'
sheet 0 0 $p3 P4 P1 P5 P7 P3 >another
told two.cvr another 'no 1'
sheet 0 0 $p3 $p41 P5 P2 Q3 P8 P4 >more
told two.cvr more 'no 2'
for cut in 0 1 8 39; do
    head -c $cut ours >part
    told two.cvr part 'no 0'
    cat ours part >longer
    [ $cut = 0 ] || told two.cvr longer 'no 2'
done
for cut in 40 41 48 79; do
    head -c $cut ours >part
    told two.cvr part 'no 1'
done
head -c 1 /dev/zero >zero
told heading.cvr zero 'no 0'
python3 - <<'PYTHON'
ours = open("ours", "rb").read()
open("high", "wb").write(b"".join(ours[at : at + 8][::-1] for at in range(0, 80, 8)))
PYTHON
told two.cvr high 'no 0'

# long sheets, in parts
{ printf '%b' "CVR\x00\x0100"; python3 -c "
def nodes(depth):
    return '01234567' if depth == 0 else ''.join(f'{d}({nodes(depth - 1)})' for d in range(9))
print(''.join(f'{face}({nodes(3)})' for face in 'NOPQRS'), end='')"; } >many.cvr
coverage check many.cvr | cut -d ' ' -f 1,7 >said_of_many
try "many cells" 'cat said_of_many' '0 34992\n' ''
coverage sheet many.cvr >many.sheet
try "as many records" 'wc -c <many.sheet' '1399680\n' ''
told many.cvr many.sheet yes
told many.cvr '<(cat many.sheet)' yes
for at in 0 65519 65520 65536 131040 1399679; do
    { head -c $at many.sheet; printf '%b' '\xff'; tail -c +$((at + 2)) many.sheet; } >spoilt
    told many.cvr spoilt "no $((at / 40))"
    head -c $at many.sheet >part
    told many.cvr part "no $((at / 40))"
done
cat many.sheet many.sheet >longer
told many.cvr longer 'no 34992'
told many.cvr /dev/zero 'no 0'
told heading.cvr /dev/zero 'no 0'

# the text's refusals; in writing nothing is printed
printf '%b' "${H}O()" >bad.cvr
printf '%b' 'CVR\x00\x0300' >version.cvr
head -c 65537 /dev/zero >long.cvr
told bad.cvr ours 9 '9 at place 9'
told version.cvr ours 10 10
told long.cvr ours 13 13
try "no text" 'coverage sheet bad.cvr' '' '9 at place 9'
try "another version" 'coverage sheet version.cvr' '' 10
try "a long text" 'coverage sheet long.cvr' '' 13
try "no such file" 'coverage sheet missing' '' 'coverage: missing: No such file or directory'
try "no such file, with a sheet" 'coverage sheet missing ours' '' 'coverage: missing: No such file or directory'

# a sheet that cannot be read counts as empty
told two.cvr missing 'no 0' 'coverage: missing: No such file or directory'
told heading.cvr missing yes 'coverage: missing: No such file or directory'
told two.cvr . 'no 0' 'coverage: .: Is a directory'
told heading.cvr . yes 'coverage: .: Is a directory'
for words in sheet 'sheet a b c' 'sheets a' 'SHEET a'; do
    try "wrong arguments" "coverage $words" '' 'usage coverage'
done
