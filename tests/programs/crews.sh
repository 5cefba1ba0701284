# compare: what two texts cover, as three listings. Standard error says which file is refused.

for words in '' two.cvr 'two.cvr two.cvr two.cvr' '--help'; do try "wrong arguments" "compare $words" '' 'usage compare'; done

# names one a line, an empty line after each listing
printf '%b' "${H}OP(34(1))" >one.cvr
printf '%b' "${H}O(12)P(4)" >two.cvr
printf '%b' "$H" >heading.cvr
only_first='O0\nO3\nO4\nO5\nO6\nO7\nO8\nP3\n'
only_second='P40\nP42\nP43\nP44\nP45\nP46\nP47\nP48\n'
both='O1\nO2\nP41\n'
try "three listings" 'compare one.cvr two.cvr' "$only_first\n$only_second\n$both\n" ''
try "the files exchanged" 'compare two.cvr one.cvr' "$only_second\n$only_first\n$both\n" ''
try "a text and itself" 'compare one.cvr one.cvr' '\n\nO\nP3\nP41\n\n' ''
try "a text and nothing" 'compare one.cvr heading.cvr' 'O\nP3\nP41\n\n\n\n' ''
try "nothing and a text" 'compare heading.cvr one.cvr' '\nO\nP3\nP41\n\n\n' ''
try "nothing and nothing" 'compare heading.cvr heading.cvr' '\n\n\n' ''
printf '%b' "${H}NOPQRS" >all.cvr
try "all and a part" 'compare all.cvr two.cvr | tail -n 6' '\n\nO1\nO2\nP4\n\n' ''
try "all and a part, the first lines" 'compare all.cvr two.cvr | head -n 3' 'N\nO0\nO3\n' ''
printf '%b' "${H}P(012345678(01234567))" >eight.cvr
printf '%b' "${H}P(8(8))" >ninth.cvr
printf '%b' "${H}P" >face.cvr
try "the fewest cells" 'compare face.cvr ninth.cvr' 'P0\nP1\nP2\nP3\nP4\nP5\nP6\nP7\nP80\nP81\nP82\nP83\nP84\nP85\nP86\nP87\n\n\nP88\n\n' ''
try "the other way about" 'compare eight.cvr face.cvr' '\nP88\n\nP0\nP1\nP2\nP3\nP4\nP5\nP6\nP7\nP80\nP81\nP82\nP83\nP84\nP85\nP86\nP87\n\n' ''
try "pipes" 'compare <(cat one.cvr) <(cat two.cvr)' "$only_first\n$only_second\n$both\n" ''
cp one.cvr -- -one
try "a file name with a dash" 'compare -one two.cvr' "$only_first\n$only_second\n$both\n" ''

# both versions and every depth that the text has room for
for letter in c d o p; do
    printf '%b' "${H2}${letter}OP(34(1))" >hand.cvr
    try "version 2 and version 1" 'compare hand.cvr two.cvr' "$only_first\n$only_second\n$both\n" ''
    try "version 1 and version 2" 'compare two.cvr hand.cvr' "$only_second\n$only_first\n$both\n" ''
    printf '%b' "${H2}bO(12)P(4)" >shallow.cvr
    try "two depths" 'compare hand.cvr shallow.cvr' "$only_first\n$only_second\n$both\n" ''
done

# n and s: they agree, or 14
for n in 0 1 2 3; do
    for s in 0 1 2 3; do
        printf '%b' "CVR\x00\x01$n${s}OP(34(1))" >other.cvr
        printf '%b' "CVR\x00\x01$n${s}O(12)P(4)" >another.cvr
        try "each arrangement" 'compare other.cvr another.cvr' "$only_first\n$only_second\n$both\n" ''
        [ $n$s = 00 ] || try "another arrangement" 'compare other.cvr two.cvr' '14\n' 14
        [ $n$s = 00 ] || try "another arrangement second" 'compare two.cvr other.cvr' '14\n' 14
    done
done
try "what is said of two arrangements" 'compare other.cvr two.cvr 2>&1' '14\ncompare: refusal 14: the two texts differ in n or s\n' ''

# "one it can't read counts as empty", which is no text; the first file is judged before the second
try "no first file" 'compare missing two.cvr' '9\n' 'compare: missing: No such file or directory; 9 at place 0'
try "no second file" 'compare two.cvr missing' '9\n' 'compare: missing: No such file or directory; 9 at place 0'
try "neither" 'compare missing other_missing' '9\n' 'compare: missing: No such file or directory; compare: other_missing: No such file or directory; 9 at place 0'
try "a folder" 'compare . two.cvr' '9\n' 'compare: .: Is a directory; 9 at place 0'
try "which of them, the first" 'compare missing two.cvr 2>&1 | tail -n 1' 'compare: the first file: refusal 9 at place 0: not a coverage text\n' ''
try "which of them, the second" 'compare two.cvr missing 2>&1 | tail -n 1' 'compare: the second file: refusal 9 at place 0: not a coverage text\n' ''
printf '' >empty.cvr
try "an empty file" 'compare empty.cvr two.cvr' '9\n' '9 at place 0'
printf '%b' "${H}O(012345678)" >bad.cvr
printf '%b' "${H}O()" >worse.cvr
printf '%b' 'CVR\x00\x0300' >newer.cvr
(cat full.cvr; printf P) >long.cvr
try "a bad first text" 'compare bad.cvr two.cvr' '9\n' '9 at place 18'
try "a bad second text" 'compare two.cvr bad.cvr' '9\n' '9 at place 18'
try "two bad texts" 'compare bad.cvr worse.cvr' '9\n' '9 at place 18'
try "two bad texts, exchanged" 'compare worse.cvr bad.cvr' '9\n' '9 at place 9'
try "the first text is bad" 'compare bad.cvr worse.cvr 2>&1' '9\ncompare: the first file: refusal 9 at place 18: not a coverage text\n' ''
try "the second text is bad" 'compare two.cvr bad.cvr 2>&1' '9\ncompare: the second file: refusal 9 at place 18: not a coverage text\n' ''
try "another version" 'compare newer.cvr two.cvr' '10\n' 10
try "another version second" 'compare two.cvr newer.cvr' '10\n' 10
try "the first text's 9 comes before the second's 10" 'compare bad.cvr newer.cvr' '9\n' '9 at place 18'
try "the first text's 10 comes before the second's 13" 'compare newer.cvr long.cvr' '10\n' 10
try "the first text's 13" 'compare long.cvr bad.cvr' '13\n' 13
try "the second text's 13" 'compare two.cvr long.cvr' '13\n' 13
try "an endless file" 'compare /dev/zero two.cvr' '13\n' 13
printf '%b' 'CVR\x00\x0132O()' >worse.cvr
try "the second text's 9 comes before 14" 'compare two.cvr worse.cvr' '9\n' '9 at place 9'

# 65,536 bytes, and 65,536 codes a listing: its text covers far more cells of the face than that in part
try "65,536 bytes and itself" 'compare full.cvr full.cvr | wc -l' '46089\n' ''
try "65,536 bytes and its cells" "compare full.cvr heading.cvr | head -n 46086" @full.names ''
try "65,536 bytes and all faces" 'compare full.cvr all.cvr | tail -n 46087 | head -n 46086' @full.names ''
digits=$(times 13 '(0') closed=$(times 13 ')')
deep=
for first in 0 1 2 3 4 5 6 7 8; do for second in 0 1 2 3 4 5 6 7 8; do deep+="$second$digits$closed"; done; rows+="$first($deep)" deep=; done
body="($rows)"
printf '%b' "${H}N${body}O${body}P${body}Q${body}R${body}S${body}" >deep.cvr
try "a listing of $((6 * 81 * 13 * 8)) cells" 'compare deep.cvr all.cvr | wc -l' "$((6 * 81 * (13 * 8 + 1) + 3))\n" ''
