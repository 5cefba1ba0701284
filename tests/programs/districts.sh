# coverage summary: the districts, cells of resolution 2, that have anything, each with its name, its count and `done` or a percentage cut to a whole
# number; with a name, whether that cell is done. A district has 9^13 finest cells.

printf '%b' "${H}P(34(1))" >two.cvr
full=2541865828329
ten=
for name in P30 P31 P32 P33 P34 P35 P36 P37 P38 P41; do ten+="$name $full done\n"; done
try "districts that are done" 'coverage summary two.cvr' "$ten" ''
try "a pipe" 'coverage summary <(cat two.cvr)' "$ten" ''
try "no district has anything" 'coverage summary heading.cvr' '' ''
printf '%b' "${H}NOPQRS" >all.cvr
try "every district" "coverage summary all.cvr | grep -c ' $full done\$'" '486\n' ''
try "in code order" 'coverage summary all.cvr | cut -d " " -f 1 | sed -n "1p;2p;10p;81p;82p;486p"' 'N00\nN01\nN10\nN88\nO00\nS88\n' ''

# a ninth, nine ninths but one, one finest cell, and all but one
printf '%b' "${H}P(0(0(0)))" >part.cvr
try "a ninth" 'coverage summary part.cvr' 'P00 282429536481 11%\n' ''
printf '%b' "${H}P(0(0(01234567)))" >part.cvr
try "eight ninths" 'coverage summary part.cvr' 'P00 2259436291848 88%\n' ''
finest=$(times 13 '(0')$(times 13 ')')
printf '%b' "${H}S(8(8$finest))" >part.cvr # S88 and thirteen digits 0
try "one finest cell" 'coverage summary part.cvr' 'S88 1 0%\n' ''
rest='' # all of P00 but its last finest cell: at each depth the first eight, and a list of the ninth
for _ in 1 2 3 4 5 6 7 8 9 10 11 12 13; do rest="(01234567${rest:+8}$rest)"; done
printf '%b' "${H}P(0(0$rest))" >part.cvr
try "all but one finest cell" 'coverage summary part.cvr' 'P00 2541865828328 99%\n' ''
printf '%b' 'CVR\x00\x0200cP(34(1))' >hand.cvr
try "version 2" 'coverage summary hand.cvr' "$ten" ''
printf '%b' 'CVR\x00\x0121N(4)P(8(8(8)))' >other.cvr
try "another arrangement" 'coverage summary other.cvr | tail -n 2' "N48 $full done\nP88 282429536481 11%\n" ''

# questions by name
for name in P3 P30 P38 P41; do try "done" "coverage summary two.cvr $name" 'yes\n' ''; done
for name in P P4 P40 P42 N O Q S S88; do try "not done, or partly" "coverage summary two.cvr $name" 'no\n' ''; done
for name in N N4 S88 O3; do try "all of it" "coverage summary all.cvr $name" 'yes\n' ''; done
try "an arrangement of its own" 'coverage summary other.cvr N4' 'yes\n' ''
try "nothing is covered" 'coverage summary heading.cvr N' 'no\n' ''
try "version 2, asked" 'coverage summary hand.cvr P3' 'yes\n' ''
for name in P300 P410 P388888888888888; do try "a finer cell" "coverage summary two.cvr $name" '2\n' 2; done
for name in "''" T n 9 "' P3'" "$'\xff'"; do try "no letter N to S" "coverage summary two.cvr $name" '1\n' 1; done
for name in P9 P3x "'P3 '"; do try "no digit 0 to 8" "coverage summary two.cvr $name" '3\n' 3; done
for name in "P$(times 16 0)" "$(times 63 P)" "$(times 64 P)" "$(times 5000 P)"; do try "a name over 16 bytes" "coverage summary two.cvr $name" '2\n' 2; done

# refusals
printf '%b' "${H}O()" >bad.cvr
printf '%b' 'CVR\x00\x0300' >version.cvr
head -c 65537 /dev/zero >long.cvr
for name in '' P P300; do # a finer cell is found out by the text's own arrangement
    try "no text" "coverage summary bad.cvr $name" '9\n' '9 at place 9'
    try "another version" "coverage summary version.cvr $name" '10\n' 10
    try "a long text" "coverage summary long.cvr $name" '13\n' 13
done
try "a bad name comes before a bad text" 'coverage summary bad.cvr P9' '3\n' 3
try "no such file" 'coverage summary missing' '' 'coverage: missing: No such file or directory'
try "no such file, asked" 'coverage summary missing P' '' 'coverage: missing: No such file or directory'
for words in summary 'summary a P b' 'summarys a' 'summar a' 'SUMMARY a' 'summaries a P'; do
    try "wrong arguments" "coverage $words" '' 'usage coverage'
done
