# The self-checks: texts whose answers document 01 and, for bands and sums, R-1 and R-3 of document 02 give, or follow from them
# by hand, to the scorer and to `watch` alike. To be sourced by `run`.

# expect NAME PATTERN RECORD ANSWER: the answer of both programs to two texts given here. The word `missing` leaves the file
# out, `folder` puts a folder in its place. Every other text gets a last line feed, and the answer too.
# A case that the generator has, too, is not run again. The folders of all of them stay below $work/selves.
selves=0
put() {
    case $2 in
    missing) ;;
    folder) mkdir "$1" ;;
    *) printf '%s\n' "$2" >"$1" ;;
    esac
}
# what the scorer and `watch` answered to the case that has the files of this folder, if there is one
declare -A known=()
while read -r pattern record number; do known[$pattern $record]=$number; done <"$cases/sums"
expect() {
    local program got number sums right=1
    selves=$((selves + 1))
    mkdir -p "$work/selves" "$work/self/now" && cd "$work/self/now" || exit 2
    put pattern.txt "$2"
    put record.txt "$3"
    sums=$(sums_of "$work/self")
    number=${known[${sums% *}]:-}
    for program in "$cases/scorer" "$watch"; do
        case $number,$program in
        ,*) got=$("$program" 2>/dev/null) || got="$got, status $?" ;;
        *scorer) got=$(cat "$cases/expected/$number") ;;
        *) got=$(cat "$cases/watched/$number") ;;
        esac
        [ "$got" = "$4" ] || { right=0; echo "$1, ${program##*/}: $got"; }
    done
    cd "$work" && mv self/now "selves/self$selves" || exit 2
    if [ "$right" -eq 1 ]; then pass; else fail "$1"; fi
}
# swap TEXT FROM TO: the text with one part changed.
swap() { printf '%s' "$1" | sed "s/$2/$3/"; }
repeat() { i=0; while [ $i -lt "$1" ]; do printf '%s' "$2"; i=$((i + 1)); done; }

margin='(pattern margin 1 1 1 4)
(place start (< 0 15))
(place plain (> 0 5))
(place end)
(edge 0 1 (< 0 3) (reset 0))
(edge 1 2 (<= 0 2))'
sum=$(swap "$margin" margin sum)
record='(piece 2 10)
(piece 2 40)'
single='(piece 1 10)
(piece 1 10)
(piece 1 40)
(piece 1 40)'
none='end begin score
best none'
margin_answer='end begin score
2 0 5
3 1 5
4 1 5
best 2 0 5'
sum_answer='end begin score
2 0 10
3 1 40
4 2 10
best 2 0 10'

# The paper's example under both weightings (end 1 has no run), and with its pieces cut.
expect "example, margin" "$margin" "$record" "$margin_answer"
expect "example, sum" "$sum" "$record" "$sum_answer"
expect "example, margin, cut" "$margin" "$single" "$margin_answer"
expect "example, sum, cut" "$sum" "$single" "$sum_answer"

# "Sum, begin 0, edges 0 then 1, stays 2 and 1: 40": the best of length 3 with end 3 (stays 1 and 2: 45).
expect "sum, length 3" "$(swap "$sum" '1 4)' '3 3)')" "$record" 'end begin score
3 0 40
4 1 15
best 4 1 15'
# "Same edges, stays 3 and 1: refusal 10": as a run it would have 15. Stays 2 and 2 have 40.
expect "sum, length 4" "$(swap "$sum" '1 4)' '4 4)')" "$record" 'end begin score
4 0 40
best 4 0 40'

# The other edge values, as far as watch shows them.
expect "bound 1000000" "$(swap "$margin" 15 1000000)" '(piece 2 1000000)' 'end begin score
2 0 0
best 2 0 0'
expect "bound 1000001" "$(swap "$margin" 15 1000001)" "$record" 'refused 3'
expect "bound -1000000" "$(swap "$margin" 15 -1000000)" '(piece 2 1000000)' 'end begin score
2 0 -2000000
best 2 0 -2000000'
expect "bound -1000001" "$(swap "$margin" 15 -1000001)" "$record" 'refused 3'
expect "bound -0" "$(swap "$margin" 15 -0)" "$record" 'refused 2'
expect "window 4 3" "$(swap "$margin" '1 4)' '4 3)')" "$record" 'refused 3'
expect "16 places" "(pattern margin 1 0 1 4)$(repeat 16 '
(place both)')" "$record" "$none"
expect "17 places" "(pattern margin 1 0 1 4)$(repeat 17 '
(place both)')" "$record" 'refused 4'
expect "32 edges" "(pattern margin 1 0 2 2)
(place both)$(repeat 32 '
(edge 0 0)')" '(piece 2 7)' 'end begin score
2 0 2000001
best 2 0 2000001'
expect "33 edges" "(pattern margin 1 0 2 2)
(place both)$(repeat 33 '
(edge 0 0)')" '(piece 2 7)' 'refused 4'
# The sizes count the last line feed.
expect "8192 bytes" "(pattern margin 1 0 1 4)
$(repeat 8166 x)" "$record" 'refused 2'
expect "8192 bytes, fault 3" "(pattern margin 1 0 1 4$(repeat 8167 0))" "$record" 'refused 3'
expect "8193 bytes" "(pattern margin 1 0 1 4$(repeat 8168 0))" "$record" 'refused 1'
expect "a guard never met" "$(swap "$margin" '(<= 0 2)' '(<= 0 0)')" "$record" "$none"
expect "the word Start" "$(swap "$margin" start Start)" "$record" 'refused 2'

# Cells: (high + 1) x 2 x 2 places, no clocks: 2,048 with high 511.
cells='(pattern margin 1 0 1 511)
(place start (> 0 2))
(place end)
(edge 0 1)'
expect "2048 cells" "$cells" '(piece 1 5)' 'end begin score
1 0 3
best 1 0 3'
expect "2052 cells" "$(swap "$cells" 511 512)" '(piece 1 5)' 'refused 11'
expect "2052 cells, no record" "$(swap "$cells" 511 512)" missing 'refused 11'
expect "8 before 11" "$(swap "$cells" 511 512)" '(piece 0 5)' 'refused 8'

# The traps.
expect "long piece once" '(pattern sum 1 0 3 3)
(place start (> 0 0))
(place end)
(edge 0 1)' '(piece 3 7)' 'end begin score
3 0 7
best 3 0 7'
expect "cut piece once" '(pattern sum 1 0 3 3)
(place start (> 0 0))
(place end)
(edge 0 1)' '(piece 1 7)
(piece 2 7)' 'end begin score
3 0 7
best 3 0 7'
expect "once for each stay" '(pattern sum 1 0 3 3)
(place start (> 0 0))
(place plain (> 0 0))
(place end)
(edge 0 1)
(edge 1 2)' '(piece 3 7)' 'end begin score
3 0 14
best 3 0 14'
expect "the guard (> 0 3) fires" '(pattern margin 1 1 1 5)
(place start)
(place end)
(edge 0 1 (> 0 3))' '(piece 5 0)' 'end begin score
4 0 2000001
5 1 2000001
best 4 0 2000001'
expect "no two edges without a stay" '(pattern margin 1 0 1 4)
(place start)
(place plain)
(place end)
(edge 0 1)
(edge 1 2)' '(piece 1 0)' "$none"
expect "guards before resets" '(pattern margin 1 1 1 1)
(place start)
(place end)
(edge 0 1 (>= 0 1) (reset 0))' '(piece 1 0)' 'end begin score
1 0 2000001
best 1 0 2000001'
expect "the end place's tests are silent" '(pattern margin 1 0 1 1)
(place start (< 0 3))
(place end (> 0 100))
(edge 0 1)' '(piece 1 0)' 'end begin score
1 0 3
best 1 0 3'
expect "a run goes on through an end place" '(pattern sum 1 0 2 2)
(place start (< 0 9))
(place end (< 0 -3))
(edge 0 1)
(edge 1 1)' '(piece 2 0)' 'end begin score
2 0 6
best 2 0 6'

# What sum counts once (R-3). In the workings a bar begins a new observation: 7, 7 | 9 is 7 + 9.
# stay WEIGHTING CHANNELS TICKS TESTS: over so many ticks it has one run, a single stay in a place with these tests.
stay() { printf '(pattern %s %s 0 %s %s)\n(place start%s)\n(place end)\n(edge 0 1)' "$1" "$2" "$3" "$3" "${4:+ $4}"; }
# two_stays TICKS: the one run over twice so many ticks stays so long in a place that tests channel 0, then in one that tests 1.
two_stays() {
    printf '(pattern sum 2 1 %s %s)\n(place start (> 0 0))\n(place plain (> 1 0))\n(place end)\n' $((2 * $1)) $((2 * $1))
    printf '(edge 0 1 (>= 0 %s) (<= 0 %s) (reset 0))\n(edge 1 2)' "$1" "$1"
}
# only TICKS SCORE: the answer if the one run is over all ticks.
only() { printf 'end begin score\n%s 0 %s\nbest %s 0 %s' "$1" "$2" "$1" "$2"; }

# Channel 0 has 7, 7 and channel 1 has 1 | 2.
twitch='(piece 1 7 1)
(piece 1 7 2)'
expect "an untested twitch" "$(stay sum 2 2 '(> 0 0)')" "$twitch" "$(only 2 7)"
expect "a tested twitch" "$(stay sum 2 2 '(> 1 0)')" "$twitch" "$(only 2 3)"
# The end place tests channel 1, but no stay is in it.
elsewhere=$(swap "$(stay sum 2 2 '(> 0 0)')" 'place end' 'place end (> 1 0)')
expect "a twitch tested elsewhere" "$elsewhere" "$twitch" "$(only 2 7)"
# Each channel changes once. Channels 0 and 2 have 1 10 | 2 10, 2 10 | 2 20, so 11 + 12 + 22.
expect "two of three channels" "$(stay sum 3 4 '(> 0 0) (> 2 0)')" '(piece 1 1 5 10)
(piece 1 2 5 10)
(piece 1 2 6 10)
(piece 1 2 6 20)' "$(only 4 45)"
# Channels 0 and 1 have 7 9 | 7 2 | 7 9, 7 9, so 16 + 9 + 16. The least is 2, and the untested twitch is nothing to margin.
dip='(piece 1 7 9 1)
(piece 1 7 2 1)
(piece 1 7 9 1)
(piece 1 7 9 2)'
expect "a dip and an untested twitch, sum" "$(stay sum 3 4 '(> 0 0) (> 1 0)')" "$dip" "$(only 4 41)"
expect "a dip and an untested twitch, margin" "$(stay margin 3 4 '(> 0 0) (> 1 0)')" "$dip" "$(only 4 2)"
# Channel 7 has 5, 5 | 6.
expect "the last of eight channels" "$(stay sum 8 3 '(> 7 0)')" '(piece 1 1 1 1 1 1 1 1 5)
(piece 1 2 2 2 2 2 2 2 5)
(piece 1 2 2 2 2 2 2 2 6)' "$(only 3 11)"

# Channel 0 has 1, 1 | 2, 2 | 3, and channel 1 changes at the other ticks.
expect "changes in turn" "$(stay sum 2 5 '(> 0 0)')" '(piece 1 1 5)
(piece 1 1 6)
(piece 1 2 6)
(piece 1 2 7)
(piece 1 3 7)' "$(only 5 6)"
# Channel 0 has 3, 3, 3 and channel 1 has 8 | 9 | 8.
back='(piece 1 3 8)
(piece 1 3 9)
(piece 1 3 8)'
expect "there and back, untested" "$(stay sum 2 3 '(> 0 0)')" "$back" "$(only 3 3)"
expect "there and back, tested" "$(stay sum 2 3 '(> 1 0)')" "$back" "$(only 3 25)"
# By pieces, channel 0 has 7, 7, 7 | 8, 8, 8.
expect "long and cut pieces with twitches" "$(stay sum 2 16 '(> 0 0)')" '(piece 3 7 1)
(piece 4 7 2)
(piece 2 7 2)
(piece 3 8 2)
(piece 1 8 2)
(piece 3 8 9)' "$(only 16 15)"

# Channel 0 has 4, 4 | 6. Two signs give (4 + 2) + (6 + 4), a band and a sign (4 + 3) + (4 + 5).
four_six='(piece 1 4 1)
(piece 1 4 2)
(piece 1 6 2)'
expect "a channel tested by two signs" "$(stay sum 2 3 '(> 0 0) (> 0 2)')" "$four_six" "$(only 3 16)"
expect "a channel tested by a band and a sign" "$(stay sum 2 3 '(in 0 0 10) (> 0 1)')" "$four_six" "$(only 3 16)"
# Values are to agree, not distances: 4 and 6 both are 4 from the band's nearer end.
expect "equal distances of a band" "$(stay sum 2 3 '(in 0 0 10)')" "$four_six" "$(only 3 8)"
# Channel 0 has 3, 3 but the band's channel 4 | 6, so 3 + 4 twice.
expect "a band's channel is tested" "$(stay sum 2 2 '(> 0 0) (in 1 0 10)')" '(piece 1 3 4)
(piece 1 3 6)' "$(only 2 14)"

# A place without tests has nothing to add, and in margin nothing to be the least of.
moving='(piece 1 1 5)
(piece 1 2 6)
(piece 1 3 7)'
expect "no tests, sum" "$(stay sum 2 3 '')" "$moving" "$(only 3 0)"
expect "no tests, margin" "$(stay margin 2 3 '')" "$moving" "$(only 3 2000001)"

# The first stay has 1, 1 | 2 in channel 0, the second 30, 30 | 40 in channel 1.
expect "each place joins by its own channel" "$(two_stays 3)" '(piece 1 1 10)
(piece 1 1 20)
(piece 1 2 20)
(piece 1 2 30)
(piece 1 3 30)
(piece 1 3 40)' "$(only 6 73)"
# The second stay begins inside a piece: 5, 5 and then 2, 2.
expect "a stay from inside a piece" "$(two_stays 4)" '(piece 3 5 1)
(piece 3 5 2)
(piece 2 6 2)' "$(only 8 7)"
# It begins where only channel 0 changes: 5 and then 1, which counts although channel 1 has had it since tick 0.
expect "a stay from an untested twitch" "$(two_stays 2)" '(piece 2 5 1)
(piece 2 6 1)' "$(only 4 6)"
# It begins where channel 1 changes, and channel 0 changes next: 5 and then 9, 9.
expect "a stay from a tested twitch" "$(two_stays 2)" '(piece 2 5 1)
(piece 1 5 9)
(piece 1 6 9)' "$(only 4 14)"
# An edge from a place to itself ends a stay: 7, 7 and then again 7, 7.
expect "a new stay in the same place" '(pattern sum 2 1 4 4)
(place both (> 0 0))
(edge 0 0 (>= 0 2) (<= 0 2) (reset 0))' '(piece 1 7 1)
(piece 2 7 2)
(piece 1 7 3)' "$(only 4 14)"

# Runs that begin inside a piece: 7, 7 from 0 and from 1, and 7 | 9 from 2.
expect "begins inside a piece" "$(stay sum 2 3 '(> 0 0)')" '(piece 2 7 1)
(piece 2 7 2)
(piece 1 9 2)' 'end begin score
3 0 7
4 1 7
5 2 16
best 3 0 7'
# A longer run makes no further observation, so all have -7 and the shortest stands.
expect "equal sums, the shortest" "$(swap "$(stay sum 2 3 '(< 0 0)')" '3 3)' '1 3)')" '(piece 1 7 1)
(piece 1 7 2)
(piece 1 7 3)' 'end begin score
1 0 -7
2 1 -7
3 2 -7
best 1 0 -7'
# One start has 3 | 2 | 3 in channel 0, the other 7, 7, 7 in channel 1.
expect "the start that sees no change" '(pattern sum 2 0 3 3)
(place start (> 0 0))
(place start (> 1 0))
(place end)
(edge 0 2)
(edge 1 2)' '(piece 1 3 7)
(piece 1 2 7)
(piece 1 3 7)' "$(only 3 7)"

# Bands. With the window 1 1 each end has one run of one tick, so its score is the distance at that tick's value.
band='(pattern margin 1 0 1 1)
(place start (in 0 -3 9))
(place end)
(edge 0 1)'
band_sum=$(swap "$band" margin sum)
across='(piece 1 2)
(piece 1 -5)
(piece 1 12)
(piece 1 3)'
# 2 is inside (5 above low, 7 below high), -5 is 2 below low, 12 is 3 above high, 3 is 6 from both.
across_lines='end begin score
1 0 5
2 1 -2
3 2 -3
4 3 6'
expect "band, margin" "$band" "$across" "$across_lines
best 4 3 6"
expect "band, sum" "$band_sum" "$across" "$across_lines
best 3 2 -3"
# In margin a band is as the tests of its two ends. In sum these add up to 9 - -3 at every value.
ends=$(swap "$band" '(in 0 -3 9)' '(>= 0 -3) (<= 0 9)')
expect "a band's ends as two tests, margin" "$ends" "$across" "$across_lines
best 4 3 6"
expect "a band's ends as two tests, sum" "$(swap "$ends" margin sum)" "$across" 'end begin score
1 0 12
2 1 12
3 2 12
4 3 12
best 1 0 12'
# One stay over all four: the least is -3, the sum 5 - 2 - 3 + 6.
expect "band, four pieces, margin" "$(swap "$band" '1 1)' '4 4)')" "$across" 'end begin score
4 0 -3
best 4 0 -3'
expect "band, four pieces, sum" "$(swap "$band_sum" '1 1)' '4 4)')" "$across" 'end begin score
4 0 6
best 4 0 6'
# 5 for the joined piece, then -3.
expect "band, cut piece once" "$(swap "$band_sum" '1 1)' '4 4)')" '(piece 1 2)
(piece 2 2)
(piece 1 12)' 'end begin score
4 0 2
best 4 0 2'
expect "at a band's ends and one beyond" "$band" '(piece 1 -4)
(piece 1 -3)
(piece 1 9)
(piece 1 10)' 'end begin score
1 0 -1
2 1 0
3 2 0
4 3 -1
best 2 1 0'
expect "equal ends" "$(swap "$band" '-3 9' '7 7')" '(piece 1 4)
(piece 1 7)
(piece 1 9)' 'end begin score
1 0 -3
2 1 0
3 2 -2
best 2 1 0'
expect "the widest band" "$(swap "$band" '-3 9' '-1000000 1000000')" '(piece 1 1000000)
(piece 1 -1)
(piece 1 -1000000)' 'end begin score
1 0 0
2 1 999999
3 2 0
best 2 1 999999'
expect "a band at 1000000" "$(swap "$band" '-3 9' '1000000 1000000')" '(piece 1 -1000000)' 'end begin score
1 0 -2000000
best 1 0 -2000000'
expect "a band at -1000000" "$(swap "$band_sum" '-3 9' '-1000000 -1000000')" '(piece 1 1000000)' 'end begin score
1 0 -2000000
best 1 0 -2000000'
# With the other end far off, a band has the distances of the example's test.
example=$(swap "$(swap "$margin" '(< 0 15)' '(in 0 -1000000 15)')" '(> 0 5)' '(in 0 5 1000000)')
expect "example with bands, margin" "$example" "$record" "$margin_answer"
expect "example with bands, sum" "$(swap "$example" margin sum)" "$record" "$sum_answer"

# Beside other tests, at 5: 8 - 5 = 3, the band 9 - 5 = 4, and 5 - 1 = 4.
beside=$(swap "$band" '(in 0 -3 9)' '(< 0 8) (in 0 -3 9) (> 0 1)')
expect "a band between tests, margin" "$beside" '(piece 1 5)' 'end begin score
1 0 3
best 1 0 3'
expect "a band between tests, sum" "$(swap "$beside" margin sum)" '(piece 1 5)' 'end begin score
1 0 11
best 1 0 11'
# At 6 the first has 10 - 6 = 4, the second 6 - 4 = 2.
two=$(swap "$band" '(in 0 -3 9)' '(in 0 0 10) (in 0 4 20)')
expect "two bands, margin" "$two" '(piece 1 6)' 'end begin score
1 0 2
best 1 0 2'
expect "two bands, sum" "$(swap "$two" margin sum)" '(piece 1 6)' 'end begin score
1 0 6
best 1 0 6'
# Channel 0 has 50, which is 41 above high.
expect "a band on channel 1" "$(swap "$(swap "$band" 'margin 1' 'margin 2')" 'in 0' 'in 1')" '(piece 1 50 2)' 'end begin score
1 0 5
best 1 0 5'
expect "an end place's band is silent" "$(swap "$band" 'place end' 'place end (in 0 100 200)')" '(piece 1 2)' 'end begin score
1 0 5
best 1 0 5'

# A band is one test of the four. At 2 each (< 0 9) has 7 and the band 5.
band_is() { swap "$band" '(in 0 -3 9)' "$1"; }
three='(< 0 9) (< 0 9) (< 0 9)'
expect "a band as the fourth test" "$(swap "$(band_is "$three (in 0 -3 9)")" margin sum)" '(piece 1 2)' 'end begin score
1 0 26
best 1 0 26'
expect "a band as the fifth test" "$(band_is "$three (< 0 9) (in 0 -3 9)")" '(piece 1 2)' 'refused 4'
expect "four bands" "$(band_is "$(repeat 3 '(in 0 -3 9) ')(in 0 2 2)")" '(piece 1 2)' 'end begin score
1 0 0
best 1 0 0'
expect "five bands" "$(band_is "$(repeat 4 '(in 0 -3 9) ')(in 0 2 2)")" '(piece 1 2)' 'refused 4'

# A band's numbers, and which refusal comes first.
expect "low above high" "$(band_is '(in 0 9 -3)')" '(piece 1 2)' 'refused 3'
expect "low above high by 1" "$(band_is '(in 0 -3 -4)')" '(piece 1 2)' 'refused 3'
expect "low -1000001" "$(band_is '(in 0 -1000001 9)')" '(piece 1 2)' 'refused 3'
expect "high 1000001" "$(band_is '(in 0 -3 1000001)')" '(piece 1 2)' 'refused 3'
expect "a band's channel 1 of 1" "$(band_is '(in 1 -3 9)')" '(piece 1 2)' 'refused 5'
expect "a band's channel 8" "$(band_is '(in 8 -3 9)')" '(piece 1 2)' 'refused 5'
expect "band, 3 before 5" "$(band_is '(in 1 9 -3)')" '(piece 1 2)' 'refused 3'
expect "band, 3 before 5 of the test before" "$(band_is '(< 1 9) (in 0 9 -3)')" '(piece 1 2)' 'refused 3'
expect "band, 4 before 3" "$(band_is "$three (< 0 9) (in 0 9 -3)")" '(piece 1 2)' 'refused 4'
expect "band, 4 before 3 and 5" "$(band_is "(in 1 9 -3) $three (< 0 9)")" '(piece 1 2)' 'refused 4'
expect "band, 2 before 4, 3 and 5" "$(band_is "(in 1 9 -3) $three (in 0 -3)")" '(piece 1 2)' 'refused 2'
expect "low above high, then a form" "$(swap "$(band_is '(in 0 9 -3)')" 'place end' 'place End')" '(piece 1 2)' 'refused 3'
expect "a channel, then low above high" "$(swap "$(band_is '(in 1 -3 9)')" 'place end' 'place end (in 0 9 -3)')" '(piece 1 2)' \
    'refused 5'

# Texts that are no band, and a band where a guard is due.
for text in '(In 0 -3 9)' '(in 0 9)' '(in 0 -3 9 12)' '(in 0 -0 9)' '(in 0 -3 -0)' '(in 0 +7 9)' '(in 0 -3 09)' '(in -1 -3 9)' \
    '(in0 -3 9)' '(in 0-3 9)' '(in  0 -3 9)' '(in 0 -3  9)' '(in 0 -3 9 )' '(< 0 -3 9)'; do
    expect "no band: $text" "$(band_is "$text")" '(piece 1 2)' 'refused 2'
done
expect "no space before a band" "$(swap "$band" 'start (in' 'start(in')" '(piece 1 2)' 'refused 2'
expect "a band in an edge" "$(swap "$margin" '(<= 0 2)' '(in 0 1 2)')" "$record" 'refused 2'

# Patterns that never have a run, and files that are not there.
expect "no start" "$(swap "$margin" start plain)" "$record" "$none"
expect "no end" "$(swap "$margin" 'place end' 'place plain')" "$record" "$none"
expect "no edge" '(pattern sum 1 0 1 4)
(place both)' "$record" "$none"
expect "no record" "$margin" missing "$none"
expect "no pattern" missing "$record" 'refused 2'
expect "neither" missing missing 'refused 2'
expect "the pattern first" "$(swap "$margin" start Start)" '(piece 0 10)' 'refused 2'
expect "2 before 8" "$margin" '(piece 0 10)
(piece 2 -0)' 'refused 2'
expect "wrong count of values" "$margin" '(piece 2 10 10)' 'refused 8'

# Points that document 01 leaves open (README.md).
expect "line 1 out of range, no place" '(pattern margin 9 1 1 4)' "$record" 'refused 3'
expect "a long number" "$(swap "$margin" 15 1$(repeat 30 0))" "$record" 'refused 3'
expect "a long low and high" "$(band_is "(in 0 1$(repeat 30 0) 1$(repeat 30 0))")" '(piece 1 2)' 'refused 3'
expect "a long index" "$(swap "$margin" '< 0 15' "< 1$(repeat 30 0) 15")" "$record" 'refused 5'
expect "a long duration" "$margin" "(piece 1$(repeat 30 0) 10)" 'refused 8'
expect "a long value" "$margin" "(piece 2 1$(repeat 30 0))" 'refused 8'
expect "a folder for a record" "$margin" folder "$none"
