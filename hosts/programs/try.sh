#!/usr/bin/env bash
# What the programs say to examples, bad arguments, files that cannot be read, slow pipes and results that are lost. The exit status is 1 if one says
# something else than is written here. `hosts/make.sh fringepond write_record check_record price_plan` makes the programs.
set -u
root=$(cd "$(dirname "$0")/../.." && pwd)
dir=$(mktemp -d)
trap 'rm -rf "$dir"' EXIT
bin=$dir/bin
mkdir "$bin"
for program in fringepond write_record check_record price_plan; do
    ln -s "$root/crates/$program/out/$program" "$bin/$program"
done
tried=0
failed=0

# expect WHAT EXPECTED SAID
expect() {
    tried=$((tried + 1))
    if [ "$2" != "$3" ]; then
        failed=$((failed + 1))
        printf '%s\n  expected: %s\n  said:     %s\n' "$1" "$2" "$3"
    fi
}

for network in "$root"/examples/*.wcsp; do
    name=$(basename "$network" .wcsp)
    expect "$name" "$(cat "$root/examples/$name.expected")" "$("$bin/fringepond" < "$network" 2>&1)"
    "$bin/write_record" < "$network" > "$dir/$name.record"
    expect "the record of $name" accepted "$("$bin/check_record" "$network" "$dir/$name.record" 2>&1)"
done

b='one 1 2 1 9 2 1 0 4 1 1 6'
printf '%s' "$b" > "$dir/b.wcsp"
lines=$(printf 'cost 4\nplan 0\nnodes 3')
expect 'a pipe that delivers a byte at a time' "$lines" \
    "$(for i in $(seq 0 $((${#b} - 1))); do printf '%s' "${b:$i:1}"; sleep 0.01; done | "$bin/fringepond" 2>&1)"
expect 'no text' 'refused 2 at 0' "$("$bin/fringepond" < /dev/null 2>&1)"
expect 'a text of 65,536 bytes' 'refused 2 at 65536' "$(printf '%65536s' '' | "$bin/fringepond" 2>&1)"
expect 'a text of 65,537 bytes' 'refused 1 at 0' "$(printf '%65537s' '' | "$bin/fringepond" 2>&1)"
expect 'a text of a million bytes' 'refused 1 at 0' "$(printf '%1000000s' '' | "$bin/fringepond" 2>&1)"
expect 'a folder for a text' 'standard input: Is a directory' "$("$bin/fringepond" < "$dir" 2>&1)"
expect 'an argument too many' 'usage: fringepond < NETWORK' "$("$bin/fringepond" x 2>&1)"

expect 'an argument too many' 'usage: write_record < NETWORK > RECORD' "$("$bin/write_record" x 2>&1)"
expect 'no text' 'refused 2 at 0' "$("$bin/write_record" 2>&1 < /dev/null)"
expect 'no text leaves no record' '' "$("$bin/write_record" 2>/dev/null < /dev/null)"

"$bin/write_record" < "$dir/b.wcsp" > "$dir/b.record"
expect 'the record of network B' 272 "$(wc -c < "$dir/b.record")"
for arguments in '' "$dir/b.wcsp" "$dir/b.wcsp $dir/b.record more"; do
    # shellcheck disable=SC2086
    expect "arguments '$arguments'" 'usage: check_record NETWORK RECORD' "$("$bin/check_record" $arguments 2>&1)"
done
expect 'no such record' "$dir/none: No such file or directory" "$("$bin/check_record" "$dir/b.wcsp" "$dir/none" 2>&1)"
expect 'no such network' "$dir/none: No such file or directory" "$("$bin/check_record" "$dir/none" "$dir/b.record" 2>&1)"
expect 'a folder for a record' "$dir: Is a directory" "$("$bin/check_record" "$dir/b.wcsp" "$dir" 2>&1)"
expect 'an empty record' 'refused 13 at 0' "$("$bin/check_record" "$dir/b.wcsp" /dev/null 2>&1)"
expect 'an endless text' 'refused 1 at 0' "$("$bin/check_record" /dev/zero "$dir/b.record" 2>&1)"
expect 'an endless record' 'a record of more than 4194304 bytes is not checked here' \
    "$("$bin/check_record" "$dir/b.wcsp" /dev/zero 2>&1)"
expect "another network's record" 'refused 13 at 1' "$("$bin/check_record" "$root/examples/none.wcsp" "$dir/b.record" 2>&1)"
head -c 271 "$dir/b.record" > "$dir/short.record"
expect 'a record cut short' 'refused 13 at 0' "$("$bin/check_record" "$dir/b.wcsp" "$dir/short.record" 2>&1)"

# each plan of network A; of the packages the plan that is found, and some that break; two of the network that has none
while IFS=: read -r network plan said; do
    # shellcheck disable=SC2086
    expect "the price of $network, plan $plan" "$said" "$("$bin/price_plan" "$root/examples/$network.wcsp" $plan 2>&1)"
done <<'END'
network_a:0 0 0:price 6
network_a:0 0 1:price 6
network_a:0 1 0:price 5
network_a:0 1 1:price 1
network_a:1 0 0:price 4
network_a:1 0 1:price 4
network_a:1 1 0:price 10 at function 1
network_a:1 1 1:price 9
clash_of_packages:1 1 0 0 0 1:price 13
clash_of_packages:0 0 0 0 0 0:price 60 at function 0
clash_of_packages:3 3 3 2 2 3:price 60 at unary 2
clash_of_packages:0 2 2 0 0 0:price 60 at function 3
none:0 0:price 20 at function 0
none:2 2:price 20 at unary 1
END
# price SAID WHAT TEXT VALUE..: of a text that is no example
price() {
    printf '%s' "$3" > "$dir/text.wcsp"
    expect "$2" "$1" "$("$bin/price_plan" "$dir/text.wcsp" "${@:4}" 2>&1)"
}
price 'price 7 at constant' 'a constant of k, no variables' 'x 0 0 1 7 0 7 0'
price 'price 6' 'a constant below k, no variables' 'x 0 0 1 7 0 6 0'
price 'price 7 at constant' 'a constant of k and a cost of k' 'x 1 1 2 7 1 1 0 7 0 0 7 0' 0
price 'price 1 at unary 0' 'k 1' 'x 2 1 1 1 1 1 1 0 1 0' 0 0
price 'price 4' 'network B' "$b" 0
expect 'a network that comes a byte at a time' 'price 6' \
    "$("$bin/price_plan" <(for i in $(seq 0 $((${#b} - 1))); do printf '%s' "${b:$i:1}"; sleep 0.01; done) 1 2>&1)"

# as many values as a plan may have, and one more
zeros=$(printf '0 %.0s' $(seq 64))
long="long 64 1 1 9 ${zeros//0/1} 1 63 9 0"
# shellcheck disable=SC2086
price 'price 9 at unary 63' '64 values' "$long" $zeros
# shellcheck disable=SC2086
price 'refused 9 at 0' '65 values' "$long" $zeros 0
# shellcheck disable=SC2086
price 'refused 9 at 0' '65 values for one variable, the first of them good' "$b" $zeros 0
# shellcheck disable=SC2086
price 'refused 9 at 0' '65 values, the last of them above 255' "$long" $zeros 256

a=$root/examples/network_a.wcsp
expect 'no values' 'refused 9 at 0' "$("$bin/price_plan" "$a" 2>&1)"
expect 'a value too few' 'refused 9 at 0' "$("$bin/price_plan" "$a" 1 1 2>&1)"
expect 'a value too many' 'refused 9 at 0' "$("$bin/price_plan" "$a" 1 1 0 0 2>&1)"
expect 'a value too many, above 255' 'refused 9 at 0' "$("$bin/price_plan" "$a" 1 1 0 256 2>&1)"
# those from 256 on end in zero bytes: cut to a byte or to a word they would be in range
for value in 2 255 256 65536 4294967296 18446744073709551616; do
    expect "value $value of the first variable" 'refused 9 at 0' "$("$bin/price_plan" "$a" "$value" 1 0 2>&1)"
    expect "value $value of the second variable" 'refused 9 at 1' "$("$bin/price_plan" "$a" 1 "$value" 9 2>&1)"
    expect "value $value of the last variable" 'refused 9 at 2' "$("$bin/price_plan" "$a" 1 1 "$value" 2>&1)"
done
expect 'leading zeros' 'price 10 at function 1' "$("$bin/price_plan" "$a" 01 001 0000 2>&1)"
# arguments are counted from 1, the network being the first
not_a_number() { printf 'price_plan: argument %s is not a number' "$1"; }
for value in x '' ' ' 1x x1 -1 +1 1.0 0x1 '1 1' $'1\n'; do
    expect "value '$value'" "$(not_a_number 3)" "$("$bin/price_plan" "$a" 1 "$value" 0 2>&1)"
done
digits=$(printf '%04096d' 1)
expect 'a value of 4,096 digits' 'price 10 at function 1' "$("$bin/price_plan" "$a" "$digits" 1 0 2>&1)"
expect 'a value of 4,097 digits' 'price_plan: argument 3 is too long' "$("$bin/price_plan" "$a" 1 "0$digits" 0 2>&1)"
expect 'the first value is no number' "$(not_a_number 2)" "$("$bin/price_plan" "$a" x 1 0 2>&1)"
expect 'the last value is no number' "$(not_a_number 4)" "$("$bin/price_plan" "$a" 1 1 x 2>&1)"
expect 'two values are no numbers' "$(not_a_number 3)" "$("$bin/price_plan" "$a" 1 x y 2>&1)"
expect 'no number leaves no price' '' "$("$bin/price_plan" "$a" 1 x 0 2>/dev/null)"
expect 'no arguments' 'usage: price_plan NETWORK VALUE ..' "$("$bin/price_plan" 2>&1)"
expect 'no arguments leave no price' '' "$("$bin/price_plan" 2>/dev/null)"
expect 'no such network' "$dir/none: No such file or directory" "$("$bin/price_plan" "$dir/none" 0 2>&1)"
expect 'a folder for a network' "$dir: Is a directory" "$("$bin/price_plan" "$dir" 0 2>&1)"
# a file that cannot be read comes before a value that is no number, and that before a text that is refused
expect 'no such network, and no number' "$dir/none: No such file or directory" "$("$bin/price_plan" "$dir/none" x 2>&1)"
expect 'an empty text, and no number' "$(not_a_number 2)" "$("$bin/price_plan" /dev/null x 2>&1)"
# a text that is refused comes before a plan that is
expect 'an endless text' 'refused 1 at 0' "$("$bin/price_plan" /dev/zero 0 2>&1)"
expect 'an empty text' 'refused 2 at 0' "$("$bin/price_plan" /dev/null 2>&1)"
price 'refused 6 at 26' 'a text too long by a token, and a value too many' "$b 7" 0 0
price 'refused 6 at 26' 'a text too long by a token, and a value above 255' "$b 7" 256
# shellcheck disable=SC2086
price 'refused 6 at 26' 'a text too long by a token, and 65 values' "$b 7" $zeros 0

# a result that cannot be written is told on standard error
lost='standard output: No space left on device'
expect 'a verdict that is lost' "$lost" "$("$bin/fringepond" 2>&1 > /dev/full < "$dir/b.wcsp")"
expect 'a refusal that is lost' "$lost" "$("$bin/fringepond" 2>&1 > /dev/full < /dev/null)"
expect 'a record that is lost' "$lost" "$("$bin/write_record" 2>&1 > /dev/full < "$dir/b.wcsp")"
expect 'an acceptance that is lost' "$lost" "$("$bin/check_record" "$dir/b.wcsp" "$dir/b.record" 2>&1 > /dev/full)"
expect "a desk's refusal that is lost" "$lost" "$("$bin/check_record" "$dir/b.wcsp" /dev/null 2>&1 > /dev/full)"
expect 'a price that is lost' "$lost" "$("$bin/price_plan" "$a" 0 1 1 2>&1 > /dev/full)"
expect 'a price with its part that is lost' "$lost" "$("$bin/price_plan" "$a" 1 1 0 2>&1 > /dev/full)"
expect 'a refusal of a plan that is lost' "$lost" "$("$bin/price_plan" "$a" 1 1 2 2>&1 > /dev/full)"

echo "$tried tried, $failed different"
[ "$failed" = 0 ]
