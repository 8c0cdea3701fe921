# Work of a shell without other programs: functions and loops, pipes between processes, files, children that are waited
# for. Writes as it goes: sh work.sh ROUNDS

rounds=$1

is_prime() {
    divisor=2
    while [ $((divisor * divisor)) -le "$1" ]; do
        [ $(($1 % divisor)) -eq 0 ] && return 1
        divisor=$((divisor + 1))
    done
    return 0
}

# Numbers from the first to the last, a line each.
numbers() {
    number=$1
    while [ "$number" -le "$2" ]; do
        echo "$number"
        number=$((number + 1))
    done
}

# Those of its input's numbers that are prime.
primes() {
    while read -r number; do
        is_prime "$number" && echo "$number"
    done
}

# How many lines its input has, and their sum.
total() {
    lines=0 sum=0
    while read -r number; do
        lines=$((lines + 1)) sum=$((sum + number))
    done
    echo "$lines lines, sum $sum"
}

# A text the other way round.
reversed() {
    rest=$1 back=
    while [ -n "$rest" ]; do
        back=${rest%"${rest#?}"}$back
        rest=${rest#?}
    done
    echo "$back"
}

round=1
while [ "$round" -le "$rounds" ]; do
    first=$((round * 100))
    echo "round $round: $(numbers $first $((first + 39)) | primes | total)"
    case $round in
        *[02468]) printf '%5d %-8s|%s\n' "$round" even "$(reversed "a line of round $round")" ;;
        *) printf '%5x %-8s|%s\n' "$round" odd "$(reversed "another line: $round")" ;;
    esac
    (
        exec > "file$round"
        trap 'echo 1000000' EXIT
        numbers 1 "$round"
        exit $((round % 7))
    ) &
    child=$!
    while read -r word number; do
        echo "$word of $number is $((number ${word#*:} round))"
    done <<END
a:+ 10
b:* 12
c:<< 3
END
    wait $child
    echo "it ended with $?"
    total < "file$round"
    round=$((round + 1))
done

numbers 1 5 | while read -r number; do echo "piece $number"; done > pieces
while read -r line; do set -- $line "$@"; done < pieces
echo "$# words: $*"
unset word
echo "${word:-none} ${rounds:+some} ${#line} ${line:-an empty line}"
trap 'echo "signal $$" | { read -r word number; echo "$word"; }' USR1
kill -USR1 $$
echo "done"
