#!/bin/sh
# A yearly report of orders. Each line on standard input is: region month units price
set -u

total=0
known=0
skipped=0
largest=0
january=0
february=0
march=0
april=0
may=0
june=0
july=0
august=0
september=0
october=0
november=0
december=0

max() {
    if [ "$1" -gt "$2" ]; then
        echo "$1"
    else
        echo "$2"
    fi
}

min() {
    if [ "$1" -lt "$2" ]; then
        echo "$1"
    else
        echo "$2"
    fi
}

absolute() {
    if [ "$1" -lt 0 ]; then
        echo $((-$1))
    else
        echo "$1"
    fi
}

share() {
    echo $(($1 * 100 / $2))
}

repeated() {
    count=$2
    while [ "$count" -gt 0 ]; do
        printf '%s' "$1"
        count=$((count - 1))
    done
}

rule() {
    repeated - 40
    echo
}

title() {
    echo "$1"
    rule
}

bar() {
    repeated '#' $(($1 * 20 / $(max 1 "$2")))
}

season() {
    case $1 in
        december | january | february)
            echo winter
            ;;
        march | april | may)
            echo spring
            ;;
        june | july | august)
            echo summer
            ;;
        *)
            echo autumn
            ;;
    esac
}

count_january() {
    january=$((january + $1))
    largest=$(max "$largest" "$january")
}

count_february() {
    february=$((february + $1))
    largest=$(max "$largest" "$february")
}

count_march() {
    march=$((march + $1))
    largest=$(max "$largest" "$march")
}

count_april() {
    april=$((april + $1))
    largest=$(max "$largest" "$april")
}

count_may() {
    may=$((may + $1))
    largest=$(max "$largest" "$may")
}

count_june() {
    june=$((june + $1))
    largest=$(max "$largest" "$june")
}

count_july() {
    july=$((july + $1))
    largest=$(max "$largest" "$july")
}

count_august() {
    august=$((august + $1))
    largest=$(max "$largest" "$august")
}

count_september() {
    september=$((september + $1))
    largest=$(max "$largest" "$september")
}

count_october() {
    october=$((october + $1))
    largest=$(max "$largest" "$october")
}

count_november() {
    november=$((november + $1))
    largest=$(max "$largest" "$november")
}

count_december() {
    december=$((december + $1))
    largest=$(max "$largest" "$december")
}

count_order() {
    revenue=$(($3 * $4))
    case $2 in
        january)
            count_january "$revenue"
            ;;
        february)
            count_february "$revenue"
            ;;
        march)
            count_march "$revenue"
            ;;
        april)
            count_april "$revenue"
            ;;
        may)
            count_may "$revenue"
            ;;
        june)
            count_june "$revenue"
            ;;
        july)
            count_july "$revenue"
            ;;
        august)
            count_august "$revenue"
            ;;
        september)
            count_september "$revenue"
            ;;
        october)
            count_october "$revenue"
            ;;
        november)
            count_november "$revenue"
            ;;
        december)
            count_december "$revenue"
            ;;
        *)
            skipped=$((skipped + 1))
            return
            ;;
    esac
    known=$((known + 1))
    total=$((total + revenue))
}

read_orders() {
    while read -r region month units price rest; do
        case $region in
            '#'* | '')
                continue
                ;;
        esac
        if [ -n "$rest" ]; then
            skipped=$((skipped + 1))
            continue
        fi
        count_order "$region" "$month" "$units" "$price"
    done
}

print_january() {
    printf '%-10s %-8s %8d ' january "$(season january)" "$january"
    bar "$january" "$largest"
    echo
}

print_february() {
    printf '%-10s %-8s %8d ' february "$(season february)" "$february"
    bar "$february" "$largest"
    echo
}

print_march() {
    printf '%-10s %-8s %8d ' march "$(season march)" "$march"
    bar "$march" "$largest"
    echo
}

print_april() {
    printf '%-10s %-8s %8d ' april "$(season april)" "$april"
    bar "$april" "$largest"
    echo
}

print_may() {
    printf '%-10s %-8s %8d ' may "$(season may)" "$may"
    bar "$may" "$largest"
    echo
}

print_june() {
    printf '%-10s %-8s %8d ' june "$(season june)" "$june"
    bar "$june" "$largest"
    echo
}

print_july() {
    printf '%-10s %-8s %8d ' july "$(season july)" "$july"
    bar "$july" "$largest"
    echo
}

print_august() {
    printf '%-10s %-8s %8d ' august "$(season august)" "$august"
    bar "$august" "$largest"
    echo
}

print_september() {
    printf '%-10s %-8s %8d ' september "$(season september)" "$september"
    bar "$september" "$largest"
    echo
}

print_october() {
    printf '%-10s %-8s %8d ' october "$(season october)" "$october"
    bar "$october" "$largest"
    echo
}

print_november() {
    printf '%-10s %-8s %8d ' november "$(season november)" "$november"
    bar "$november" "$largest"
    echo
}

print_december() {
    printf '%-10s %-8s %8d ' december "$(season december)" "$december"
    bar "$december" "$largest"
    echo
}

print_months() {
    title 'Revenue by month'
    print_january
    print_february
    print_march
    print_april
    print_may
    print_june
    print_july
    print_august
    print_september
    print_october
    print_november
    print_december
    echo
}

print_totals() {
    title 'Totals'
    echo "$known orders, $skipped lines skipped"
    echo "$total revenue, $(absolute "$total") without its sign"
    echo "$(share "$largest" "$total")% of it in the best month"
    echo "$(min "$known" "$skipped") of the rarer kind of line"
    echo
}

read_orders
title 'Orders'
echo
print_months
print_totals
rule
