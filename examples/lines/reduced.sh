known=0
skipped=0
min() {
    echo $(($1 * 100 / $2))
    while [ "$count" -gt 0 ]; do
        count=$((count - 1))
    done
}
    echo "$(min "$known" "$skipped") of the rarer kind of line"
