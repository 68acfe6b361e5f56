# What bench/RESULTS.md says. For bench/run, whose variables it uses.
# shellcheck shell=bash disable=SC2154

cell() { # cell BOOK METHOD: its time, as the table has it
    if [ -z "${time_of[$1 $2]:-}" ]; then
        echo "not installed"
    elif [ "${answer_of[$1 $2]:-}" = late ]; then
        echo "over $solver_limit s"
    else
        printf '%.2f\n' "${time_of[$1 $2]}"
    fi
}

ratio() { # ratio BOOK METHOD: the method's time by the product's, as the table has it
    times "$1" "$2" | awk '{ printf $1 < 10 ? "%.2f\n" : "%.0f\n", $1 }'
}

solver_ratio() { # solver_ratio BOOK: that of the faster solver which gives the right total
    local solver
    solver=$(faster_solver "$1")
    if [ -n "$solver" ]; then
        echo "$(ratio "$1" "$solver") ($solver)"
    elif [ -z "${time_of[$1 glpsol]:-}${time_of[$1 cbc]:-}" ]; then
        echo "not installed"
    elif [ "${answer_of[$1 glpsol]:-}" = late ] || [ "${answer_of[$1 cbc]:-}" = late ]; then
        echo "no right answer in $solver_limit s"
    else
        echo "no right answer"
    fi
}

row() { # row FIRST CELL...: a row of a table
    printf '| %s |' "$1"
    shift
    printf ' %s |' "$@"
    printf '\n'
}

time_rows() { # a row for each book
    local book method cells
    for book in "${books[@]}"; do
        cells=()
        for method in product bounded exhaustive dp glpsol cbc; do
            cells+=("$(cell "$book" "$method")")
        done
        row "$book" "${cells[@]}"
    done
}

ratio_rows() { # a row for each book
    local book
    for book in "${books[@]}"; do
        row "$book" "$(solver_ratio "$book")" "$(ratio "$book" exhaustive)" "$(ratio "$book" dp)" "$(ratio "$book" bounded)"
    done
}

family_rows() { # a row for each family
    local family cells
    for family in "${families[@]}"; do
        read -r -a cells <<<"${family_times[$family]}"
        row "$family" "${cells[0]}" "$(printf '%.2f' "${cells[1]}")" "$(printf '%.2f' "${cells[2]}")" \
            "$(printf '%.2f' "${cells[3]}")" "$(printf '%.2f' "${cells[4]}")"
    done
}

difference() { # difference BOOK SOLVER: a line where the solver's answer is not the product's
    local answer=${answer_of[$1 $2]:-late}
    if [ "$answer" != late ] && ! right "$1" "$2"; then
        echo "- $1: $2 answers $answer; the product's total, which is proved, is ${answer_of[$1 product]}."
    fi
}

differences() { # a line for each answer of a solver that is not the product's
    local book
    for book in "${books[@]}"; do
        difference "$book" glpsol
        difference "$book" cbc
    done
}

version() { # version COMMAND ARGUMENT...: the first line with a digit of what it prints, or that it is not installed
    if command -v "$1" >/dev/null; then
        { "$@" 2>&1 </dev/null || true; } | sed -n '/[0-9]/{s/ *$//;p;q}'
    else
        echo "not installed"
    fi
}

machine() {
    echo "- processor: $(sed -n 's/^model name[^:]*: //p' /proc/cpuinfo | head -n 1), $(nproc) cores"
    echo "- memory: $(awk '/^MemTotal/ { printf "%.1f GiB", $2 / 1048576 }' /proc/meminfo)"
    echo "- kernel: $(uname -s) $(uname -r | sed 's/-.*//')"
    echo "- gcc: $(version gcc --version)"
    echo "- glpsol: $(version glpsol --version)"
    echo "- cbc: $(version cbc -quit)"
}

results() {
    local seen usual
    seen=$(differences)
    usual=$(printf ', %s' "${usual_books[@]}")
    cat <<END
# Times of the product and of other methods

\`bench/run\` writes this file. Milliseconds; of $runs runs the fastest counts. A solver that takes over a second is run once, and any other
method that takes over half a second; one that takes under five milliseconds is run ten times as often.

| Book | product | plain C search, bounded | plain C search, exhaustive | dynamic program | glpsol, first clearing only | cbc, first clearing only |
|---|--:|--:|--:|--:|--:|--:|
$(time_rows)

How many times as long as the product the others take; the solver is the faster of those that give the right total:

| Book | the faster solver, first clearing only | plain C search, exhaustive | dynamic program | plain C search, bounded |
|---|--:|--:|--:|--:|
$(ratio_rows)

Random books of hard families, the same each time; of $family_runs runs on a book the fastest counts:

| Family | books | product, mean | product, slowest | plain C search, bounded, mean | plain C search, bounded, slowest |
|---|--:|--:|--:|--:|--:|
$(family_rows)

What is asked of the product:

- on ${usual:2} the faster solver takes at least $least_solver times as long, and the exhaustive plain C search at least $least_exhaustive times;
- no solver that gives the right total is faster on a book;
- \`6-uncovered\` takes at most $most_uncovered ms;
- no book takes over $most_book ms, and no family over $most_mean ms in the mean.

What of it was missed:

${missed:-"- nothing"}

Where a solver's answer is not the product's:

${seen:-"- nowhere"}

$(cat bench/notes.md)

## The machine

$(machine)
END
}
