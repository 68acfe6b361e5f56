# What is asked of the product's times. For bench/run, whose variables it uses.
# shellcheck shell=bash disable=SC2154

usual_books=(2-near 3-wide 4-limits 5-tied)
least_solver=10      # the faster solver's time by the product's, on these books
least_exhaustive=100 # the exhaustive plain C search's time by the product's, on these books
most_uncovered=5     # milliseconds for 6-uncovered
most_book=500        # for every book
most_mean=100        # for the mean of a family

times() { # times BOOK METHOD: the method's time by the product's
    awk "BEGIN { print ${time_of[$1 $2]} / ${time_of[$1 product]} }"
}

right() { # right BOOK SOLVER: whether the solver gives the product's total
    [ "${answer_of[$1 $2]:-}" = "${answer_of[$1 product]}" ]
}

faster_solver() { # faster_solver BOOK: the faster solver of those that give the product's total; nothing where there is none
    local solver found=
    for solver in glpsol cbc; do
        if right "$1" "$solver" && { [ -z "$found" ] || above "${time_of[$1 $found]}" "${time_of[$1 $solver]}"; }; then
            found=$solver
        fi
    done
    echo "$found"
}

limits_of_usual() { # limits_of_usual BOOK: says which limits against other methods are missed
    local solver
    solver=$(faster_solver "$1")
    if [ -n "$solver" ] && above "$least_solver" "$(times "$1" "$solver")"; then
        echo "- $1: $solver takes less than $least_solver times as long as the product."
    fi
    if above "$least_exhaustive" "$(times "$1" exhaustive)"; then
        echo "- $1: the exhaustive plain C search takes less than $least_exhaustive times as long as the product."
    fi
}

limits_of_book() { # limits_of_book BOOK: says which limits of every book are missed
    local solver
    solver=$(faster_solver "$1")
    if [ -n "$solver" ] && above 1 "$(times "$1" "$solver")"; then
        echo "- $1: $solver is faster than the product."
    fi
    if above "${time_of[$1 product]}" "$most_book"; then
        echo "- $1: the product takes over $most_book ms."
    fi
}

limits_of_family() { # limits_of_family NAME: says which limits of the product on random books are missed
    local mean slowest
    read -r _ mean slowest _ <<<"${family_times[$1]}"
    if above "$mean" "$most_mean"; then
        echo "- family $1: the product takes over $most_mean ms in the mean."
    fi
    if above "$slowest" "$most_book"; then
        echo "- family $1: the product takes over $most_book ms on a book."
    fi
}

limits() { # says which limits are missed, a line for each
    local book family
    for book in "${usual_books[@]}"; do
        limits_of_usual "$book"
    done
    if above "${time_of[6-uncovered product]}" "$most_uncovered"; then
        echo "- 6-uncovered: the product takes over $most_uncovered ms."
    fi
    for book in "${books[@]}"; do
        limits_of_book "$book"
    done
    for family in "${families[@]}"; do
        limits_of_family "$family"
    done
}
