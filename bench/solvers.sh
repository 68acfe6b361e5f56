# The solvers of mixed-integer programs: one solve of a book, and its time. For bench/run, whose variables it uses.
# shellcheck shell=bash disable=SC2154,SC2034

cents() { # a number of cents from standard input, to the nearest whole one
    awk '{ printf "%.0f\n", $1 }'
}

solve_glpsol() { # solve_glpsol LP: prints the optimum, `none`, or nothing where there is no answer in time
    timeout "$solver_limit" glpsol --lp "$1" -w "$out/solution" >"$out/log" || true
    if grep -qE 'HAS NO (PRIMAL |INTEGER )?FEASIBLE' "$out/log"; then
        echo none
    elif [ -e "$out/solution" ]; then
        sed -n 's/^s mip [0-9]* [0-9]* o //p' "$out/solution" | cents
    fi
}

solve_cbc() { # solve_cbc LP: likewise
    timeout "$solver_limit" cbc "$1" solve solution "$out/solution" >"$out/log" || true
    if [ -e "$out/solution" ] && grep -qE '^(Integer i|I)nfeasible' "$out/solution"; then
        echo none
    elif [ -e "$out/solution" ]; then
        sed -n '1s/^Optimal - objective value //p' "$out/solution" | cents
    fi
}

solve() { # solve BOOK SOLVER: its optimum, and the milliseconds of its fastest run; one that takes over a second is not run again
    local begun taken answer run
    for ((run = 0; run < runs; run++)); do
        rm -f "$out/solution"
        begun=$EPOCHREALTIME
        answer=$("solve_$2" "$out/$1.lp")
        taken=$(awk "BEGIN { printf \"%.3f\", 1000 * ($EPOCHREALTIME - $begun) }")
        if [ "$run" = 0 ] || above "${time_of[$1 $2]}" "$taken"; then
            time_of[$1 $2]=$taken
        fi
        if above "$taken" 1000; then
            break
        fi
    done
    if [ -z "$answer" ] && above "$((1000 * solver_limit))" "$taken"; then
        answer=unclear
    fi
    answer_of[$1 $2]=${answer:-late}
}
