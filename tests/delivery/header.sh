# Sourced by tests/delivery/run: what the header's names, numbers and sizes are, that it compiles clean in every C and C++ that it is for, that
# the lines which failed open no longer compile, and that no call lacks its twin.
header=include/guvrendik.h

# compiles COMPILER.. FLAG..: the file that uses the header does, without a warning.
compiles() { "$@" -Wall -Wextra -pedantic -Werror -Iinclude -fsyntax-only tests/delivery/header.c; }
# refuses WORD COMPILER.. FLAG..: it does not, and what is said of it has the word.
refuses() {
    local word=$1
    shift
    ! compiles "$@" >"$room/refused" 2>&1 && grep -q "$word" "$room/refused"
}
for compiler in 'gcc -x c' 'clang -x c' 'g++ -x c++' 'clang++ -x c++'; do
    read -r -a words <<<"$compiler"
    command -v "${words[0]}" >/dev/null || continue
    case $compiler in
    *++) standards='c++98 c++11 c++14 c++17 c++20' ;;
    *) standards='c99 c11 c17' ;;
    esac
    for standard in $standards; do
        check "the header by $compiler -std=$standard" compiles "${words[@]}" -std="$standard"
        check "a claim's rights are no numbers of rights, by $compiler -std=$standard" refuses GUVRENDIK_READ "${words[@]}" -std="$standard" -DWRONG=1
        check "an action's flags are no numbers of flags, by $compiler -std=$standard" \
            refuses GUVRENDIK_INCREASES_SOVEREIGNTY "${words[@]}" -std="$standard" -DWRONG=2
        case $compiler in
        *++) check "a right's number is no part of a sum, by $compiler -std=$standard" refuses guvrendik_right "${words[@]}" -std="$standard" -DWRONG=3 ;;
        esac
    done
done

# The names and numbers of the constants, a line to each.
constants=$(sed -nE 's/^#define (GUVRENDIK_[A-Z0-9_]+) ([^ ]+).*/\1 \2/p; s/^    (GUVRENDIK_RIGHT_[A-Z_]+) = ([0-9]+),?$/\1 \2/p' $header)
check 'every constant has the prefix of a family' same '' \
    "$(grep -vE '^GUVRENDIK_(VERSION|LIMIT|TEXT|MAX|SIZE|REGISTER|ACTOR|RIGHT|CAN|SETS|REFUSAL|VIOLATION|PROPOSES|CHECK|DECISION|LIST|REASON|REMARK|CELL)_' <<<"$constants")"
check 'and is a plain integer' same '' "$(grep -vE ' (0|[1-9][0-9]*)$' <<<"$constants")"
check 'no family has one number under two names' same '' \
    "$(grep -E '_(RIGHT|CAN|SETS|REFUSAL|VIOLATION|PROPOSES|CHECK|DECISION|ACTOR|LIST|REASON|REMARK|CELL)_' <<<"$constants" | sed -E 's/^GUVRENDIK_([A-Z]+)_[^ ]+/\1/' | sort | uniq -d)"
# listed_part FAMILY: the numbers of the family are 1, 2, 4 and so on, in the order of the header.
listed_part() { same "$(grep "^GUVRENDIK_$1_" <<<"$constants" | cut -d ' ' -f 2)" "$(for ((i = 0; i < $2; i++)); do echo $((1 << i)); done)"; }
check 'each part of a claim is the power of two of its place' listed_part CAN 17
check 'so is each part of a flag' listed_part SETS 10
check 'the parts of a claim are the rights, in their order' same "$(sed -nE 's/^GUVRENDIK_RIGHT_([A-Z_]+) .*/\1/p' <<<"$constants")" \
    "$(sed -nE 's/^GUVRENDIK_CAN_([A-Z_]+) .*/\1/p' <<<"$constants")"
check "a right's name is that of guvrendik_right_name" same "$(sed -nE 's/^GUVRENDIK_RIGHT_([A-Z_]+) ([0-9]+)$/right \2: \1/p' <<<"$constants")" \
    "$(grep -E '^right [0-9]+: [A-Z_]+$' tests/calls/expected)"
check 'a size for each struct, as tests/model/layout.h has it' same \
    "$(sed -nE 's/^SIZE\(([a-z_]+), ([0-9]+)\)$/\1 \2/p' tests/model/layout.h | sort)" \
    "$(sed -nE 's/^GUVRENDIK_SIZE_([A-Z_]+) ([0-9]+)$/\L\1 \2/p' <<<"$constants" | sort)"

# The calls by value, and those of their twins.
by_value=$(sed -nE 's/^guvrendik_[a-z_]+ guvrendik_([a-z_]+)\(.*/\1/p' $header | sort)
check 'each call has its twin in the header' same "$by_value" "$(sed -nE 's/^void guvrendik_([a-z_]+)_at\(.*/\1/p' $header | sort)"
check 'and in native/calls.c' same "$by_value" "$(sed -nE 's/^void guvrendik_([a-z_]+)_at\(.*/\1/p' native/calls.c | sort)"
check 'and each was held to its call' same "$by_value" "$(sed -nE 's/^twin of ([a-z_]+): called, 0 differ$/\1/p' tests/calls/expected | sort)"
