# Sourced by tests/delivery/run: the scripts, called as people call them, from a clean copy, without the kit and with nothing in the environment. Every status
# of ./run, what it says of each mistake of the table, and what it prints, which is what the cases expect.

# A copy without anything that was built, which anybody may read.
copy=$room/copy
mkdir "$copy" && chmod 755 "$room" "$copy"
tar -c --exclude=target --exclude=build --exclude=.git --exclude='./crates/*/out' . | tar -x -C "$copy"
# Not as root, who reads every file.
person=()
if [ "$(id -u)" = 0 ] && command -v setpriv >/dev/null; then person=(setpriv --reuid=65534 --regid=65534 --clear-groups); fi

# ran STATUS TO-STANDARD-ERROR SCRIPT WORD..: a script of the copy ends so, and says so.
ran() {
    local status=$1 due=$2 said
    shift 2
    said=$(cd "$copy" && "${person[@]}" env -i PATH="$clean" "$@" 2>&1 >"$room/printed")
    [ $? = "$status" ] && same "$due" "$said"
}
delivered="run: by the delivered build of these sources for $(machine), which ./test proves"
started=$(date +%s%N)
check './run from a clean copy' ran 1 '' ./run
took=$((($(date +%s%N) - started) / 1000000))
check "in under a second, and not $took ms" [ "$took" -lt 1000 ]
check 'its verdict on case R' diff "$room/printed" examples/case-r/expected
check './run -v says which build it was' ran 1 "$delivered" ./run -v
for example in json plan; do
    check "./run examples/$example" ran 1 '' ./run "examples/$example"
    check "its verdict on examples/$example" diff "$room/printed" "examples/$example/expected"
done
ln -s "$copy/run" "$room/link" && ln -s ../link "$copy/linked"
check './run through a link' ran 1 '' "$room/link"
check 'and through a link to it' ran 1 '' ./linked examples/case-r
check 'the same verdict' diff "$room/printed" examples/case-r/expected
check 'from another folder' ran 1 '' bash -c "cd / && '$copy/run'"
check 'the same verdict' diff "$room/printed" examples/case-r/expected
check './run with nothing in the environment' bash -c "cd '$copy' && env -i ./run examples/permitted"
check './run "" is a wrong call' ran 126 'run: the name of the folder is empty; --help says how to call it' ./run ''
check './run of a folder that is not there' ran 126 'run: nowhere: no such folder; --help says how to call it' ./run nowhere
check './run of a file' ran 126 'run: crates.txt: a file, and not the folder of one; --help says how to call it' ./run crates.txt
check './run of two folders' ran 126 'run: one folder at most; --help says how to call it' ./run examples/plan examples/json
check './run --version' ran 126 'run: --version is unknown; --help says how to call it' ./run --version
check './run into a full device' ran 127 'run: the verdict could not be printed' bash -c './run >/dev/full'
check './run without a standard output' ran 127 'run: the verdict could not be printed' bash -c './run >&-'
check './run of a folder that may not be entered' bash -c "mkdir '$copy/shut' && chmod 000 '$copy/shut'"
if [ ${#person[@]} -gt 0 ]; then check 'is trouble' ran 127 "run: shut: may not be entered" ./run shut; fi

# ---- every script says how it is called, and does nothing else; an unknown word is a wrong call

for script in run deliver library install test bench/run tests/*/run tests/model/selftest; do
    for word in -h --help; do
        check "$script $word" ran 0 '' bash "$script" "$word"
        check "$script $word prints its head" same "$(sed -n '2s/^# //p' "$script")" "$(head -n 1 "$room/printed")"
    done
    check "$script --unknown" bash -c "cd '$copy' && bash '$script' --unknown >/dev/null 2>&1; [ \$? = 126 ]"
done

# ---- mistakes

# mistake NUMBER EXAMPLE EDIT STATUS SAID: a row of the table. What speaks against it goes to a file of its own.
mistake() {
    local folder=$copy/mistakes/$1 said status
    cp -r "$copy/examples/$2" "$folder" && chmod 777 "$folder"
    (cd "$folder" && eval "$3")
    said=$(cd "$copy" && "${person[@]}" env -i PATH="$clean" ./run "mistakes/$1" 2>&1 >"$folder.printed")
    status=$?
    if [ "$status" != "$4" ] || [ "$said" != "$5" ]; then
        printf 'due: %s %s\nsaid: %s %s\n' "$4" "$5" "$status" "$said" >"$folder.fault"
    fi
}
rows=()
while IFS= read -r row; do rows+=("$row"); done < <(grep -E '^[a-z]' tests/delivery/mistakes)
# work K OF: every row whose place leaves K.
work() {
    local i example edit status said
    for ((i = $1; i < ${#rows[@]}; i += $2)); do
        IFS='|' read -r example edit status said <<<"${rows[i]}"
        said=${said# }
        if [ "$(id -u)" = 0 ] && [ ${#person[@]} = 0 ] && [[ $edit == *chmod* ]]; then continue; fi
        mistake "$i" "${example// /}" "$edit" "${status// /}" "${said/@/$i}"
    done
}
mkdir "$copy/mistakes"
for ((k = 0; k < 2; k++)); do work "$k" 2 & done
wait
for i in "${!rows[@]}"; do check "${rows[i]}" bash -c "! cat '$copy/mistakes/$i.fault' 2>/dev/null"; done
check 'a table of 41 mistakes or more' [ ${#rows[@]} -ge 41 ]

# ---- other machines, other sources

mkdir "$copy/other" && cp "$room/machine/uname" "$copy/other"
check './run where nothing is delivered' ran 127 "run: nothing is delivered for Linux on riscv64; there are $(cd delivered && echo *)" \
    env PATH="$copy/other:$clean" ./run

echo >>"$copy/crates.txt"
check './run with other sources and no kit' ran 127 \
    'run: these sources are not those of the delivered build, and there is no Rattle kit (rt) to prove them with' ./run
