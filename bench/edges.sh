#!/bin/sh
# Tries the built program where a shell closes its streams, where two sessions meet, and on files that aren't there, can't be read or can't be written.
# Says a line for each try that didn't end as it must, and at last how many did. The words are the program, if it isn't the one that was built here.
# As root it also tries a disk that is full, one that is mounted for reading alone, and as another user files and folders that this one may not use.
pstore=$(readlink -f "${1:-$(dirname "$0")/../crates/pstore/out/pstore}")
folder=$(mktemp -d)
trap 'umount "$folder/small" 2>/dev/null; chmod -R u+w "$folder"; rm -rf "$folder"' EXIT
cd "$folder" || exit 1
well=0
ill=0

# Compares what came with what must come: NAME CAME WANTED..
check() {
    name=$1
    came=$2
    shift 2
    for wanted; do
        if [ "$came" = "$wanted" ]; then
            well=$((well + 1))
            return
        fi
    done
    ill=$((ill + 1))
    echo "$name: came [$came], wanted [$*]"
}

# Runs a word with streams closed, and gives its status: CLOSED WORD..
closed() {
    streams=$1
    shift
    (
        case $streams in *i*) exec <&- ;; *) exec <lines ;; esac
        case $streams in *o*) exec >&- ;; *) exec >said ;; esac
        case $streams in *e*) exec 2>&- ;; *) exec 2>told ;; esac
        "$pstore" "$@"
    )
    echo $?
}

printf 'mkdir 0x8022 Inbox\nls 0x8022\nquit\n' >lines
"$pstore" new plain.pst Mail >/dev/null
for streams in i o e io ie oe ioe; do
    for word in info nodes look; do
        cp plain.pst a.pst && cp plain.pst.gate a.pst.gate
        status=$(closed $streams $word a.pst)
        case $word:$streams in
            look:*i*o*) check "$word with $streams closed" "$status" 5 6 ;;
            look:*i*) check "$word with $streams closed" "$status" 5 ;;
            *:*o*) check "$word with $streams closed" "$status" 6 ;;
            *) check "$word with $streams closed" "$status" 0 ;;
        esac
        cmp -s plain.pst a.pst && cmp -s plain.pst.gate a.pst.gate
        check "$word with $streams closed leaves the files" $? 0
    done
    cp plain.pst a.pst && cp plain.pst.gate a.pst.gate
    status=$(closed $streams run a.pst)
    case $streams in
        *i*o*) check "run with $streams closed" "$status" 5 6 ;;
        *i*) check "run with $streams closed" "$status" 5 ;;
        *o*) check "run with $streams closed" "$status" 6 ;;
        *) check "run with $streams closed" "$status" 0 ;;
    esac
    check "after run with $streams closed" "$("$pstore" nodes a.pst | tail -n 1 | cut -c1-2)" ok
    rm -f a.pst a.pst.gate
    status=$(closed $streams new a.pst Mail)
    case $streams in
        *o*) check "new with $streams closed" "$status" 6 ;;
        *) check "new with $streams closed" "$status" 0 ;;
    esac
    check "after new with $streams closed" "$("$pstore" nodes a.pst | tail -n 1)" "ok 26"
done

# Two sessions: the second is refused until the first has ended.
cp plain.pst a.pst && cp plain.pst.gate a.pst.gate
mkfifo pipe
"$pstore" run a.pst <pipe >first &
first=$!
exec 9>pipe
echo 'mkdir 0x8022 Inbox' >&9
until [ -s first ]; do sleep 0.05; done
for word in run info nodes look mend; do
    check "$word beside a session" "$("$pstore" $word a.pst </dev/null 2>/dev/null; echo $?)" "refused busy
3"
done
check "new beside a session" "$("$pstore" new a.pst Mail </dev/null 2>/dev/null; echo $?)" "refused busy
3"
echo quit >&9
exec 9>&-
wait $first
check "the first session" "$?" 0
check "after both" "$(echo 'ls 0x8022' | "$pstore" run a.pst | tail -n 1)" "ok 1"
"$pstore" run a.pst <pipe >first &
first=$!
exec 9>pipe
echo 'ls 0x8022' >&9
until [ -s first ]; do sleep 0.05; done
kill -9 $first
exec 9>&-
wait $first 2>/dev/null
check "after a session that was killed" "$(echo 'ls 0x8022' | "$pstore" run a.pst | tail -n 1)" "ok 1"

# A session that is killed within a transaction leaves the tree before it. Where the output is closed before the reply to `commit`, the transaction was carried out.
"$pstore" run a.pst <pipe >within &
first=$!
exec 9>pipe
printf 'begin\nmkdir 0x8022 Gone\n' >&9
until [ -f within ] && [ "$(wc -l <within)" = 2 ]; do sleep 0.05; done
kill -9 $first
exec 9>&-
wait $first 2>/dev/null
check "the replies in a transaction" "$(cat within)" "ok
ok 0x80a2"
check "after a session that was killed in a transaction" "$(echo 'ls 0x8022' | "$pstore" run a.pst | tail -n 1)" "ok 1"
mkfifo replies
"$pstore" run a.pst <pipe >replies 2>told &
first=$!
exec 9>pipe 8<replies
printf 'begin\nmkdir 0x8022 Kept\n' >&9
read -r _ <&8
read -r reply <&8
check "the reply before the output is closed" "$reply" "ok 0x80a2"
exec 8<&-
echo commit >&9
exec 9>&-
wait $first
check "a \`commit\` whose reply can't be said" "$?" 6
check "what is told of it" "$(head -n 1 told)" output
check "after a \`commit\` whose reply can't be said" "$(echo 'ls 0x8022' | "$pstore" run a.pst | tail -n 2)" '- 0x80a2 folder "Kept"
ok 2'
rm replies

# What is there, and may be done with it.
check "a file that isn't there" "$("$pstore" run none.pst </dev/null 2>told; echo $?)" "refused empty
3"
check "what is told of it" "$(cat told)" "none.pst: there is no such file"
ls none.pst none.pst.gate >/dev/null 2>&1
check "nothing is made of it" $? 2
mkdir folder
for word in info nodes look run mend; do
    check "$word of a folder" "$("$pstore" $word folder </dev/null 2>told; echo $?)" 4
    check "what is told of $word of a folder" "$(head -n 1 told)" disk
done
check "new in the place of a folder" "$("$pstore" new folder Mail 2>told; echo $?)" 4
for word in decode compact; do
    check "a copy by $word into a folder" "$("$pstore" $word plain.pst folder 2>told; echo $?)" 4
    check "a copy by $word where no folder is" "$("$pstore" $word plain.pst nowhere/a.pst 2>told; echo $?)" 4
    check "a copy by $word over its file" "$("$pstore" $word plain.pst plain.pst 2>told; echo $?)" "refused not-empty
3"
    cp plain.pst c.pst
    : >c.pst.gate
    check "a copy by $word over the gate" "$("$pstore" $word c.pst c.pst.gate 2>told; echo $?)" 4
    check "the gate is as it was" "$(wc -c <c.pst.gate)" 0
    rm c.pst c.pst.gate
done
check "the folder is as it was" "$(ls -A folder | wc -l)" 0
cp plain.pst under.pst
mkdir under.pst.gate
check "a folder in the place of a gate" "$("$pstore" run under.pst </dev/null 2>told; echo $?)" 4
cmp -s plain.pst under.pst
check "the file beside it is as it was" $? 0
check "a pipe" "$("$pstore" info pipe 2>told; echo $?)" 4
for word in info nodes look run mend; do
    check "$word of a device" "$("$pstore" $word /dev/null </dev/null 2>told; echo $?)" 4
done
: >e.pst
check "a file without bytes" "$("$pstore" run e.pst </dev/null 2>/dev/null; echo $?)" "refused empty
3"
check "no words" "$("$pstore" 2>told; echo $?)" 2
check "what is told of them" "$(head -n 1 told)" words
cp plain.pst.gate g.pst.gate
check "new beside an old gate" "$("$pstore" new g.pst Mail 2>told; echo $?)" "refused not-empty
3"
check "which file it is" "$(cut -d : -f 1 told)" g.pst.gate
cp plain.pst r.pst
chmod 400 r.pst
for word in info nodes look; do
    check "$word of a file that can't be written, without its gate" "$("$pstore" $word r.pst </dev/null >/dev/null 2>&1; echo $?)" 0
done
ls r.pst.gate >/dev/null 2>&1
check "no gate is made" $? 2

# Output to a full device, and input from a folder.
cp plain.pst a.pst && cp plain.pst.gate a.pst.gate
check "output to a full device" "$(echo 'mkdir 0x8022 Full' | "$pstore" run a.pst 2>told >/dev/full; echo $?)" 6
check "what is told of it" "$(head -n 1 told)" output
check "after output to a full device" "$(echo 'ls 0x8022' | "$pstore" run a.pst | head -n 1)" '- 0x8082 folder "Full"'
check "output to a full device at \`begin\`" "$(printf 'begin\nmkdir 0x8022 Within\ncommit\n' | "$pstore" run a.pst 2>told >/dev/full; echo $?)" 6
check "after output to a full device at \`begin\`" "$(echo 'ls 0x8022' | "$pstore" run a.pst | tail -n 1)" "ok 1"
check "input from a folder" "$("$pstore" run a.pst 2>told <folder; echo $?)" 5
check "what is told of it" "$(head -n 1 told)" input
check "after input from a folder" "$(echo 'ls 0x8022' | "$pstore" run a.pst | tail -n 1)" "ok 1"

# What a user who isn't root may not use. The other user is nobody, with a copy of the program that this one can reach.
if [ "$(id -u)" = 0 ]; then
    as="setpriv --reuid=65534 --regid=65534 --clear-groups"
    cp "$pstore" program && chmod 755 . program
    if $as "$folder/program" info plain.pst >/dev/null 2>&1; then
        mkdir closed shut && cp plain.pst shut/a.pst && cp plain.pst.gate shut/a.pst.gate && chmod 777 closed && chmod 755 shut
        cp plain.pst n.pst && cp plain.pst.gate n.pst.gate && chmod 000 n.pst n.pst.gate
        for word in info nodes look run mend; do
            check "$word of a file that may not be read" "$($as "$folder/program" $word n.pst </dev/null 2>/dev/null; echo $?)" 4
        done
        check "new in its place" "$($as "$folder/program" new n.pst Mail 2>/dev/null; echo $?)" 4
        check "what is told of it" "$($as "$folder/program" info n.pst 2>&1 | tail -n 1 | cut -d : -f 1)" n.pst
        chmod 444 n.pst n.pst.gate
        for word in info nodes look; do
            check "$word of a file that may only be read" "$($as "$folder/program" $word n.pst </dev/null >/dev/null 2>&1; echo $?)" 0
        done
        check "run of a file that may only be read" "$(echo 'mkdir 0x8022 A' | $as "$folder/program" run n.pst 2>/dev/null; echo $?)" 4
        chmod 666 n.pst
        check "mend of a file that may only be read" "$($as "$folder/program" mend n.pst 2>/dev/null </dev/null; echo $?)" 4
        check "run where only the gate may not be written" "$(echo 'mkdir 0x8022 A' | $as "$folder/program" run n.pst 2>/dev/null; echo $?)" 4
        chmod 000 n.pst.gate
        for word in info look run; do
            check "$word where the gate may not be read" "$(echo 'ls 0x8022' | $as "$folder/program" $word n.pst 2>/dev/null; echo $?)" 4
        done
        check "after all of these" "$(echo 'ls 0x8022' | "$pstore" run n.pst)" "ok 0"
        rm -f shut/a.pst.gate && chmod 666 shut/a.pst
        check "run where no gate can be made" "$(echo 'mkdir 0x8022 A' | $as "$folder/program" run shut/a.pst 2>/dev/null; echo $?)" 4
        check "look there" "$(echo 'ls 0x8022' | $as "$folder/program" look shut/a.pst)" "ok 0"
        check "new where no file can be made" "$($as "$folder/program" new shut/b.pst Mail 2>/dev/null; echo $?)" 4
        for word in decode compact; do
            check "a copy by $word where no file can be made" "$($as "$folder/program" $word plain.pst shut/b.pst 2>/dev/null; echo $?)" 4
        done
        ls shut/b.pst shut/b.pst.gate >/dev/null 2>&1
        check "nothing is made there" $? 2
        check "after that" "$(echo 'mkdir 0x8022 A' | "$pstore" run shut/a.pst)" "ok 0x8082"
    else
        echo "no other user can run the program"
    fi
else
    chmod 000 r.pst
    check "a file that may not be read" "$("$pstore" info r.pst 2>told; echo $?)" 4
    chmod 400 r.pst
    check "run of a file that may only be read" "$("$pstore" run r.pst </dev/null 2>told; echo $?)" 4
fi

if [ "$(id -u)" = 0 ]; then
    mkdir small
    if mount -t tmpfs -o size=300k tmpfs small 2>/dev/null; then
        "$pstore" new small/a.pst Mail >/dev/null
        echo 'mkdir 0x8022 A' | "$pstore" run small/a.pst >/dev/null
        dd if=/dev/zero of=small/fill bs=1k 2>/dev/null
        hex=$(head -c 200000 /dev/zero | tr '\0' 0)
        printf 'new 0x8082 IPM.Note 0\nattach 0x200024 a %s\n' "$hex" | "$pstore" run small/a.pst >said 2>told
        check "a full disk" $? 4
        check "what is told of it" "$(tail -n 1 told | cut -d : -f 1)" small/a.pst
        check "look on a full disk" "$(echo 'ls 0x8022' | "$pstore" look small/a.pst | tail -n 1)" "ok 1"
        # The message is the first or the second of the store, by how far the line before came: the attachment is given to both, and one of them may not be there.
        printf 'begin\nmkdir 0x8022 B\nnew 0x80a2 IPM.Note 0\nattach 0x200024 a %s\nattach 0x200044 a %s\ncommit\n' "$hex" "$hex" | "$pstore" run small/a.pst >said 2>told
        check "a full disk at \`commit\`" $? 4
        check "the replies before it" "$(head -n 2 said)" "ok
ok 0x80a2"
        check "that \`commit\` has none" "$(wc -l <said)" 5
        check "look after a full disk at \`commit\`" "$(printf 'ls 0x8022\nls 0x80a2\n' | "$pstore" look small/a.pst | grep -v '^- ')" "ok 1
no object"
        check "new on a full disk" "$("$pstore" new small/b.pst Mail 2>/dev/null; echo $?)" 4
        for word in decode compact; do
            check "a copy by $word to a full disk" "$("$pstore" $word plain.pst small/c.pst 2>told; echo $?)" 4
            check "what is told of the copy by $word" "$(tail -n 1 told | cut -d : -f 1)" small/c.pst
            rm -f small/c.pst
        done
        rm -f small/fill small/b.pst small/b.pst.gate small/c.pst
        check "after a full disk" "$(echo 'ls 0x8022' | "$pstore" run small/a.pst | tail -n 1)" "ok 1"
        rm small/a.pst.gate
        dd if=/dev/zero of=small/fill bs=1k 2>/dev/null
        check "a full disk without room for the gate" "$(echo 'mkdir 0x8022 B' | "$pstore" run small/a.pst 2>told; echo $?)" 4
        check "what is told of the gate" "$(tail -n 1 told | cut -d : -f 1)" small/a.pst.gate
        rm small/fill
        check "after it" "$(echo 'mkdir 0x8022 B' | "$pstore" run small/a.pst)" "ok 0x80a2"
        mount -o remount,ro small
        for word in info nodes look; do
            check "$word on a disk for reading alone" "$("$pstore" $word small/a.pst </dev/null >/dev/null 2>&1; echo $?)" 0
        done
        check "run on a disk for reading alone" "$("$pstore" run small/a.pst </dev/null 2>/dev/null; echo $?)" 4
        umount small
    else
        echo "no small disk could be mounted"
    fi
fi
echo "$well ended as they must, $ill didn't"
[ "$ill" = 0 ]
