# What tests/client/linux --life has the guest do over the mount, with the commands of the host: `bash life.sh PART`, in a folder of the mount. Each step
# is a line on standard output, as those of tests/client/client.c are.
set -u
# what it writes beside the mount
there=$(mktemp -d)
export HOME=$there LC_ALL=C PATH=/usr/local/sbin:/usr/local/bin:/usr/sbin:/usr/bin:/sbin:/bin
export GIT_CONFIG_NOSYSTEM=1 GIT_AUTHOR_NAME=a GIT_AUTHOR_EMAIL=a@b GIT_COMMITTER_NAME=a GIT_COMMITTER_EMAIL=a@b
log=$there/log
# what nobody writes to
mkfifo "$there"/never
exec {never}<> "$there"/never

# well NAME COMMAND..: the command ends with status 0.
well() {
    local name=$1 status
    shift
    "$@" > "$log" 2>&1
    status=$?
    if [ "$status" = 0 ]; then echo "step $name: ok"; else echo "step $name: FAILED status $status: $(tail -c 300 "$log" | tr '\n' ';')"; fi
}

# says NAME TEXT COMMAND..: the command ends well, and this is what it says.
says() {
    local name=$1 text=$2 said
    shift 2
    said=$("$@" 2>&1)
    if [ "$?-$said" = "0-$text" ]; then echo "step $name: ok"; else echo "step $name: FAILED it said '${said:0:300}', and not '$text'"; fi
}

# patient NAME COMMAND..: the same of a command that may take long: each minute a line says that it goes on.
patient() {
    while ! read -rt 60 -u "$never"; do echo "note: it goes on: $1"; done &
    well "$@"
    kill $!
    wait $! 2> /dev/null || :
}

forget() { echo 3 > /proc/sys/vm/drop_caches; }

# larger NAME SIZE FILE: a file has at least so many bytes.
larger() { well "$1" [ "$(stat -c %s "$3")" -ge "$2" ]; }

# tree FOLDER: forty small files in four folders, each with bytes of its own.
tree() {
    for folder in a b c d; do
        mkdir -p "$1/$folder"
        for number in 0 1 2 3 4 5 6 7 8 9; do seq "$((number * 40))" "$((number * 90 + 20))" > "$1/$folder/$number-$folder"; done
    done
}

commits() {
    for number in 1 2 3 4 5; do
        echo "line $number" >> one/a/0-a
        git -C one mv "b/$number-b" "c/moved-$number" || return
        git -C one commit -qam "change $number" || return
    done
}

in_git() {
    well "a repository is made" git init -q -b main one
    tree one
    well "files are added" git -C one add .
    well "and committed" git -C one commit -qm first
    well "five changes with renames are committed" commits
    forget
    well "it is cloned" git clone -q --no-local one two
    well "the clone is whole" git -C two fsck --full --strict
    says "and has all changes" 6 git -C two rev-list --count HEAD
    well "a branch is made in it" git -C two switch -qc branch
    echo more >> two/d/1-d
    well "and committed" git -C two commit -qam more
    well "and pushed" git -C two push -q origin branch
    well "and merged" git -C one merge -q branch
    well "it is packed" git -C one gc -q --prune=now
    forget
    well "and is whole" git -C one fsck --full --strict
    says "nothing differs in it" "" git -C one status --porcelain
}

# 20 MB that do not grow smaller when they are packed.
random_tree() {
    tree "$1"
    for number in 1 2 3 4 5 6 7 8 9 10 11 12 13 14 15 16 17 18 19 20; do head -c 1M /dev/urandom > "$1/$number" || return; done
    git -C "$1" add . && git -C "$1" commit -qm first
}

in_clone() {
    git init -q -b main "$there"/from
    well "20 MB are committed beside the mount" random_tree "$there"/from
    patient "the repository is cloned into it" git clone -q --no-local "$there"/from one
    forget
    well "the clone is whole" git -C one fsck --full --strict
    well "and all files are the same" diff -r --exclude=.git "$there"/from one
    patient "it is cloned there once more" git clone -q --no-local one two
    forget
    well "that clone is whole" git -C two fsck --full --strict
    well "and the same" diff -r --exclude=.git one two
    larger "its pack has 20 MB" 20000000 two/.git/objects/pack/*.pack
}

# What a row of `in_sqlite` holds, by its number: 1,000 letters.
ROW="printf('%08d', n) || replace(hex(zeroblob(496)), '0', char(97 + n % 26))"
base() { sqlite3 -bail -cmd '.timeout 300000' base "$1"; }

# Ten transactions of 5,000 rows each.
rows() {
    local first
    base "create table t (n integer primary key, b text)" || return
    for first in 0 5000 10000 15000 20000 25000 30000 35000 40000 45000; do
        base "with recursive c(n) as (select $first + 1 union all select n + 1 from c where n < $first + 5000) insert into t select n, $ROW from c" || return
    done
}

in_sqlite() {
    patient "50,000 rows of 1,000 bytes are written" rows
    larger "the database has 50 MB" 50000000 base
    forget
    says "each row is there, and what was written" "50000|50000" base "select count(*), sum(b = $ROW) from t"
    patient "each third row is changed" base "update t set b = upper(b) where n % 3 = 0"
    patient "and each third one is deleted" base "delete from t where n % 3 = 1"
    forget
    says "what is left is right" "33333|16666|16667" base "select count(*), sum(n % 3 = 0 and b = upper($ROW)), sum(n % 3 = 2 and b = $ROW) from t"
    patient "the database is packed" base vacuum
    forget
    says "its integrity check" ok base "pragma integrity_check"
    says "and what is left is right" "33333|16666|16667" base "select count(*), sum(n % 3 = 0 and b = upper($ROW)), sum(n % 3 = 2 and b = $ROW) from t"
}

in_rsync() {
    tree "$there"/from
    ln -s a/0-a "$there"/from/link
    chmod 640 "$there"/from/a/1-a
    well "a tree is copied" rsync -a "$there"/from/ to/
    forget
    says "nothing differs by its checksums" "" rsync -a --checksum --dry-run --itemize-changes --delete "$there"/from/ to/
    rm "$there"/from/b/3-b
    echo changed > "$there"/from/c/4-c
    well "a change and a removal are copied" rsync -a --checksum --delete --delay-updates "$there"/from/ to/
    forget
    says "and nothing differs" "" rsync -a --checksum --dry-run --itemize-changes --delete "$there"/from/ to/
    well "the tree is copied back" rsync -a --checksum to/ "$there"/back/
    well "and is the same" diff -r "$there"/from "$there"/back
}

in_make() {
    for number in 1 2 3 4 5 6; do echo "int f$number(void) { return $number; }" > "f$number.c"; done
    { for number in 1 2 3 4 5 6; do echo "int f$number(void);"; done
      echo '#include <stdio.h>'
      echo 'int main(void) { printf("%d\n", f1() + f2() + f3() + f4() + f5() + f6()); return 0; }'; } > main.c
    printf 'sum: main.o f1.o f2.o f3.o f4.o f5.o f6.o\n\t$(CC) -o $@ $^\n' > Makefile
    well "a program is built" make -j 3
    forget
    says "it runs from there" 21 ./sum
    says "nothing is to be done" "make: 'sum' is up to date." make
    sleep 1
    touch f3.c
    says "but for what was touched" "cc    -c -o f3.o f3.c;cc -o sum main.o f1.o f2.o f3.o f4.o f5.o f6.o" sh -c "make | tr '\n' ';' | sed 's/;\$//'"
}

# Twenty files of 100 functions of a line each and one that adds what they return, a program that adds those, and how it is built.
sources() {
    local file number
    for file in $(seq 20); do
        for number in $(seq 100); do echo "int f${file}_$number(int n) { return n % $number == 0 ? n + $file : n * 3 - $number; }"; done
        echo "int f$file(int sum) {"
        for number in $(seq 100); do echo "    sum = (sum + f${file}_$number(sum)) % 100003;"; done
        echo '    return sum;'
        echo '}'
    done | split -l 203 --numeric-suffixes=1 --additional-suffix=.c - "$1/f"
    { echo '#include <stdio.h>'
      for file in $(seq 20); do echo "int f$file(int);"; done
      echo 'int main(void) {'
      echo '    int sum = 1;'
      for file in $(seq 20); do echo "    sum = f$file(sum);"; done
      echo '    printf("%d\n", sum);'
      echo '}'; } > "$1/main.c"
    { echo 'CFLAGS = -O1'
      echo "sum: main.o $(seq -s ' ' -f 'f%02g.o' 20)"
      printf '\t$(CC) -static -o $@ $^\n'; } > "$1/Makefile"
}

in_compile() {
    mkdir "$there"/beside
    sources "$there"/beside
    cp "$there"/beside/* .
    echo "note: $(cat ./*.c | wc -l) lines"
    patient "a program of some thousand lines is built beside the mount" make -s -C "$there"/beside
    patient "and in it" make -s -j 2
    forget
    for number in main $(seq -f 'f%02g' 20); do cmp "$number.o" "$there/beside/$number.o" || break; done > "$there"/differ 2>&1
    says "each object is the same" "" cat "$there"/differ
    well "and so is the program" cmp sum "$there"/beside/sum
    says "it runs from there, and says the same" "$("$there"/beside/sum)" ./sum
    says "nothing is to be done" "make: 'sum' is up to date." make
}

# 100,020 names below a folder, in 400 folders with two of their own each: files with bytes of their own, further names of some, and links to them. (One
# process makes them all, since to start one takes an emulated machine long.)
names() {
    perl -e 'my ($at) = @ARGV;
        for my $to ($at, map { my $one = $_; "$at/$one", map { "$at/$one/$_" } 1 .. 20 } 1 .. 20) {
            mkdir $to or die;
            next if $to !~ m{/\d+/\d+$};
            mkdir "$to/$_" or die for "names", "links";
            for (1 .. 185) { open my $file, ">", "$to/f$_" or die; print $file "$to $_\n"; close $file or die }
            for (1 .. 31) { link "$to/f$_", "$to/names/f$_" and symlink "../f$_", "$to/links/f$_" or die }
        }' "$1"
}

# What each name of a folder is: for a directory its mode, owner and time, for others their names and size too, and where a link leads.
listed() { (cd "$1" && find . -type d -printf '%p %m %U:%G %T@\n' -o -printf '%p %y %m %U:%G %T@ %n %s %l\n' | sort); }

listed_alike() {
    listed "$1" > "$there"/wanted
    listed "$2" > "$there"/found
    cmp "$there"/wanted "$there"/found || { diff "$there"/wanted "$there"/found | tail -3; return 1; }
}

in_names() {
    patient "a tree of 100,000 names is made beside the mount" names "$there"/from
    says "so many they are" 100020 sh -c 'find "$1" -mindepth 1 | wc -l' sh "$there"/from
    patient "it is copied" cp -a "$there"/from to
    forget
    patient "each name is there, with its kind, mode, owner, size and times" listed_alike "$there"/from to
    patient "and each file has its bytes" diff -r --no-dereference "$there"/from to
    patient "all are removed" rm -rf to
    says "and nothing is left" "" ls -A
}

# Thirty times a source changes right behind a build of it, and the next build is to see that.
in_again() {
    printf 'built: source\n\tcp source built\n' > Makefile
    local round stale=0
    for round in $(seq 30); do
        echo "$round" > source
        make -s > "$log" 2>&1 || { echo "step a build ends: FAILED $(tail -c 200 "$log")"; return; }
        [ "$(cat built)" = "$round" ] || stale=$((stale + 1))
    done
    well "make sees each change within a second" [ "$stale" = 0 ]
    echo "note: $stale of 30 builds were stale"
}

# Stressors of stress-ng, each with the number of its operations: those that an NFS mount has and that check what they find. (An operation of `link` is
# 8,192 names of one file, which may have 1,024.) All run side by side from one start, which takes longer than most of them.
STRESSORS="dentry=20 dir=20 dirdeep=20 rename=60 touch=40 filename=4 lockf=40 flock=40 chmod=4 hdd=20"
SMALL="--dentries 10 --dir-dirs 64 --dirdeep-dirs 2 --dirdeep-inodes 30 --hdd-bytes 1M --hdd-write-size 32K"

# one_start SECONDS: all of them, until their operations are done or so many seconds are over.
one_start() {
    local words=() pair
    for pair in $STRESSORS; do words+=("--${pair%=*}" 1 "--${pair%=*}-ops" "${pair#*=}"); done
    # shellcheck disable=SC2086
    timeout -k 20 "$(($1 + 60))" stress-ng --verify --temp-path "$PWD" --timeout "$1" --metrics "${words[@]}" $SMALL
}

in_stress() {
    local pair did
    well "stress-ng ends, and finds nothing wrong" one_start 60
    cp "$log" "$there"/said
    for pair in $STRESSORS; do
        did=$(awk -v name="${pair%=*}" '$2 == "metrc:" && $4 == name { print $5; exit }' "$there"/said)
        echo "note: ${pair%=*}: ${did:-0} of ${pair#*=} operations"
        well "operations of ${pair%=*} among them" [ "${did:-0}" -gt 0 ]
    done
}

in_bonnie() {
    well "bonnie++ makes, reads and removes files" bonnie++ -d "$PWD" -u 0:0 -s 0 -n 1:4000:10:4 -q
}

# verified HOW SIZE JOBS: fio writes files of that size by so many jobs, and compares what it reads with sums.
verified() {
    local words=(--name="$1-$2" --directory="$PWD" --rw="$1" --size="$2" --bs=4k --numjobs="$3" --ioengine=psync --fallocate=none --verify=crc32c --verify_fatal=1)
    patient "fio writes $2 ($1), reads back and verifies" timeout 1800 fio "${words[@]}" --do_verify=1 --end_fsync=1
    forget
    patient "and verifies once more" timeout 1800 fio "${words[@]}" --verify_only=1
}

in_fio() {
    for how in write randwrite; do
        verified "$how" 768k 2
        verified "$how" 64m 1
    done
}

# dbench's own load, by two clients for a minute; and of what it did, what it cannot have done without.
in_dbench() {
    local kind did
    patient "dbench runs, and finds nothing wrong" timeout -k 20 900 dbench -D "$PWD" -t 60 2
    cp "$log" "$there"/said
    for kind in NTCreateX Close Rename Unlink WriteX ReadX Flush; do
        did=$(awk -v name="$kind" '$1 == name { print $2; exit }' "$there"/said)
        echo "note: $kind: ${did:-0}"
        well "operations of $kind among them" [ "${did:-0}" -gt 0 ]
    done
    tail -1 "$there"/said | sed 's/^/note: /'
}

"in_$1"
