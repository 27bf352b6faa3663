#!/bin/sh
# Two offices on two machines, as it were: each has a mail folder of its own, and rsync, rclone or Syncthing carries the files between them. A file is under
# way while the agent runs, the carrier is killed in the middle, a file is replaced under its name, and a half-written one lies at the sender's.
#
# Usage: examples/carriers.sh [PROGRAM] [rsync|rclone|syncthing ..]
#
# PROGRAM is dbremote, by default the launcher beside this folder. Without a carrier each of the three has its turn; one that is not there is left out, which
# is said in a line. It works in a new folder, which it removes at the end, talks to 127.0.0.1 alone, and ends each process that it started. It prints what it
# does and what is said, and ends with status 1 where something is not as docs/REPLICATION.md has it ("What carries the folder").
# Functions are called by a carrier's name, and at the end.
# shellcheck disable=SC2317
top=$(cd "$(dirname "$0")/.." && pwd -P) || exit 125
program=$top/dbremote
carriers=
for word; do
    case $word in
        rsync | rclone | syncthing) carriers="$carriers $word" ;;
        /*) program=$word ;;
        *) program=$(pwd -P)/$word ;;
    esac
done
folder=$(mktemp -d) || exit 125
wrong=0
# The process groups that were started and are not ended yet.
groups=

end_all() {
    for group in $groups; do
        kill -9 "-$group" 2>/dev/null
    done
    wait 2>/dev/null
    rm -rf "$folder"
}
trap end_all EXIT
trap 'exit 129' HUP
trap 'exit 130' INT
trap 'exit 143' TERM

say() {
    printf '\n# %s\n' "$*"
}

differs() {
    echo "differs: $*"
    wrong=1
}

# Starts a process group in the background: `group` is its number.
start() {
    setsid "$@" >>"$folder/noise" 2>&1 </dev/null &
    group=$!
    groups="$groups $group"
}

# Kills a process group, as a machine that stops does.
kill_group() {
    kill -9 "-$1" 2>/dev/null
    wait "$1" 2>/dev/null
}

# Waits until a command succeeds, for 30 seconds at most.
await() {
    tries=0
    until "$@"; do
        tries=$((tries + 1))
        if [ $tries -gt 300 ]; then
            differs "waited in vain: $*"
            return 1
        fi
        sleep 0.1
    done
}

# Runs a script on a database: `end` is the offset that it committed last.
sql() {
    echo "\$ dbremote sql $1"
    printf '%s\n' "$2" | sed 's/x\{50,\}/x..x/' | sed '2,29d'
    said=$(cd "$folder/$1" && printf '%s\n' "$2" | "$program" sql "$1") || differs "sql $1 failed: $said"
    end=$(printf '%s\n' "$said" | sed -n 's/^committed //p' | tail -n 1)
    printf '%s\n' "$said" | tail -n 2
}

# Runs the agent of a database with a message file's greatest length, so that a large transaction is one file. The status is to be the second word, and each
# further word a line that begins so; there is `junk` only where that is one of them.
agent() {
    name=$1
    want=$2
    shift 2
    echo "\$ dbremote agent $name --mail box -l 1048576"
    said=$(cd "$folder/$name" && "$program" agent "$name" --mail box -l 1048576)
    got=$?
    printf '%s\n' "$said"
    [ $got -eq "$want" ] || differs "the status is $got, and not $want"
    for line; do
        printf '%s\n' "$said" | grep -q "^$line" || differs "there is no line: $line"
    done
    case "$*" in
        *junk*) ;;
        *) ! printf '%s\n' "$said" | grep -q '^junk' || differs 'there is junk' ;;
    esac
}

begin() {
    mkdir -p "$folder/hq/box" "$folder/shop/box"
    for name in hq shop; do
        (cd "$folder/$name" && "$program" init $name $name)
    done
    tables='CREATE TABLE note (id INTEGER PRIMARY KEY, body VARCHAR(32767)); CREATE PUBLICATION notes (TABLE note);'
    sql hq "$tables GRANT REMOTE TO shop; CREATE SUBSCRIPTION TO notes FOR shop; START SUBSCRIPTION TO notes FOR shop;"
    sql shop "$tables GRANT CONSOLIDATE TO hq; CREATE SUBSCRIPTION TO notes FOR hq; START SUBSCRIPTION TO notes FOR hq;"
}

# One transaction of 900,000 bytes, in notes from this number on.
write_large() {
    sql hq "$(awk -v first="$1" 'BEGIN { for (i = 0; i < 30000; i++) text = text "x"
        for (i = first; i < first + 30; i++) print "INSERT INTO note VALUES (" i ", \047" text "\047);"; print "COMMIT;" }')"
    agent hq 0 'to shop put 1 up to'
}

# Whether a file lies in the shop's folder, under whatever name.
is_begun() {
    [ -n "$(find "$folder/shop/box/shop" -type f 2>/dev/null)" ]
}

# Whether no message lies in either mail folder: what was carried and is done with has gone from both.
is_clear() {
    [ -z "$(find "$folder/hq/box" "$folder/shop/box" -type f ! -name '.*' ! -path '*/.stfolder/*')" ]
}

# The names of the files in both mail folders, but for those of the carrier itself.
look() {
    echo "\$ ls -A hq/box/* shop/box/*"
    (cd "$folder" && find hq/box shop/box -type f ! -name .stignore ! -path '*/.stfolder/*' | LC_ALL=C sort)
}

# What each carrier goes through. It has carry_down, which brings to the shop what lies at the head office, and carry_up the other way; slow_down, which only
# begins to, slowly; finish_down, which waits for that, and kill_carrier. How the agent takes a file of which a part is there is early_status and early_line.
try_carrier() {
    say "$1: there and back"
    begin
    begin_carrier
    sql hq "INSERT INTO note VALUES (1, 'lamp'); COMMIT;"
    agent hq 0 "to shop put 1 up to $end"
    carry_down
    agent shop 0 "from hq took 1 up to $end" 'to hq put 1'
    carry_up
    agent hq 0 'from shop took 0'
    carry_down
    await is_clear

    say "$1: a file is under way while the agent runs"
    write_large 100
    slow_down
    await is_begun
    look
    agent shop "$early_status" "$early_line" 'from hq took 0'
    finish_down
    agent shop 0 "from hq took 1 up to $end"

    say "$1: the carrier is killed in the middle, and runs again"
    write_large 200
    slow_down
    await is_begun
    sleep 0.3
    kill_carrier
    look
    agent shop "$early_status" "$early_line" 'from hq took 0'
    carry_down
    agent shop 0 "from hq took 1 up to $end"
    carry_up
    agent hq 0 'from shop took 0'
    carry_down
    await is_clear
    look

    # The five files as they were before the agent's run are what a machine that stops between a put and its note leaves.
    say "$1: the head office's machine stops between a put and its note, and the next run puts a longer message under the same name"
    sql hq "INSERT INTO note VALUES (1001, 'chair'); COMMIT;"
    mkdir "$folder/kept" && cp "$folder"/hq/hq.* "$folder/kept"
    agent hq 0 "to shop put 1 up to $end"
    carry_down
    cp "$folder"/kept/hq.* "$folder/hq"
    sql hq "INSERT INTO note VALUES (1002, 'stool'); COMMIT;"
    agent hq 0 "to shop put 1 up to $end"
    carry_down
    agent shop 0 "from hq took 2 up to $end"

    say "$1: the same, but the shop has taken the first message before the second comes"
    sql hq "INSERT INTO note VALUES (1003, 'desk'); COMMIT;"
    cp "$folder"/hq/hq.* "$folder/kept"
    agent hq 0 "to shop put 1 up to $end"
    carry_down
    agent shop 0 "from hq took 1 up to $end"
    cp "$folder"/kept/hq.* "$folder/hq"
    sql hq "INSERT INTO note VALUES (1004, 'shelf'); COMMIT;"
    agent hq 0 "to shop put 1 up to $end"
    carry_down
    agent shop 0 "from hq took 1 up to $end"

    say "$1: a file that is still being written at the head office is not taken from it"
    echo half >"$folder/hq/box/shop/.hq.000000000000ffff"
    sql hq "INSERT INTO note VALUES (1005, 'table'); COMMIT;"
    agent hq 0 "to shop put 1 up to $end"
    carry_down
    look
    [ -e "$folder/hq/box/shop/.hq.000000000000ffff" ] || differs 'the carrier took it away'
    [ ! -e "$folder/shop/box/shop/.hq.000000000000ffff" ] || differs 'the carrier brought it'
    agent shop 0 "from hq took 1 up to $end"

    carry_up
    agent hq 0 'from shop took 0'
    say "$1: in the end"
    last=$end
    sql shop 'SELECT COUNT(*), MIN(id), MAX(id) FROM note;'
    [ "$said" = "66|1|1005
1 rows" ] || differs 'these are not the rows of the head office'
    shows=$(cd "$folder/hq" && "$program" show hq)
    echo '$ dbremote show hq'
    echo "$shows"
    case $shows in
        *"address shop $last $last "*) ;;
        *) differs 'the head office has not everything as confirmed' ;;
    esac
    end_carrier
    rm -rf "$folder/hq" "$folder/shop" "$folder/kept" "$folder/drive" "$folder/rclone.conf"
}

# rsync writes under a name with a dot in front, and renames.
use_rsync() {
    early_status=0
    early_line='to hq put 0'
    begin_carrier() { :; }
    end_carrier() { :; }
    carry_down() { copy hq shop shop; }
    carry_up() { copy shop hq hq; }
    copy() {
        mkdir -p "$folder/$1/box/$3" "$folder/$2/box/$3"
        echo "\$ rsync -rt --exclude '.*' --remove-source-files $1/box/$3/ $2/box/$3/"
        rsync -rt --exclude '.*' --remove-source-files "$folder/$1/box/$3/" "$folder/$2/box/$3/" || differs "rsync ended with $?"
    }
    slow_down() {
        echo "\$ rsync -rt --exclude '.*' --remove-source-files --bwlimit=300 hq/box/shop/ shop/box/shop/ &"
        start rsync -rt --exclude '.*' --remove-source-files --bwlimit=300 "$folder/hq/box/shop/" "$folder/shop/box/shop/"
    }
    finish_down() { wait "$group"; }
    kill_carrier() { kill_group "$group"; }
}

# rclone, over a drive that both reach; here a WebDAV server of its own. It writes under the file's own name, or since 1.63 under one that ends in
# .partial: both are listed, and no message yet.
use_rclone() {
    early_status=1
    early_line='junk hq\.'
    begin_carrier() {
        mkdir -p "$folder/drive"
        await serve_drive
        printf '[drive]\ntype = webdav\nurl = http://127.0.0.1:%s\nvendor = other\n' "$port" >"$folder/rclone.conf"
        await see_drive
    }
    end_carrier() { kill_group "$server"; }
    # A port that is taken ends the server at once.
    serve_drive() {
        port=$(awk -v seed="$$$tries" 'BEGIN { srand(seed); print int(20000 + rand() * 10000) }')
        start rclone serve webdav --addr "127.0.0.1:$port" "$folder/drive"
        server=$group
        sleep 0.5
        kill -0 "$server" 2>/dev/null
    }
    see_drive() { rclone --config "$folder/rclone.conf" lsf drive: >/dev/null 2>&1; }
    move() {
        echo "\$ rclone move --exclude '.*' $1 $2"
        case $1 in
            drive:*) rclone --config "$folder/rclone.conf" move --exclude '.*' "$1" "$folder/$2" || differs "rclone ended with $?" ;;
            *) rclone --config "$folder/rclone.conf" move --exclude '.*' "$folder/$1" "$2" || differs "rclone ended with $?" ;;
        esac
    }
    carry_down() {
        move hq/box/shop drive:box/shop
        move drive:box/shop shop/box/shop
    }
    carry_up() {
        move shop/box/hq drive:box/hq
        move drive:box/hq hq/box/hq
    }
    slow_down() {
        move hq/box/shop drive:box/shop
        echo "\$ rclone move --exclude '.*' --bwlimit 300k drive:box/shop shop/box/shop &"
        start rclone --config "$folder/rclone.conf" move --exclude '.*' --bwlimit 300k drive:box/shop "$folder/shop/box/shop"
    }
    finish_down() { wait "$group"; }
    kill_carrier() { kill_group "$group"; }
}

# Syncthing, with box as one folder of two devices. It runs all the time: what carries is that one waits for it.
use_syncthing() {
    early_status=0
    early_line='to hq put 0'
    begin_carrier() {
        for name in hq shop; do
            syncthing generate --home="$folder/$name/home" >/dev/null 2>&1
            echo '.*' >"$folder/$name/box/.stignore"
        done
        hq_device=$(syncthing --home="$folder/hq/home" --device-id)
        shop_device=$(syncthing --home="$folder/shop/home" --device-id)
        port=$(awk -v seed="$$" 'BEGIN { srand(seed); print int(20000 + rand() * 10000) }')
        configure hq "$hq_device" "$port" shop "$shop_device" $((port + 1))
        configure shop "$shop_device" $((port + 1)) hq "$hq_device" "$port"
        serve hq
        hq_group=$group
        serve shop
        shop_group=$group
    }
    end_carrier() {
        kill_group "$hq_group"
        kill_group "$shop_group"
    }
    # It is one process, in the group that is killed: it has no other one that watches it, and with low priority it would make a group of its own.
    serve() { start env STMONITORED=yes syncthing serve --home="$folder/$1/home" --no-browser --no-restart; }
    # What one device has: its name, its number and its port, and those of the other. Nobody else is asked or told. The head office sends 300 KiB a second.
    configure() {
        cat >"$folder/$1/home/config.xml" <<END
<configuration version="35">
  <folder id="box" path="$folder/$1/box" type="sendreceive" rescanIntervalS="5" fsWatcherEnabled="true" fsWatcherDelayS="1">
    <device id="$2"></device>
    <device id="$5"></device>
  </folder>
  <device id="$2" name="$1"><address>dynamic</address></device>
  <device id="$5" name="$4"><address>tcp://127.0.0.1:$6</address></device>
  <gui enabled="false"></gui>
  <options>
    <listenAddress>tcp://127.0.0.1:$3</listenAddress>
    <globalAnnounceEnabled>false</globalAnnounceEnabled>
    <localAnnounceEnabled>false</localAnnounceEnabled>
    <relaysEnabled>false</relaysEnabled>
    <natEnabled>false</natEnabled>
    <stunServer></stunServer>
    <urAccepted>-1</urAccepted>
    <autoUpgradeIntervalH>0</autoUpgradeIntervalH>
    <crashReportingEnabled>false</crashReportingEnabled>
    <reconnectionIntervalS>1</reconnectionIntervalS>
    <setLowPriority>false</setLowPriority>
    <limitBandwidthInLan>true</limitBandwidthInLan>
    <maxSendKbps>300</maxSendKbps>
  </options>
</configuration>
END
    }
    # Whether both sides have the same files with the same bytes.
    is_equal() {
        (cd "$folder/hq/box" && find . -type f ! -name '.*' -exec cksum {} + | LC_ALL=C sort) >"$folder/at-hq"
        (cd "$folder/shop/box" && find . -type f ! -name '.*' -exec cksum {} + | LC_ALL=C sort) >"$folder/at-shop"
        cmp -s "$folder/at-hq" "$folder/at-shop"
    }
    carry_down() {
        await is_equal
        echo '... Syncthing has both folders equal'
    }
    carry_up() { carry_down; }
    slow_down() { :; }
    finish_down() { carry_down; }
    # The shop's side is killed, and begins again.
    kill_carrier() {
        kill_group "$shop_group"
        serve shop
        shop_group=$group
    }
}

for carrier in ${carriers:-rsync rclone syncthing}; do
    if ! command -v "$carrier" >/dev/null || ! command -v setsid >/dev/null; then
        echo "carriers: $carrier is left out, for it is not there"
        continue
    fi
    before=$wrong
    wrong=0
    "use_$carrier"
    try_carrier "$carrier"
    if [ $wrong -eq 0 ]; then
        echo "carriers: $carrier carries as the page has it ($("$carrier" --version | sed -n 1p))"
        wrong=$before
    else
        echo "carriers: $carrier does not carry as the page has it"
    fi
done
exit $wrong
