#!/bin/bash
# Set up, start and stop a real LinFBB mailbox (xfbbd, Debian package fbb) on loopback only.
#
#   linfbb-setup.sh start [FOLDER]   install if needed, configure in FOLDER (default: mktemp -d),
#                                    start in background, wait for the port; prints FOLDER last
#   linfbb-setup.sh stop FOLDER      stop the daemon that start wrote down in FOLDER/xfbbd.pid
#
# Environment (all optional):
#   TELNET_PORT   where LinFBB listens, 127.0.0.1 only            (default 16300)
#   CALL_PORT     where LinFBB calls the partner, 127.0.0.1       (default 16301)
#   PARTNER       the partner's callsign                          (default N0DE)
#   FBBCOMP       value of fbb.conf's fbbcomp                     (default "OK 3")
#   FBBFWD        value of fbb.conf's fbbfwd                      (default "OK 160")
#   FWD_EXTRA     extra lines for the partner's forward block     (default none)
#   MXBLOC        size limit of a block in KB                     (default 10)
#   CALLOUT       1: LinFBB calls the partner at each full minute when it has mail for it;
#                 0: never within the next half hour              (default 0)
#   SECURITY      value of fbb.conf's security; 8 12 59 lets all callers give the
#                 sysop's commands, FR (call a partner now) among them    (default 0 4 59)
#   SOURCE_EXTRA  extra lines for F0SRC's forward block           (default none)
#   CONSOLE_PORT  where its console listens for xfbbC, on all addresses: xfbbd has no other
#                 way; F0CON may look on with CONSOLE_WORD        (default none)
#
# Besides PARTNER a second mailbox F0SRC is declared, to bring messages in by forwarding at once
# (the file FOLDER/var/mail/mail.in is read at each full minute only).
set -eu

TELNET_PORT=${TELNET_PORT:-16300}
CALL_PORT=${CALL_PORT:-16301}
PARTNER=${PARTNER:-N0DE}
FBBCOMP=${FBBCOMP:-OK 3}
FBBFWD=${FBBFWD:-OK 160}
FWD_EXTRA=${FWD_EXTRA:-}
MXBLOC=${MXBLOC:-10}
CALLOUT=${CALLOUT:-0}
SECURITY=${SECURITY:-0 4 59}
SOURCE_EXTRA=${SOURCE_EXTRA:-}
CONSOLE_PORT=${CONSOLE_PORT:-}
BBS=F0FBB.TST.FRA.EU

install_pkg() {
    command -v xfbbd >/dev/null && return 0
    export DEBIAN_FRONTEND=noninteractive
    apt-get install -y --no-install-recommends fbb >/dev/null 2>&1 ||
        { apt-get update >/dev/null && apt-get install -y --no-install-recommends fbb >/dev/null; }
}

start() {
    install_pkg
    local d
    if [ $# -ge 1 ]; then d=$1; mkdir -p "$d"; else d=$(mktemp -d -t linfbb.XXXXXX); fi
    d=$(cd "$d" && pwd)
    local lib
    lib=$(dpkg -L fbb | grep '/fbb/tool$' | head -1); lib=${lib%/tool}

    if [ ! -f "$d/fbb.conf" ]; then
        cp -r /etc/ax25/fbb "$d/etc"
        mkdir -p "$d/var/log" "$d/var/oldmail" "$d/var/sat" "$d/var/wp" "$d/var/docs" \
                 "$d/var/fbbdos/yapp" "$d/var/fbbdos/readonly"
        local n
        for n in 0 1 2 3 4 5 6 7 8 9; do
            mkdir -p "$d/var/mail/mail$n" "$d/var/binmail/mail$n"
        done

        cat > "$d/fbb.conf" <<CONF
version = FBB7.0.11
callsign = $BBS
ssid = 1
qraloc = JN03QL
city = Testtown
name = Sysop
sysop = F0SYS
data = $d/var
config = $d/etc
messages = $d/var/mail
compressed = $d/var/binmail
fbbdos = *,*,$d/var/fbbdos,*,*,*,*,*
yapp = $d/var/fbbdos/yapp
docs = $d/var/docs
pg = $lib/pg
fdir = $lib/filter
sdir = $lib/server
tdir = $lib/tool
import = $d/var/mail/mail.in
logs = OK
test = NO
fbbfwd = $FBBFWD
fbbcomp = $FBBCOMP
askinfo = NO
# 16 BBS + 128 modem/telnet allowed: whoever logs in first time is a mailbox
mask = 144
security = $SECURITY
warning = 0
housekeeping = 2
timeout = 10 20
maxdownload = 0 0
localtime = 0
beacon = 0
scroll = 1500 1500 1500
fwdheader = [\$c] \$\$:\$R
maxbids = 30000
lifetime = 30
zipcode = 00000
unprotoes = 500 5 P
CONF

        local when=00/01
        [ "$CALLOUT" = 1 ] || when=$(printf '%02d/60' $(( (10#$(date +%M) + 30) % 60 )))
        # address with dots + port in the baud column: LinFBB binds that address only
        cat > "$d/etc/port.sys" <<CONF
#Ports TNCs
1 1
#Com Interface Address Baud
1 9 127.0.0.1 $TELNET_PORT
#TNC NbCh Com MultCh Pacln Maxfr NbFwd MxBloc M/P-Fwd Mode Freq
0 0 0 0 0 0 0 0 00/01 ---- File-fwd.
1 8 1 0 250 2 4 $MXBLOC $when TUY Telnet
CONF

        {
            printf '01 %s\n02 F0SRC\n' "$PARTNER"
            for n in $(seq 3 80); do printf '%02d \n' "$n"; done
        } > "$d/etc/bbs.sys"

        mkdir -p "$d/etc/fwd"
        printf '< fwd/partner.fwd\n< fwd/source.fwd\n' > "$d/etc/forward.sys"
        printf 'A F0SRC\nP A\nC C F0SRC 127.0.0.1 1\nB F0SRC\nF F0SRC\n%s\n--------\n' "$SOURCE_EXTRA" > "$d/etc/fwd/source.fwd"
        cat > "$d/etc/fwd/partner.fwd" <<CONF
A $PARTNER
P A
C C $PARTNER 127.0.0.1 $CALL_PORT
B $PARTNER
F $PARTNER
G WW
G EU
T D
$FWD_EXTRA
--------
CONF

        # loopback callers need no password
        printf 'password\n127.0.0.1 +\n' > "$d/etc/passwd.sys"
        [ -z "$CONSOLE_PORT" ] || printf 'F0CON 63 1023 %s\n' "$CONSOLE_WORD" >> "$d/etc/passwd.sys"
        # the package's own rules hold each bulletin; ours reject TO=REJME and hold TO=HOLDME
        printf 'R B * * REJME * 0\nH B * * HOLDME * 0\n' > "$d/etc/reject.sys"
        # English for all
        printf '1 1 1\nENGLISH\n' > "$d/etc/langue.sys"
        printf '# none\n' > "$d/etc/cron.sys"
    fi

    cd "$d/var"
    export FBBCONF="$d/fbb.conf" FBBDIR="$d/var" TZ=UTC PATH="$lib/tool:$PATH"
    # At its first start xfbbd asks (Y/N) on stdin for each data file it must make, and spins
    # for ever at end of file. So: one run in init mode with an endless "y", under a time limit.
    # It answers 2 when all is well. ulimit keeps a runaway log small.
    if [ ! -f "$d/init.log" ]; then
        local rc=0
        ( ulimit -f 20000; yes y 2>/dev/null | timeout -s KILL 60 xfbbd -v -i >"$d/init.log" 2>&1; exit "${PIPESTATUS[1]}" ) || rc=$?
        if [ "$rc" != 2 ]; then
            echo "LinFBB init answered $rc; its log:" >&2
            head -c 4000 "$d/init.log" >&2
            return 1
        fi
    fi
    # -n: no console server, so the telnet port is the only listener
    local console=(-n)
    [ -z "$CONSOLE_PORT" ] || console=(-p "$CONSOLE_PORT")
    ( ulimit -f 200000; exec setsid nohup xfbbd -v "${console[@]}" </dev/null >"$d/xfbbd.log" 2>&1 ) &
    echo $! > "$d/xfbbd.pid"
    local i
    for i in $(seq 1 300); do
        if (exec 3<>"/dev/tcp/127.0.0.1/$TELNET_PORT") 2>/dev/null; then
            echo "LinFBB runs, pid $(cat "$d/xfbbd.pid"), 127.0.0.1:$TELNET_PORT" >&2
            echo "$d"
            return 0
        fi
        if ! kill -0 "$(cat "$d/xfbbd.pid")" 2>/dev/null; then break; fi
        sleep 0.1
    done
    echo "LinFBB did not come up; its log:" >&2
    stop "$d"
    head -c 4000 "$d/xfbbd.log" >&2
    return 1
}

stop() {
    local d=$1 p i
    p=$(cat "$d/xfbbd.pid")
    kill -TERM "$p" 2>/dev/null || true
    for i in $(seq 1 50); do
        kill -0 "$p" 2>/dev/null || { rm -f "$d/xfbbd.pid"; return 0; }
        sleep 0.1
    done
    kill -KILL "$p" 2>/dev/null || true
    rm -f "$d/xfbbd.pid"
}

case "${1:-}" in
    start) shift; start "$@" ;;
    stop) shift; stop "$@" ;;
    *) sed -n '2,25p' "$0"; exit 2 ;;
esac
