#!/usr/bin/env python3
"""Has name servers load what `zone_fetch --text` prints, and compares what they serve of it with the zone.

    python3 tests/load_zones.py PROGRAM [ZONE_FILE..]

PROGRAM is the built zone_fetch; a ZONE_FILE has a zone's records in presentation form, and is named for the zone and an end, as
`all.test.zone`. Where none is named, a zone is made here, with a record of each type that has a form of its own and some that have
none. An NSD serves the zone; what `--text` prints of it must pass named-checkzone, nsd-checkzone, ldns-read-zone, kzonecheck and
PowerDNS' zone2json without a complaint, and an NSD, a BIND, a Knot and a PowerDNS that load it must send the zone that the first one sends,
octet for octet as it is printed without `--text`. Each line must end in a comment with the data in hexadecimal digits, as it is
printed without `--text`. `--from` must read what either prints, and no text whose last comment or line feed is cut. What isn't
installed is passed over, and that is said. The first difference ends it with status 1. (A BIND loads no MD and no MF in any form, and a
PowerDNS no generic data of a type that it knows, and no mnemonics of CERT: it is told which, and what is left is compared.)
"""

import shutil
import socket
import subprocess
import sys
import tempfile
import time
from pathlib import Path

MADE = r"""
$ORIGIN made.test.
$TTL 300
@ SOA ns Host.Master 7 3600 900 86400 300
@ NS ns
@ NS ns2.Other.Test.
ns A 192.0.2.1
ns AAAA 2001:db8::1
*.wild A 192.0.2.2
od\.d\;\"\(\)\@\$\032\255 A 192.0.2.3
mail MX 10 ns
alias CNAME Mail
dname DNAME other.test.
ptr PTR ns
minfo MINFO ns mail
rp RP admin ns
afsdb AFSDB 1 ns
naptr NAPTR 100 10 "u" "E2U+sip" "!^.*$!sip:i;n\"f@e.example!" .
txt TXT "one" "two \"quoted\" \\ ; back" "\009\255" ""
long TXT "aaaaaaaaaaaaaaaaaaaaaaaaaaaaaaaaaaaaaaaaaaaaaaaaaaaaaaaaaaaaaaaaaaaaaaaaaaaaaaaaaaaaaaaaaaaaaaaaaaaaaaaaaaaaaaaaa" "b"
spf SPF "v=spf1 -all"
hinfo HINFO "PC \"x\"" "a;b"
_sip._tcp SRV 10 60 5060 ns
caa CAA 0 issue "ca.example; policy=\"x\""
tlsa TLSA 3 1 1 0123456789ABCDEF
smimea SMIMEA 3 1 1 0123456789ABCDEF
sshfp SSHFP 4 2 123456789abcdef67890123456789abcdef67890123456789abcdef123456789
loc LOC 51 30 12.748 N 0 7 39.611 W 0.00m 0.00m 0.00m 0.00m
uri URI 10 1 "https://example.com/?a=\"b;c\""
https HTTPS 1 . alpn="h2,h3" ipv4hint=192.0.2.1 ipv6hint=2001:db8::1
svcb SVCB 1 svc.example.com. alpn="h3" port=8443 mandatory=alpn key65333="ab"
ds NS ns
ds DS 60485 8 2 D4B7D520E7BB5F0F67674A0CCEB1E3E0614B93C4F9E99B8383F6A1E4469DA50A
kx KX 10 mail
openpgp OPENPGPKEY mQENBA==
cert CERT PKIX 1 RSASHA256 AQIDBA==
apl APL 1:192.168.32.0/21 !1:192.168.38.0/28
x25 TYPE19 \# 13 0c333131303631373030393536
eui48 EUI48 00-00-5e-00-53-2a
mb TYPE7 \# 4 026e7300
mg TYPE8 \# 4 026e7300
mr TYPE9 \# 4 026e7300
null TYPE10 \# 2 0102
wks TYPE11 \# 6 c00002010640
isdn TYPE20 \# 3 023135
rt TYPE21 \# 6 000a026e7300
nsap TYPE22 \# 3 470005
sig TYPE24 \# 24 000105010000000e1000000001000000020003026e73000102
key TYPE25 \# 6 020003050102
px TYPE26 \# 10 000a026e7300026e7300
gpos TYPE27 \# 6 013101320133
nxt TYPE30 \# 8 026e730040000002
ipseckey TYPE45 \# 5 0a00020102
dhcid TYPE49 \# 35 000201636fc0b8271c82825bb1ac5c41cf5351aa69b4febd94e8f17cdb95000da48c40
csync TYPE62 \# 9 000000070003000140
none TYPE65400 \# 0
other TYPE65401 \# 3 0a0d3b
"""


def free_port():
    with socket.socket() as s:
        s.bind(("127.0.0.1", 0))
        return s.getsockname()[1]


def nsd(folder, zone, port):
    (folder / "nsd.conf").write_text(f"""server:
  ip-address: 127.0.0.1@{port}
  do-ip6: no
  username: ""
  chroot: ""
  zonesdir: "{folder}"
  pidfile: "{folder}/pid"
  xfrdfile: "{folder}/xfrd"
  xfrdir: "{folder}"
  zonelistfile: "{folder}/list"
  database: ""
remote-control:
  control-enable: no
zone:
  name: {zone}
  zonefile: zone
  provide-xfr: 127.0.0.1 NOKEY
""")
    return ["nsd", "-d", "-c", str(folder / "nsd.conf")]


def named(folder, zone, port):
    (folder / "named.conf").write_text(f"""options {{
  directory "{folder}"; pid-file "{folder}/pid"; session-keyfile "{folder}/key";
  listen-on port {port} {{ 127.0.0.1; }}; listen-on-v6 {{ none; }};
  recursion no; allow-transfer {{ any; }}; dnssec-validation no;
}};
controls {{ }};
zone "{zone}" {{ type primary; file "zone"; masterfile-format text; check-names ignore; check-integrity no; }};
""")
    return ["named", "-f", "-c", str(folder / "named.conf")]


def knotd(folder, zone, port):
    (folder / "knot.conf").write_text(f"""server:
    listen: 127.0.0.1@{port}
    rundir: {folder}
database:
    storage: {folder}
acl:
  - id: all
    address: 127.0.0.0/8
    action: transfer
zone:
  - domain: {zone}
    storage: {folder}
    file: zone
    zonefile-sync: -1
    acl: all
""")
    return ["knotd", "-c", str(folder / "knot.conf")]


def pdns_server(folder, zone, port):
    """PowerDNS with the backend that reads zone files, which lies beside the server."""
    backend = Path(shutil.which("pdns_server")).resolve().parents[1].rglob("libbindbackend.so")
    (folder / "named.conf").write_text(f"""options {{ directory "{folder}"; }};
zone "{zone}" {{ type master; file "{folder}/zone"; }};
""")
    (folder / "pdns.conf").write_text(f"""launch=bind
module-dir={next(backend).parent}
bind-config={folder}/named.conf
local-address=127.0.0.1
local-port={port}
socket-dir={folder}
allow-axfr-ips=127.0.0.0/8
guardian=no
daemon=no
""")
    return ["pdns_server", f"--config-dir={folder}"]


SERVERS = {"nsd": nsd, "named": named, "knotd": knotd, "pdns_server": pdns_server}


def checks(zone, path):
    """The commands that read a zone file."""
    return [
        ["named-checkzone", "-k", "ignore", "-i", "none", zone, path],
        ["nsd-checkzone", zone, path],
        ["ldns-read-zone", path],
        ["kzonecheck", "-o", zone, path],
        ["zone2json", f"--zone={path}", f"--zone-name={zone}"],
    ]


def fetched(program, zone, port, *options):
    done = subprocess.run([program, *options, "--port", str(port), zone, "127.0.0.1"], capture_output=True, text=True)
    return done.stdout if done.returncode == 0 else None


def read_back(program, folder, zone, port, plain, printed):
    """`--from` reads what `--text` printed, and not a line whose comment is cut."""
    file = folder / "printed"
    cut = printed.rstrip("\n")[:-1] + "\n"
    for text, wanted in ((printed, plain), (plain, plain), (cut, None), (printed.rstrip("\n"), None)):
        file.write_text(text)
        words = [program, "--from", str(file), "--port", str(port), zone, "127.0.0.1"]
        done = subprocess.run(words, capture_output=True, text=True)
        if (done.returncode, done.stdout) not in ([(1, "")] if wanted is None else [(0, wanted), (9, "")]):
            sys.exit(f"{zone}: --from ends with {done.returncode}: {done.stdout[:200]}{done.stderr[:200]}")


def answers(zone, port):
    """Whether a server answers a question for the zone's SOA without an error."""
    name = b"".join(bytes([len(label)]) + label.encode() for label in zone.split(".")) + b"\0"
    with socket.socket(socket.AF_INET, socket.SOCK_DGRAM) as asked:
        asked.settimeout(0.2)
        try:
            asked.connect(("127.0.0.1", port))
            asked.send(b"\0\1\0\0\0\1\0\0\0\0\0\0" + name + b"\0\6\0\1")
            return asked.recv(4096)[3] & 15 == 0
        except OSError:
            return False


def attempt(program, top, server, zone, text):
    """The zone as a server that loads a text sends it, printed without --text and with it, or None with what the server said."""
    folder, port = Path(tempfile.mkdtemp(dir=top)), free_port()
    (folder / "zone").write_text(text)
    with open(folder / "log", "w") as log:
        process = subprocess.Popen(SERVERS[server](folder, zone, port), stdout=log, stderr=log)
    try:
        for _ in range(100):
            time.sleep(0.1)
            if answers(zone, port) or process.poll() is not None:
                break
        for _ in range(5):
            plain = fetched(program, zone, port)
            if plain is not None:
                printed = fetched(program, zone, port, "--text")
                read_back(program, folder, zone, port, plain, printed)
                return plain, printed
            time.sleep(0.1)
    finally:
        process.terminate()
        process.wait()
    return None, (folder / "log").read_text()[-2000:]


def served(program, top, server, zone, text):
    plain, printed = attempt(program, top, server, zone, text)
    if plain is None:
        sys.exit(f"{server} does not serve {zone}: {printed}")
    return plain, printed


def without_refused(program, top, server, zone, printed):
    """The lines without those that a server refuses beside the SOA, name servers and addresses, and the types of these."""
    lines = printed.splitlines(keepends=True)
    taken = [line for line in lines if line.split(" ")[3] in ("SOA", "NS", "A")]
    refused = [line for line in lines if line not in taken and attempt(program, top, server, zone, "".join([*taken, line]))[0] is None]
    return "".join(line for line in lines if line not in refused), [line.split(" ")[3] for line in refused]


def check_comments(zone, plain, text):
    """Each line ends in the digits of the line without --text."""
    ours, theirs = text.splitlines(), plain.splitlines()
    if len(ours) != len(theirs):
        sys.exit(f"{zone}: {len(ours)} lines, {len(theirs)} without --text")
    for one, other in zip(ours, theirs):
        digits = other.split(" ")[4].replace("-", "")
        if one[one.rindex("; ") + 2:].lower() != digits or one.split(" ")[1] != other.split(" ")[1]:
            sys.exit(f"{zone}: {one!r} is not {other!r}")


def try_zone(program, top, zone, text):
    first = next((s for s in SERVERS if shutil.which(s)), None)
    if first is None:
        sys.exit("no name server is installed")
    plain, printed = served(program, top, first, zone, text)
    check_comments(zone, plain, printed)
    path, original = str(Path(top) / f"{zone}.printed"), str(Path(top) / f"{zone}.zone")
    Path(path).write_text(printed)
    Path(original).write_text(text)
    for command in checks(zone, path):
        if not shutil.which(command[0]):
            print(f"skipped: no {command[0]}")
            continue
        done = subprocess.run(command, capture_output=True, text=True)
        if done.returncode != 0 and subprocess.run([word.replace(path, original) for word in command], capture_output=True).returncode != 0:
            print(f"{zone}: {command[0]} refuses what the zone holds, also as it was")
            continue
        said = done.stdout + done.stderr if command[0] not in ("ldns-read-zone", "zone2json") else done.stderr
        if done.returncode != 0 or "rror" in said or "nable" in said:
            sys.exit(f"{zone}: {command[0]} ends with {done.returncode}: {said[:2000]}")
        print(f"{zone}: {command[0]} reads it")
    for server in SERVERS:
        if not shutil.which(server):
            print(f"skipped: no {server}")
            continue
        text, wanted = printed, plain
        if server == "pdns_server" and attempt(program, top, server, zone, text)[0] is None:
            # PowerDNS takes generic data only of types that it doesn't know, and no mnemonics of CERT.
            text, refused = without_refused(program, top, server, zone, printed)
            print(f"{zone}: {server} refuses {' '.join(refused)}")
            wanted = served(program, top, first, zone, text)[0]
        if served(program, top, server, zone, text)[0] != wanted:
            sys.exit(f"{zone}: {server} serves another zone")
        print(f"{zone}: {server} serves its {len(wanted.splitlines())} records")


def main():
    program, files = sys.argv[1], sys.argv[2:]
    with tempfile.TemporaryDirectory() as top:
        if not files:
            try_zone(program, top, "made.test", MADE)
        for file in files:
            try_zone(program, top, Path(file).name.rsplit(".", 1)[0], Path(file).read_text())


if __name__ == "__main__":
    main()
